#!/usr/bin/env python3
"""Grades the exercises of docs/EXERCISES.md: a folder for each student, and a line of CSV for each of them.

    tools/grade.py [OPTION..] FOLDER..

    --reports FOLDER   where the report of each student goes [default: reports]
    --seeds FILE       CSV with the columns student and seed: the coins of exercises 5 and 6
    --make-seeds NAME  prints such a file for these students, for a course of this name, and grades nothing
    --seconds N        most seconds for each exercise [default: 20]
    --memory MIB       most mebibytes for each process; 0 is no limit [default: 2048]

A student has the name of the folder. A process of its own grades each one (tools/exercises.py). docs/TEACHING.md has a
lesson with it. CLOCKBED names the program, otherwise it is the one of this folder.
"""
import argparse
import csv
import hashlib
import itertools
import json
import os
import pathlib
import subprocess
import sys
from concurrent.futures import ThreadPoolExecutor

sys.dont_write_bytecode = True
from exercises import EXERCISES, SEEDED_PULSES
from python_package import use_package

use_package()
from clockbed import Bench, ClockbedError, Load, ProgramKind

CHECKER = pathlib.Path(__file__).resolve().parent / "exercises.py"
SECONDS_BESIDE, SECONDS_TO_END = 30, 10
SEED_DIGITS = 6
# Which nodes get the message 1 from the Byzantine nodes, in the attacks by which a seed is tried.
SPLITS = {(4, 2): 1, (6, 2): 2}


class Failed(Exception):
    """Says why nothing is graded."""


def named_students(folders):
    """The folders by the names of their students."""
    students = {}
    for folder in map(pathlib.Path, folders):
        name = folder.resolve().name
        if not folder.is_dir():
            raise Failed(f"{folder} is no folder; name one folder for each student")
        if name in students:
            raise Failed(f"{folder} and {students[name]} have one name; give each student's folder another name")
        students[name] = folder
    return students


# Seeds.


def read_seeds(path, students):
    with open(path, newline="", encoding="utf-8") as lines:
        rows = list(csv.DictReader(lines))
    try:
        seeds = {row["student"]: int(row["seed"]) for row in rows}
    except (KeyError, TypeError, ValueError):
        raise Failed(f"{path} needs the columns student and seed, and a whole number for each seed") from None
    without = sorted(set(students) - set(seeds))
    if without:
        raise Failed(f"{path} has no seed for {', '.join(without)}; add lines for them")
    return seeds


def has_attack(seed, nodes, faults):
    """Whether one of the plain attacks on these clocks violates agreement with the coins of a seed."""
    bench = Bench(nodes, faults, correct=range(nodes - SPLITS[nodes, faults]))
    for told in itertools.combinations(bench.correct_nodes, SPLITS[nodes, faults]):
        values = tuple(1 if node in told else 0 for node in range(nodes))
        attack = Load(1, bench.byzantine_nodes, ProgramKind.SAY, values=values)
        if bench.loaded(attack).run(SEEDED_PULSES, key=seed).violations:
            return True
    return False


def made_seed(course, student, used):
    """A seed that no other student has, and with which exercises 5 and 6 have an answer."""
    for count in itertools.count():
        digest = hashlib.sha256(f"{course}/{student}/{count}".encode()).hexdigest()
        seed = int(digest, 16) % 10**SEED_DIGITS
        if seed not in used and all(has_attack(seed, *bench) for bench in SPLITS):
            return seed


def print_seeds(course, students):
    lines = csv.writer(sys.stdout, lineterminator="\n")
    lines.writerow(["student", "seed"])
    used = set()
    for student in students:
        used.add(seed := made_seed(course, student, used))
        lines.writerow([student, seed])


# Grades.


def last_line(text):
    return text.decode(errors="replace").strip().rpartition("\n")[2]


def ended(process):
    """Ends a process, which ends the program that it asks, and returns what it wrote."""
    process.terminate()
    try:
        return process.communicate(timeout=SECONDS_TO_END)
    except subprocess.TimeoutExpired:
        process.kill()
        return process.communicate()


def results_of(folder, seed, given):
    """The results of all exercises, by a process that ends with its time."""
    words = [sys.executable, str(CHECKER), "--json", "--seconds", str(given.seconds), "--memory", str(given.memory)]
    if seed is not None:
        words += ["--seed", str(seed)]
    process = subprocess.Popen([*words, str(folder)], stdout=subprocess.PIPE, stderr=subprocess.PIPE)
    try:
        out, err = process.communicate(timeout=given.seconds * len(EXERCISES) + SECONDS_BESIDE)
        reason = f"the checks ended early: {last_line(err)}"
    except subprocess.TimeoutExpired:
        out, err = ended(process)
        reason = "the time for all exercises is over"
    told = {it["exercise"]: it for it in map(json.loads, out.decode().splitlines())}
    if not told:
        raise Failed(last_line(err) or f"{CHECKER} ended with status {process.returncode}")
    return [told.get(number, {"result": "limit", "reason": reason}) for number in EXERCISES]


def report_of(student, seed, results):
    """The report for the student: what is done, and what is wrong with the rest."""
    done = sum(it["result"] == "done" for it in results)
    lines = [f"{student}: {done} of {len(results)} exercises are done" + f", seed {seed}" * (seed is not None), ""]
    for (number, (topic, _)), it in zip(EXERCISES.items(), results):
        lines.append(f"{number}. {topic}: {it['result']}" + f"\n   {it['reason']}" * bool(it["reason"]))
    return "\n".join(lines) + "\n"


def grade(students, seeds, given):
    reports = pathlib.Path(given.reports)
    reports.mkdir(parents=True, exist_ok=True)
    lines = csv.writer(sys.stdout, lineterminator="\n")
    lines.writerow(["student", "seed", *EXERCISES, "count"])
    with ThreadPoolExecutor(os.cpu_count()) as workers:
        asked = workers.map(lambda student: results_of(students[student], seeds.get(student), given), students)
        for student, results in zip(students, asked):
            words = [it["result"] for it in results]
            lines.writerow([student, seeds.get(student, ""), *words, words.count("done")])
            report = report_of(student, seeds.get(student), results)
            (reports / f"{student}.txt").write_text(report, encoding="utf-8")


def options():
    summary, _, rest = __doc__.partition("\n\n")
    parser = argparse.ArgumentParser(description=summary, epilog=rest, formatter_class=argparse.RawTextHelpFormatter)
    parser.add_argument("folders", metavar="FOLDER", nargs="+")
    parser.add_argument("--reports", default="reports")
    parser.add_argument("--seeds")
    parser.add_argument("--make-seeds")
    parser.add_argument("--seconds", type=int, default=20)
    parser.add_argument("--memory", type=int, default=2048)
    return parser.parse_args()


def main():
    given = options()
    try:
        students = named_students(given.folders)
        if given.make_seeds is not None:
            print_seeds(given.make_seeds, students)
        else:
            grade(students, read_seeds(given.seeds, students) if given.seeds else {}, given)
    except (Failed, ClockbedError, OSError) as why:
        print(f"grade: {why}", file=sys.stderr)
        return 1
    return 0


if __name__ == "__main__":
    sys.exit(main())
