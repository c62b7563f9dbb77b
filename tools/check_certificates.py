#!/usr/bin/env python3
"""Holds the tables of `verify --explain --all` against check_table.py, which has its own reading of the rules.

usage: check_certificates.py [PROGRAM]

PROGRAM is the built `clockbed`; without it CLOCKBED_PROGRAM, or else the one of this checkout. Asked are the programs
of vectors/kept.txt and vectors/results.tsv. The table of each that is accepted has to
type it, and no longer does where a range in it is made one number narrower. A refused one has to be explained as it is
refused. It prints what differs, and how many were tried.
"""
import re
import sys

sys.dont_write_bytecode = True
from built_program import TOP, answer, named_program, on_all_processors, tell
from check_table import Checker, Fault, program_of, table_of
from check_vectors import entries_of, rows_of

RANGE = re.compile(r"(\d+)\.\.(\d+)")


def kept_programs():
    """Texts with their nodes and memories."""
    for line, entry in entries_of(TOP / "vectors/kept.txt"):
        head, rest = entry.split("\n", 1)
        _, nodes, _, memory = head.split()
        yield f"kept.txt:{line}", rest.split("---- ")[0].encode(), int(nodes), int(memory)


def result_programs():
    for line, row in rows_of(TOP / "vectors/results.tsv"):
        yield f"results.tsv:{line}", "\n".join(row["text"].split(" ; ")).encode(), 4, 16


def why_not_typed(image, told, nodes, memory):
    """What is wrong with a table, or None where it types the program."""
    try:
        program, slots = program_of(image)
        table, verdict = table_of(told.splitlines())
        Checker(program, slots, table, nodes, memory).check(verdict)
    except Fault as fault:
        return str(fault)
    return None


def narrower(told):
    """The table with its last range of a register or of a double word one number narrower, where it has one."""
    rows = told.splitlines(keepends=True)
    for at in range(len(rows) - 1, 0, -1):
        spans = [found for found in RANGE.finditer(rows[at]) if "written" not in rows[at][:found.start()].split(", ")[-1]]
        if rows[at].startswith("slot ") and " # " in rows[at] and spans:
            lo, hi = (int(end) for end in spans[-1].groups())
            less = f"{lo}..{hi - 1}" if hi - 1 > lo else f"{lo}"
            rows[at] = rows[at][:spans[-1].start()] + less + rows[at][spans[-1].end():]
            return "".join(rows)
    return None


def differences_of(program, name, text, nodes, memory):
    options = ["--nodes", str(nodes), "--memory", str(memory)]
    image = answer(program, ["asm"], text).out
    verdict = answer(program, ["verify", *options], image)
    told = answer(program, ["verify", "--explain", "--all", *options], image).out.decode()
    if verdict.status == 2:
        return [] if verdict.out.decode() in told and "\nrule " in told else [f"{name}: not explained"]
    fault = why_not_typed(image, told, nodes, memory)
    if fault:
        return [f"{name}: not typed: {fault}"]
    less = narrower(told)
    if less and why_not_typed(image, less, nodes, memory) is None:
        return [f"{name}: typed by a table that says too much"]
    return []


def main():
    program = named_program()
    found = {"kept": list(kept_programs()), "results": list(result_programs())}
    asked = [one for programs in found.values() for one in programs]
    counts = {kind: len(programs) for kind, programs in found.items()}
    return tell("check_certificates", counts, on_all_processors(lambda one: differences_of(program, *one), asked))


if __name__ == "__main__":
    sys.exit(main())
