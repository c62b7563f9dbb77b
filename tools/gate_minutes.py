#!/usr/bin/env python3
"""Runs a command, and then prints the processor minutes that its checks took, by crate: tools/gate_minutes.py rt ci

A row has the crate, the minutes of its proof, of its tests and of its must-fail edits, and how many edits it has. The
tool looks at the command's processes twice a second. A check is told by its command line: a proof of a crate, one with
its tests, or one of an edit (with the proof that a crate's edits begin with). Then it prints the longest chain: the
crates that wait for one another and whose proofs take longest together. Exits with the command's status.

It keeps the minutes in out/gate_minutes.tsv, where a run replaces those of the crates that it checked:

    tools/gate_minutes.py --rows     prints the rows and their sums again
    tools/gate_minutes.py --chain    prints the longest chain by these rows
"""
import os
import pathlib
import re
import resource
import subprocess
import sys
import time

TOP = pathlib.Path(__file__).resolve().parent.parent
KEPT = TOP / "out" / "gate_minutes.tsv"
CRATE = re.compile(r"--crate-name\0(\w+)\0")
TICKS = os.sysconf("SC_CLK_TCK")
KINDS = ("proof", "tests", "edits")
SECONDS_BETWEEN = 0.5


def kind_of(words):
    """A library is proved by a build, so that a check of one tries an edit."""
    if "\0--test\0" in f"{words}\0":
        return "tests"
    is_edit = "\0--incremental\0" in words or "\0check\0" in words and "\0src/lib.rt\0" in words
    return "edits" if is_edit else "proof"


def fields_of(process):
    """The fields of a process from the third on, as proc(5) lists them."""
    return (process / "stat").read_text(encoding="utf-8", errors="replace").rpartition(")")[2].split()


def is_below(process, ancestor):
    """Returns true if the process descends from the other."""
    number = int(process.name)
    while number > 1 and number != ancestor:
        number = int(fields_of(pathlib.Path("/proc") / str(number))[1])
    return number == ancestor


def check_of(process, ancestor):
    """The crate and the kind of the check that a process below the other is, and its seconds so far, or None."""
    try:
        words = (process / "cmdline").read_bytes().decode(errors="replace")
        found = CRATE.search(words)
        if not found or not is_below(process, ancestor):
            return None
        # Its own ticks, and those of its children that it waited for.
        return found[1], kind_of(words), sum(int(it) for it in fields_of(process)[11:15]) / TICKS
    except OSError:
        return None


def watch(job):
    """The seconds of each check, by its process, crate and kind."""
    seen = {}
    while job.poll() is None:
        for process in pathlib.Path("/proc").glob("[0-9]*"):
            check = check_of(process, job.pid)
            if check:
                seen[process.name, check[0], check[1]] = check[2]
        time.sleep(SECONDS_BETWEEN)
    return seen


def edits_of(crate):
    return len(list((TOP / "crates" / crate / "must-fail").glob("*.edit")))


def cell(minutes):
    return f"{minutes:.1f}" if minutes else "none"


def minutes_by_crate(seen):
    """The minutes of each kind of check, by crate."""
    minutes = {}
    for (_, crate, kind), seconds in seen.items():
        minutes.setdefault(crate, dict.fromkeys(KINDS, 0.0))[kind] += seconds / 60
    return minutes


def print_rows(minutes):
    print("| Crate |", *(f"{kind.capitalize()} |" for kind in KINDS), "How many edits |")
    for crate, row in sorted(minutes.items(), key=lambda it: -sum(it[1].values())):
        print(f"| `{crate}` |", *(f"{cell(row[kind])} |" for kind in KINDS), f"{edits_of(crate) or 'none'} |")
    sums = (f"{kind} {sum(row[kind] for row in minutes.values()):.0f}" for kind in KINDS)
    print("gate_minutes: processor minutes:", ", ".join(sums))


def kept():
    """The minutes that earlier runs kept, or none."""
    if not KEPT.is_file():
        return {}
    _, *rows = (line.split("\t") for line in KEPT.read_text(encoding="utf-8").splitlines())
    return {crate: dict(zip(KINDS, map(float, row))) for crate, *row in rows}


def keep(minutes):
    rows = (f"{crate}\t" + "\t".join(f"{row[kind]:.3f}" for kind in KINDS) for crate, row in sorted(minutes.items()))
    KEPT.parent.mkdir(exist_ok=True)
    KEPT.write_text("\n".join(["\t".join(("crate", *KINDS)), *rows, ""]), encoding="utf-8")


def crates_below():
    """The crates of this repository that each crate uses, by crates.txt."""
    rows = re.findall(r"^(\w+)[^:#\n]*:(.*)$", (TOP / "crates.txt").read_text(encoding="utf-8"), re.M)
    used = {name: words.split() for name, words in rows}
    return {name: [it for it in words if it in used] for name, words in used.items()}


def longest_chain(proofs):
    """The chain of crates whose proofs take longest, lowest first, and its minutes."""
    below, ends = crates_below(), {}

    def end_at(name):
        if name not in ends:
            before = max((end_at(it) for it in below[name]), default=(0.0, ()))
            ends[name] = before[0] + proofs.get(name, 0.0), before[1] + (name,)
        return ends[name]

    return max(map(end_at, below), default=(0.0, ()))


def print_chain(minutes):
    total, chain = longest_chain({crate: row["proof"] for crate, row in minutes.items()})
    print(f"gate_minutes: longest chain: {total:.1f} minutes:", ", ".join(chain))


def print_kept(printed):
    minutes = kept()
    if not minutes:
        sys.exit(f"gate_minutes: {KEPT.relative_to(TOP)} has no rows: tools/gate_minutes.py rt ci measures them")
    printed(minutes)
    return 0


def main(words):
    if words in (["--rows"], ["--chain"]):
        return print_kept(print_rows if words == ["--rows"] else print_chain)
    began = time.monotonic()
    with subprocess.Popen(words) as job:
        minutes = minutes_by_crate(watch(job))
    print_rows(minutes)
    print_chain(minutes)
    keep({**kept(), **minutes})
    used = resource.getrusage(resource.RUSAGE_CHILDREN)
    processor, clock = (used.ru_utime + used.ru_stime) / 60, (time.monotonic() - began) / 60
    print(f"gate_minutes: {' '.join(words)} took {processor:.1f} minutes of processor time, {clock:.1f} by the clock")
    return job.returncode


if __name__ == "__main__":
    sys.exit(main(sys.argv[1:]) if sys.argv[1:] else __doc__)
