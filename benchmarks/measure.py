#!/usr/bin/env python3
"""Runs programs in turn on one input: measure.py INPUT RUNS AMOUNT UNIT NAME COMMAND [NAME COMMAND ..]

Each run's output must be the first's. UNIT is MB/s (AMOUNT: bytes of a run) or ns (AMOUNT: steps of a run). Told is the best run of each program
by processor time, which waits for other work don't count in, and what the first program has of each other: at MB/s the first's speed in units of
the other's, at ns the first's time in units of the other's.
"""
import os
import shlex
import sys
import tempfile


def run(command, path):
    """The output of one run, and its seconds of processor time."""
    with open(path, "rb") as given, tempfile.TemporaryFile() as taken:
        words = shlex.split(command)
        child = os.posix_spawn(words[0], words, os.environ, file_actions=[
            (os.POSIX_SPAWN_DUP2, given.fileno(), 0), (os.POSIX_SPAWN_DUP2, taken.fileno(), 1)])
        _, status, used = os.wait4(child, 0)
        taken.seek(0)
        output = taken.read()
    if status != 0:
        sys.exit(f"{command}: status {os.waitstatus_to_exitcode(status)}")
    return output, used.ru_utime + used.ru_stime


def main():
    path, runs, amount, unit, *pairs = sys.argv[1:]
    programs = list(zip(pairs[::2], pairs[1::2]))
    best, expected = {}, None
    for _ in range(int(runs)):
        for name, command in programs:
            output, seconds = run(command, path)
            if expected not in (None, output):
                sys.exit(f"{name} prints {output!r}, and another {expected!r}")
            expected = output
            best[name] = min(seconds, best.get(name, seconds))
    fast = {name: float(amount) / seconds / 1e6 if unit == "MB/s" else seconds * 1e9 / float(amount) for name, seconds in best.items()}
    (first, _), *others = programs
    told = [f"{name} {value:.1f} {unit}" if unit == "MB/s" else f"{name} {value:.2f} {unit}" for name, value in fast.items()]
    told += [f"{first} / {name} {fast[first] / fast[name]:.2f}" for name, _ in others]
    print("  ".join(told))


main()
