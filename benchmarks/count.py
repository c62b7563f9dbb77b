#!/usr/bin/env python3
"""Counts machine instructions by callgrind: count.py INPUT FEW MANY SCALE NAME COMMAND [NAME COMMAND ..]

Each COMMAND is run twice, with FEW and with MANY in the place of {}, in INPUT too. Told is the difference of the two counts for each of
(MANY - FEW) times SCALE, and what the first program has of each other. So the start of a program plays no part.
"""
import re
import shlex
import subprocess
import sys


def counted(command, path, amount):
    """How many machine instructions a run takes."""
    words = shlex.split(command.replace("{}", amount))
    with open(path.replace("{}", amount), "rb") as given:
        ran = subprocess.run(["valgrind", "--tool=callgrind", "--callgrind-out-file=/dev/null", *words],
                             stdin=given, stdout=subprocess.DEVNULL, stderr=subprocess.PIPE, text=True)
    told = re.search(r"Collected : (\d+)", ran.stderr)
    if told is None:
        sys.exit(f"{command}: {ran.stderr}")
    return int(told.group(1))


def main():
    path, few, many, scale, *pairs = sys.argv[1:]
    each = {}
    for name, command in zip(pairs[::2], pairs[1::2]):
        more = counted(command, path, many) - counted(command, path, few)
        each[name] = more / ((int(many) - int(few)) * float(scale))
    first, *others = each
    told = [f"{name} {value:.1f}" for name, value in each.items()]
    told += [f"{first} / {name} {each[first] / each[name]:.2f}" for name in others if name != first]
    print("  ".join(told), flush=True)


main()
