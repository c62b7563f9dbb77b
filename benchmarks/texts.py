#!/usr/bin/env python3
"""Writes a text for a benchmark: texts.py NAME BYTES > TEXT. The names are in README.md."""
import sys

JUMPS = 1000


def comments(size):
    """Lines of comment, and one instruction."""
    line = "# " + "x" * 61 + "\n"
    return line * ((size - len("exit\n")) // len(line)) + "exit\n"


def labels(size):
    """A label on each line, with jumps to labels that are scattered over the text."""
    end = "exit\n"
    line, jump = len("l0000000:\n"), len("ja l0000000\n")
    count = (size - len(end) - JUMPS * jump) // line
    lines = []
    for number in range(count):
        lines.append(f"l{number:07}:\n")
        if number % (count // JUMPS) == 0 and number // (count // JUMPS) < JUMPS:
            lines.append(f"ja l{number * 7919 % count:07}\n")
    return "".join(lines) + end


def instructions(size):
    """As many instructions as a program may have, each before a comment."""
    rows = ["mov64 r0, 7", "ldxdw r3, [r1+8]", "jgt r3, -5, +0", "add32 r0, r3", "stxw [r10-4], r0", "call recv", "mov64 r1, 0x10"]
    width = size // 1024
    lines = [rows[number % len(rows)] + " # " for number in range(1023)] + ["exit # "]
    return "".join(line + "x" * (width - 1 - len(line)) + "\n" for line in lines)


sys.stdout.write({"comments": comments, "labels": labels, "instructions": instructions}[sys.argv[1]](int(sys.argv[2])))
