#!/usr/bin/env python3
"""Tells of each pulse of a run the greatest distance of two settled clocks: tools/distances.py < REPORT

A report will do, and the lines of `run --json`.

The distance goes round the modulus: of 65535 and 1 it is 2. A dash stands where fewer than two nodes are settled, and a
clock past the modulus is left out.
"""
import sys

sys.dont_write_bytecode = True
from readings import PAST, NoReport, read_run


def distance(one, other, modulus):
    return min((one - other) % modulus, (other - one) % modulus)


def greatest(pulse, modulus):
    clocks = {clock for clock, is_settled in zip(pulse.clocks, pulse.settled) if is_settled and clock != PAST}
    if sum(pulse.settled) < 2:
        return "-"
    return max((distance(one, other, modulus) for one in clocks for other in clocks), default=0)


def main():
    try:
        run = read_run(sys.stdin.read())
    except NoReport as why:
        print(f"distances: {why}", file=sys.stderr)
        return 1
    for pulse in run.pulses:
        print(f"pulse {pulse.number} distance {greatest(pulse, run.modulus)}")
    return 0


if __name__ == "__main__":
    sys.exit(main())
