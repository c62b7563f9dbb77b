#!/usr/bin/env python3
"""Draws a run of `clockbed run` as an SVG: tools/picture.py [--phase] < LINES > PICTURE

LINES are a report, or the lines of `run --json`, which tell more: what each node runs, and what was done to it. Up to 40
pulses a cell has the colour of the node's clock. From 41 pulses on, or by --phase, it has the colour of the clock less
the number of the pulse. docs/GALLERY.md tells how to read the rest.
"""
import sys

sys.dont_write_bytecode = True
from python_package import use_package

use_package()
from clockbed.picture import COLOURS, LEAST_FRAME, PALE, caption, draw
from clockbed.readings import NoReport, read_run

__all__ = ["COLOURS", "LEAST_FRAME", "PALE", "caption", "draw"]


def main(words):
    if words not in ([], ["--phase"]):
        print(__doc__, file=sys.stderr, end="")
        return 1
    try:
        sys.stdout.write(draw(read_run(sys.stdin.read()), bool(words)))
    except NoReport as why:
        print(f"picture: {why}", file=sys.stderr)
        return 1
    return 0


if __name__ == "__main__":
    sys.exit(main(sys.argv[1:]))
