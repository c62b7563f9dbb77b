#!/usr/bin/env python3
"""Draws by which pulse what share of the runs is synchronised (docs/LUCK.md).

    tools/plot.py FILE .. PICTURE.svg

A FILE.csv is what `clockbed sweep` printed: the share of its keys. A FILE.json is what `clockbed explore --odds K --json`
printed: the share that is sure against every adversary. Each file is a line of its name. Needs matplotlib, on Debian
python3-matplotlib. docs/PYTHON.md draws the same without files.
"""
import sys
from pathlib import Path

sys.dont_write_bytecode = True
from python_package import use_package

use_package()
from clockbed import Explored, Sweep, plot
from clockbed.frames import wanted


def answer_in(path):
    read = Explored.read if path.suffix == ".json" else Sweep.read
    return read(path.read_text(encoding="utf-8"))


def draw(files, picture):
    """Draws the files, the same byte for byte each time."""
    matplotlib = wanted("matplotlib", "plot.py")
    matplotlib.use("svg")
    with matplotlib.rc_context({"svg.hashsalt": "clockbed"}):
        plot({path.stem: answer_in(path) for path in files}).savefig(picture, metadata={"Date": None})


def main(names):
    if len(names) < 2:
        sys.exit(__doc__)
    *files, picture = map(Path, names)
    try:
        draw(files, picture)
    except (ImportError, OSError, ValueError) as why:
        sys.exit(f"plot.py: {why}")


if __name__ == "__main__":
    main(sys.argv[1:])
