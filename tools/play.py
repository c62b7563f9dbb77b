#!/usr/bin/env python3
"""Makes a page that plays a run: ./clockbed run --json < SCENARIO | tools/play.py > PAGE.html

The page is one file and loads nothing from elsewhere: open it in a browser. It shows a pulse, with its messages as
arrows and what each node has, and goes on and back by keys. It opens at the pulse that its address names (#pulse=9),
otherwise at the first pulse that violates agreement. tools/play.html is its template.
"""
import argparse
import pathlib
import sys

sys.dont_write_bytecode = True
from picture import COLOURS, caption
from readings import NoReport, read_lines


def page(text):
    run = read_lines(text)
    empty = (pathlib.Path(__file__).resolve().parent / "play.html").read_text(encoding="utf-8")
    lines = "\n".join(run.lines).replace("<", "\\u003c")
    empty = empty.replace("@CAPTION@", caption(run)).replace("@COLOURS@", " ".join(COLOURS))
    return empty.replace("@LINES@", lines)


def main():
    argparse.ArgumentParser(description=__doc__, formatter_class=argparse.RawDescriptionHelpFormatter).parse_args()
    try:
        sys.stdout.write(page(sys.stdin.read()))
    except NoReport as why:
        print(f"play: standard input isn't the lines of a run ({why})", file=sys.stderr)
        print("play: usage: ./clockbed run --json < SCENARIO | tools/play.py > PAGE.html", file=sys.stderr)
        return 1
    return 0


if __name__ == "__main__":
    sys.exit(main())
