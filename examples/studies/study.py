#!/usr/bin/env python3
"""Sweeps many keys in spans, on one machine or on a cluster. A span whose lines are there isn't run again.

    study.py span SCENARIO FOLDER FIRST..LAST    sweeps these keys into FOLDER/FIRST-LAST.csv
    study.py join FOLDER                         prints the lines of all spans of FOLDER, as one sweep prints them
    study.py stabilisation FOLDER [KEYS [SPAN]]  the table of docs/LUCK.md: KEYS keys (1000) of each bench in examples/luck,
                                                 SPAN keys (100) at a time on all processors, then table and plot

The environment variable CLOCKBED names the program; without it that is `clockbed` at the top of the checkout or archive.
"""
import csv
import os
import pathlib
import re
import statistics
import subprocess
import sys
from concurrent.futures import ThreadPoolExecutor

TOP = pathlib.Path(__file__).resolve().parent.parent.parent
PROGRAM = os.environ.get("CLOCKBED", str(TOP / "clockbed"))
BENCHES = {"four": (4, 1), "seven": (7, 2), "ten": (10, 3), "sixteen": (16, 5)}
SPAN = re.compile(r"(\d+)(?:\.\.|-)(\d+)")
KEYS, SPAN_KEYS = 1000, 100


class Failed(Exception):
    """Says what hinders the study."""


def keys_of(text):
    found = SPAN.fullmatch(text)
    if not found or int(found[1]) > int(found[2]):
        raise Failed(f"a span is FIRST..LAST, the first at most the last, not {text}")
    return int(found[1]), int(found[2])


def run_span(scenario, folder, first, last):
    """The lines come to their name only when all are there, so a run that is killed leaves no span."""
    folder.mkdir(parents=True, exist_ok=True)
    path = folder / f"{first}-{last}.csv"
    if path.exists():
        return
    part = folder / f"{first}-{last}.part.{os.getpid()}"
    with open(scenario, "rb") as given, open(part, "wb") as lines:
        words = [PROGRAM, "sweep", "--keys", f"{first}..{last}", "--workers", "1"]
        status = subprocess.run(words, stdin=given, stdout=lines, check=False).returncode
    if status:
        part.unlink()
        raise Failed(f"{' '.join(words)} ended with status {status}")
    part.rename(path)


def spans_in(folder):
    """The spans that are there, in order; they must follow one another."""
    spans = sorted((keys_of(path.stem), path) for path in folder.glob("*-*.csv"))
    if not spans:
        raise Failed(f"{folder} has no spans")
    for ((_, last), _), ((first, _), path) in zip(spans, spans[1:]):
        if first > last + 1:
            raise Failed(f"the keys {last + 1} to {first - 1} are missing")
        if first <= last:
            raise Failed(f"{path} has keys that another span has")
    return [path for _, path in spans]


def joined(folder):
    texts = [path.read_text(encoding="utf-8").splitlines() for path in spans_in(folder)]
    return [texts[0][0], *(line for lines in texts for line in lines[1:])]


def row_of(name, lines):
    nodes, faults = BENCHES[name]
    since = [it["in_step_since"] for it in csv.DictReader(lines)]
    pulses = [int(it) if it else float("inf") for it in since]
    median = statistics.median_low(pulses)
    correct = nodes - faults
    told = median if median < float("inf") else "past the last"
    return f"| {nodes} | {faults} | {correct} | {2**correct} | {sum(map(bool, since))} of {len(since)} | {told} |"


def draw(paths, picture):
    done = subprocess.run([sys.executable, TOP / "tools/plot.py", *paths, picture], capture_output=True, check=False)
    return f"plot: {picture}" if done.returncode == 0 else "no plot: tools/plot.py needs matplotlib"


def stabilisation(folder, keys=KEYS, span=SPAN_KEYS):
    starts = range(1, keys + 1, span)
    jobs = [(TOP / f"examples/luck/{name}.toml", folder / name, at) for name in BENCHES for at in starts]
    with ThreadPoolExecutor(os.cpu_count()) as workers:
        list(workers.map(lambda job: run_span(job[0], job[1], job[2], min(job[2] + span - 1, keys)), jobs))
    print("| n | f | clocks | 2^(n - f) | in step | median pulse |\n|---|---|---|---|---|---|")
    paths = []
    for name in BENCHES:
        lines = joined(folder / name)
        print(row_of(name, lines))
        paths.append(folder / f"{name}.csv")
        paths[-1].write_text("".join(f"{it}\n" for it in lines), encoding="utf-8")
    print(draw(paths, folder / "stabilisation.svg"))


def main(words):
    try:
        match words:
            case ["span", scenario, folder, keys]:
                run_span(scenario, pathlib.Path(folder), *keys_of(keys))
            case ["join", folder]:
                print("\n".join(joined(pathlib.Path(folder))))
            case ["stabilisation", folder, *numbers] if len(numbers) < 3 and all(it.isdigit() for it in numbers):
                stabilisation(pathlib.Path(folder), *map(int, numbers))
            case _:
                print(__doc__, end="", file=sys.stderr)
                return 1
    except (Failed, OSError) as why:
        print(f"study: {why}", file=sys.stderr)
        return 1
    return 0


if __name__ == "__main__":
    sys.exit(main(sys.argv[1:]))
