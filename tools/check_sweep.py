#!/usr/bin/env python3
"""Holds `sweep` against `run`: each line must be what the report of the run with its key says.

usage: check_sweep.py [PROGRAM]

Sweeps examples with drawn coins on 1, 2 and 3 workers, whose output must be the same, and derives each line from the
report that `run` prints of the scenario with that key (docs/LUCK.md).
"""
import re
import sys

sys.dont_write_bytecode = True
from built_program import TOP, answer, named_program, on_all_processors, tell
from readings import in_step_since, read_run

SCENARIOS = ["examples/chacha.toml", "examples/splitter.toml", "examples/luck/four.toml", "examples/noise.toml"]
FIRST, LAST = 3, 11
WORKERS = "123"
NAMES = "key,agreed,of,first_disagreement,in_step_since,steps"


def output(program, words, text):
    """What the program prints on this input, which must end with status 0."""
    got = answer(program, words, text.encode())
    if got.status:
        sys.exit(f"check_sweep: {' '.join(words)}: {got}")
    return got.out.decode()


def line_of(key, text):
    """The line of a key, from a report."""
    report = read_run(text)
    agreed, judged = re.search(r"^agreed (\d+) of (\d+)", text, re.M).groups()
    disagreed = re.search(r"^pulse (\d+) .* agree no\b", text, re.M)
    since = in_step_since(report.pulses, report.modulus)
    steps = max(int(count) for count in re.findall(r" steps (\d+) ", text))
    fields = [key, agreed, judged, disagreed.group(1) if disagreed else "", "" if since is None else since, steps]
    return ",".join(map(str, fields))


def main():
    program = named_program()

    def differences(name):
        text = (TOP / name).read_text()
        reports = ((key, re.sub(r"(?m)^key = .*", f"key = {key}", text)) for key in range(FIRST, LAST + 1))
        lines = [NAMES, *(line_of(key, output(program, ["run"], keyed)) for key, keyed in reports)]
        want = "".join(f"{line}\n" for line in lines)
        for workers in WORKERS:
            got = output(program, ["sweep", "--keys", f"{FIRST}..{LAST}", "--workers", workers], text)
            if got != want:
                yield f"{name} with {workers} workers: {got!r} is not {want!r}"

    counts = {"sweeps": len(WORKERS) * len(SCENARIOS)}
    return tell("check_sweep", counts, on_all_processors(differences, SCENARIOS))


if __name__ == "__main__":
    sys.exit(main())
