#!/usr/bin/env python3
"""Holds the lines of `run --json` against the report of `run`.

    tools/check_json.py [PROGRAM]

Of each example and each outside scenario (vectors/scenarios.txt) the report is derived from the lines, and must be what
`run` prints; and what one line tells must fit what the lines around it tell (docs/OUTPUT.md, "JSON lines").
"""
import json
import sys

sys.dont_write_bytecode = True
from built_program import TOP, answer, named_program, on_all_processors, tell, without_note
from check_vectors import NO_LAST_LF, scenarios_of

VERDICTS = {True: "yes", False: "no", None: "none"}
FRAME = ["faults", "format", "memory", "modulus", "nodes", "pulses"]
PULSE = ["agree", "clocks", "coins", "memory", "pulse", "ran", "sent", "settled", "staged", "steps"]
LAST = ["agreed", "in_step_since", "of"]


class Differs(Exception):
    """Says where the lines differ from what they should be."""


def ask(program, words, given):
    got = without_note(answer(program, words, given))
    must(not got.err, f"{' '.join(words)}: {got.err.decode().strip()}")
    return got.status, got.out.decode()


def must(holds, what):
    if not holds:
        raise Differs(what)


# ---- the report of the lines


def head_of(frame):
    version = "" if frame["format"] == 1 else f"version {frame['format']} "
    clock = f" clock {frame['clock']}" if frame["format"] >= 3 else ""
    if frame.get("zero_agrees") and frame["clock"] == "own":
        clock += " zero agrees"
    return f"{version}nodes {frame['nodes']} faults {frame['faults']} modulus {frame['modulus']}{clock}"


def clock_word(clock, frame):
    if clock is None:
        return "-"
    return "!" if frame["format"] >= 3 and clock >= frame["modulus"] else str(clock)


def line_of(pulse, frame):
    clocks = " ".join(clock_word(it, frame) for it in pulse["clocks"])
    counts = f" counts {VERDICTS[pulse['counts']]}" if frame["format"] >= 3 else ""
    return (
        f"pulse {pulse['pulse']} clocks {clocks} settled {sum(pulse['settled'])}"
        f" steps {max(pulse['steps'])} agree {VERDICTS[pulse['agree']]}{counts}"
    )


def tally(word, verdicts):
    told = [it for it in verdicts if it is not None]
    return f"{word} {sum(told)} of {len(told)}"


def report_of(frame, pulses):
    last = [tally("agreed", [it["agree"] for it in pulses])]
    if frame["format"] >= 3:
        last.append(tally("counted", [it["counts"] for it in pulses]))
    lines = [head_of(frame), *(line_of(it, frame) for it in pulses), " ".join(last)]
    return "".join(f"{it}\n" for it in lines)


# ---- what lines tell of one another


def check_pulse(frame, before, pulse):
    nodes, number = frame["nodes"], pulse["pulse"]
    lists = [pulse[it] for it in ("coins", "ran", "clocks", "settled", "steps", "memory", "sent")]
    must(all(len(it) == nodes for it in [*lists, *pulse["sent"]]), f"pulse {number} isn't of {nodes} nodes")
    must(all(len(it) == 2 * frame["memory"] for it in pulse["memory"]), f"pulse {number}: the memories' lengths")
    for node in range(nodes):
        ran, clock = pulse["ran"][node], pulse["clocks"][node]
        first = int.from_bytes(bytes.fromhex(pulse["memory"][node])[:4], "little")
        must(clock == (first if ran == "clock" else None), f"pulse {number}: the clock of node {node}")
        ran_before = before is not None and before["ran"][node] == "clock"
        must(pulse["settled"][node] == (ran == "clock" and ran_before), f"pulse {number}: whether {node} is settled")
        must((pulse["steps"][node] == 0) == (ran is None), f"pulse {number}: the steps of node {node}")
        must(ran is not None or pulse["sent"][node] == [None] * nodes, f"pulse {number}: empty node {node} sent")


def check_lines(lines, report):
    frame, *pulses, last = map(json.loads, lines)
    must(sorted(frame) == sorted(FRAME + ["clock"] * (frame["format"] >= 3)), f"the frame's members {sorted(frame)}")
    must(sorted(last) == LAST, f"the last line's members {sorted(last)}")
    for pulse in pulses:
        must(sorted(pulse) == sorted(PULSE + ["counts"] * (frame["format"] >= 3)), f"members {sorted(pulse)}")
    must([it["pulse"] for it in pulses] == list(range(1, frame["pulses"] + 1)), "the pulses' numbers")
    for before, pulse in zip([None, *pulses], pulses):
        check_pulse(frame, before, pulse)
    must(report_of(frame, pulses) == report, "the report of the lines isn't that of the run")
    must(report.splitlines()[-1].startswith(f"agreed {last['agreed']} of {last['of']}"), "the last line's numbers")


def check_span(program, given, lines):
    """Part of the pulses, between the same first and last line."""
    count = len(lines) - 2
    first, last = (count + 2) // 3, (2 * count + 2) // 3
    words = ["run", "--json", "--from", str(first), "--until", str(last)]
    status, out = ask(program, words, given)
    wanted = [lines[0], *lines[first : last + 1], lines[-1]]
    must((status, out.splitlines()) == (0, wanted), f"the lines from {first} to {last}")


def check_scenario(program, given):
    plain, told = ask(program, ["run"], given), ask(program, ["run", "--json", "--workers", "1"], given)
    if plain[0] == 2:
        must(told == plain, "a refusal")
        return
    must(told[0] == 0 and told[1].endswith("\n"), "the status, or the end of the last line")
    lines = told[1].splitlines()
    check_lines(lines, plain[1])
    check_span(program, given, lines)


def scenarios():
    """Each scenario with its name."""
    for path in sorted([*TOP.glob("examples/*.toml"), *TOP.glob("examples/clocks/*.toml")]):
        yield str(path.relative_to(TOP)), path.read_bytes()
    path = TOP / "vectors/scenarios.txt"
    for line, entry in scenarios_of(path):
        yield f"{path.name}:{line}", entry.split("---- prints\n")[0].removesuffix(NO_LAST_LF).encode()


def main():
    program = named_program()
    named = list(scenarios())

    def differences(one):
        name, given = one
        try:
            check_scenario(program, given)
        except (Differs, ValueError, KeyError, TypeError) as why:
            return [f"{name}: {why}"]
        return []

    return tell("check_json", {"scenarios": len(named)}, on_all_processors(differences, named))


if __name__ == "__main__":
    sys.exit(main())
