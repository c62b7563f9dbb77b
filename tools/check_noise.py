#!/usr/bin/env python3
"""Holds noise against its definition: what nodes with noise send, by a generator written apart (tools/chacha8.py).

usage: check_noise.py [PROGRAM]

Runs scenarios with loads of noise, of other programs and unloads, each with some keys. In each pulse a node has noise
exactly if its last load or unload so far is a load of noise. Then it sends what is drawn (docs/SCENARIOS.md, "Noise").
"""
import json
import re
import sys

sys.dont_write_bytecode = True
from built_program import TOP, answer, named_program, on_all_processors, tell
import chacha8

KEYS = (0, 7, 8, 4294967296, 9223372036854775807)
EXAMPLES = ("examples/noise.toml",)


def scenario(nodes, modulus, pulses, changes, coins="zeros", memory=8):
    """A scenario with these loads (pulse, nodes, program) and unloads (pulse, node)."""
    lines = [
        "version = 4", f"nodes = {nodes}", "faults = 0", f"modulus = {modulus}", f"memory = {memory}",
        f"pulses = {pulses}", f'coins = "{coins}"', "key = 0",
    ]
    for pulse, *change in changes:
        if len(change) == 1:
            lines += ["[[unload]]", f"pulse = {pulse}", f"node = {change[0]}"]
            continue
        named, program = change
        lines += ["[[load]]", f"pulse = {pulse}", f"nodes = {named}", f'program = "{program}"']
        if program == "say":
            lines.append(f"values = {[-1] * nodes}")
    return "\n".join(lines) + "\n"


DRAWN = (
    scenario(1, 2, 20, [(1, [0], "noise")]),
    scenario(4, 8, 12, [(1, [0, 1, 2], "clock"), (1, [3], "noise")], "chacha"),
    scenario(4, 8, 9, [(1, [3], "noise"), (4, 3), (6, [3, 3], "noise"), (8, [3], "echo")]),
    scenario(3, 65536, 9, [(2, [0, 2], "noise"), (2, 0), (5, [0, 1, 2], "noise"), (7, [1], "say"), (8, 2)]),
    scenario(3, 5, 6, [(3, [1], "noise"), (3, [1], "clock"), (4, [1], "clock"), (4, [1], "noise")]),
    scenario(64, 3, 4, [(1, list(range(64)), "noise"), (3, 5), (4, list(range(0, 64, 2)), "clock")], "ones"),
)


def noisy(staged, had):
    """Which nodes have noise after what was staged before a pulse."""
    for change in staged:
        if "load" in change:
            had = had | {change["load"]} if change["program"] == "noise" else had - {change["load"]}
        elif "unload" in change:
            had = had - {change["unload"]}
    return had


def differences(program, text, key):
    keyed = re.sub(r"(?m)^key = .*", f"key = {key}", text)
    got = answer(program, ["run", "--json"], keyed.encode())
    if got.status:
        yield f"key {key}: {got} of {keyed}"
        return
    frame, *pulses, _summary = map(json.loads, got.out.splitlines())
    had = frozenset()
    for pulse in pulses:
        had = noisy(pulse["staged"], had)
        for node in had:
            want = chacha8.messages(key, frame["nodes"], frame["modulus"], pulse["pulse"], node)
            if pulse["sent"][node] != want:
                yield f"key {key} pulse {pulse['pulse']} node {node}: {pulse['sent'][node]} is not {want} in {keyed}"
            if pulse["ran"][node] != "other":
                yield f"key {key} pulse {pulse['pulse']} node {node} ran {pulse['ran'][node]} in {keyed}"


def main():
    program = named_program()
    texts = [*DRAWN, *((TOP / name).read_text(encoding="utf-8") for name in EXAMPLES)]
    cases = [(text, key) for text in texts for key in KEYS]
    return tell("check_noise", {"runs": len(cases)}, on_all_processors(lambda case: differences(program, *case), cases))


if __name__ == "__main__":
    sys.exit(main())
