#!/usr/bin/env python3
"""Finds a randomised counter by drawn samples, and explores it: tools/find_randomised.py [OPTIONS] NODES FAULTS

Each node has two states, which are its count modulo 2, and sends its state to all nodes. Its new state depends on how
many of the messages are 1: it is 0, 1 or the node's coin. There are 3^(NODES + 1) such tables. Each is tried in drawn
runs: from drawn states, with drawn messages of the Byzantine nodes and drawn coins. Those that count at the end of each
run are sorted by their mean stabilisation time. `explore` then bounds the mean of the first ones against every message,
and the scenario of the best one is written (docs/COUNTERS.md).

CLOCKBED_PROGRAM names another program than ./clockbed.

Status 0: a counter was found. 1: none was found. 2: command-line error.
"""
import argparse
import itertools
import json
import os
import pathlib
import random
import subprocess
import sys

sys.dont_write_bytecode = True
from built_program import TOP

PROGRAM = os.environ.get("CLOCKBED_PROGRAM", str(TOP / "clockbed"))
ASK = "explore --ask stabilisation --mail all --start every --odds 64"
COIN, ENTRIES, PULSES, MAX_NODES = "coin", (0, 1, "coin"), 64, 9


def drawn_time(table, faults, drawn):
    """The pulses until the correct nodes count for good in a drawn run of PULSES pulses, or None."""
    correct = len(table) - 1 - faults
    states, counted_from = [drawn.randrange(2) for _ in range(correct)], None
    for pulse in range(PULSES):
        ones, before = sum(states), states
        heard = [table[ones + drawn.randint(0, faults)] for _ in states]
        states = [drawn.randrange(2) if it == COIN else it for it in heard]
        counts = len(set(before)) == len(set(states)) == 1 and before[0] != states[0]
        counted_from = None if not counts else pulse if counted_from is None else counted_from
    return counted_from


def drawn_mean(table, options):
    """The mean time of the drawn runs, or None if one of them doesn't count at its end."""
    drawn, total = random.Random(options.seed), 0
    for _ in range(options.samples):
        time = drawn_time(table, options.faults, drawn)
        if time is None:
            return None
        total += time
    return total / options.samples


def rule_of(table):
    """The rule of a table: one test for each run of equal entries."""
    lines, word, place = ["let ones = count j: mail[j] == 1"], "if", 0
    for entry, run in itertools.groupby(table):
        place += len(list(run))
        is_last = place == len(table)
        lines.append(f"else: clock = {entry}" if is_last else f"{word} ones < {place}: clock = {entry}")
        word = "elif"
    return "\n".join([*lines, "send clock", ""])


def scenario_of(table, faults):
    nodes = len(table) - 1
    sizes = f"{nodes} nodes ({faults} Byzantine) with 2 states modulo 2"
    return f"""# A randomised counter of {sizes}, found by tools/find_randomised.py.
# Ask: {ASK}
version = 4
nodes = {nodes}
faults = {faults}
modulus = 2
memory = 8
pulses = 24
coins = "chacha"
key = 1
rule = '''
{rule_of(table)}'''

[[load]]
pulse = 1
nodes = {list(range(nodes - faults))}
program = "clock"
"""


def mean_of(scenario):
    """The bound on the mean that `explore` proves, in pulses, or None."""
    told = subprocess.run([PROGRAM, *ASK.split(), "--json"], input=scenario.encode(), capture_output=True)
    answer = json.loads(told.stdout) if told.stdout.startswith(b"{") else {}
    mean = (answer.get("odds") or {}).get("mean")
    return mean and mean["parts"] / mean["of"]


def search(options):
    """The best of the tables that `explore` has a mean for, with that mean; or None."""
    tables = [it for it in itertools.product(ENTRIES, repeat=options.nodes + 1) if COIN in it and len(set(it)) == 3]
    means = [(drawn_mean(it, options), it) for it in tables]
    kept = sorted([it for it in means if it[0] is not None], key=lambda it: it[0])
    print(f"{len(tables)} tables, {len(kept)} count at the end of {options.samples} drawn runs", flush=True)
    best = None
    for drawn, table in kept[: options.explore]:
        mean = mean_of(scenario_of(table, options.faults))
        shown = "no bound" if mean is None else f"at most {mean:.2f}"
        print(f"{' '.join(map(str, table))}: mean {drawn:.2f} drawn, {shown} by explore", flush=True)
        if mean is not None and (best is None or mean < best[0]):
            best = mean, table
    return best


def parsed(words):
    about, more = __doc__.split("\n\n", 1)
    parser = argparse.ArgumentParser(
        usage=about.split(": ", 1)[1], description=about.split(":")[0] + ".", epilog=more,
        formatter_class=argparse.RawDescriptionHelpFormatter,
    )
    parser.add_argument("nodes", type=int)
    parser.add_argument("faults", type=int)
    parser.add_argument("--samples", type=int, default=40, help="drawn runs of a table [default: 40]")
    parser.add_argument("--seed", type=int, default=1, help="seed of the drawn runs [default: 1]")
    parser.add_argument("--explore", type=int, default=5, help="how many tables are explored [default: 5]")
    parser.add_argument("--keep", type=pathlib.Path, default=".", help="folder to write into [default: .]")
    options = parser.parse_args(words)
    if not 2 <= options.nodes <= MAX_NODES or not 0 <= options.faults < options.nodes:
        parser.error(f"{options.nodes} nodes and {options.faults} faults: nodes are 2 to {MAX_NODES}, and faults fewer")
    if options.samples < 1 or options.explore < 1:
        parser.error("--samples and --explore are 1 or more")
    return options


def main(words):
    options = parsed(words)
    best = search(options)
    if best is None:
        print("no counter was found")
        return 1
    options.keep.mkdir(parents=True, exist_ok=True)
    path = options.keep / f"coins_n{options.nodes}f{options.faults}.toml"
    path.write_text(scenario_of(best[1], options.faults), encoding="utf-8")
    print(f"{path}: mean at most {best[0]:.2f} pulses by explore")
    return 0


if __name__ == "__main__":
    sys.exit(main(sys.argv[1:]))
