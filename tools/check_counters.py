#!/usr/bin/env python3
"""Explores every counter of examples/counters/, and tries tools/find.py: check_counters.py [PROGRAM]

Each scenario is explored by the command in its second line, once for each set of Byzantine nodes. In all of them it
must stabilise within the K pulses that docs/COUNTERS.md names, and in no fewer if the last nodes are Byzantine. The
table there must name its sizes, slots and steps, and no other scenario. With one wrong entry in its table `explore`
must say that stabilisation can be prevented. Randomised counters must have the bound on the mean that the page names,
and none if a coin becomes 0; tools/find_randomised.py must find that of four nodes. Without a solver tools/find.py must
name the package. If one is there, or can be installed, tools/find.py must find the counter of three states, and a
checked proof that two aren't enough; by counterexamples it must find a counter of three correct nodes, and none of two
states for four. PROGRAM is as for check_rows.py.
"""
import itertools
import os
import pathlib
import re
import shutil
import subprocess
import sys
import tempfile
import tomllib

sys.dont_write_bytecode = True
from built_program import TOP, answer, named_program, on_all_processors, tell

COUNTERS, PAGE = TOP / "examples/counters", TOP / "docs/COUNTERS.md"
ROW = re.compile(r"^\| \[(n\w+)\]\(\.\./examples/counters/\1\.toml\) \|(.+)\|$", re.M)
ASK = re.compile(r"^# Ask: (explore .+)$", re.M)
LOADED = re.compile(r"^nodes = \[.*\]$", re.M)
KNOWN = re.compile(r"^(?=(?:mine|clock) = now$)", re.M)
STABILISES = re.compile(rb"^stabilises within (\d+) pulses$", re.M)
PREVENTED = b"# stabilisation can be prevented for ever"
SOLVERS = ("cadical", "kissat", "minisat")
COINS = "coins_*.toml"
COIN_ROW = re.compile(r"^\| \[(coins_\w+)\]\(\.\./examples/counters/\1\.toml\) \|.*\| ([\d.]+) \|$", re.M)
MEAN = re.compile(rb"^mean: at most ([\d.]+) pulses", re.M)


def rows():
    """The rows of the page: the name, and n, f, M, states, rounds, K, slots and steps."""
    page = PAGE.read_text(encoding="utf-8")
    return {name: [int(it) for it in re.findall(r"\| (\d+) (?=\|)", f"|{cells}|")] for name, cells in ROW.findall(page)}


def with_byzantine(text, sizes, byzantine):
    """The scenario with these Byzantine nodes: all others are loaded."""
    return LOADED.sub(f"nodes = {[it for it in range(sizes['nodes']) if it not in byzantine]}", text)


def explored(program, text):
    return answer(program, ASK.search(text)[1].split(), text.encode())


def length_of(program, sizes):
    """The slots and the announced steps of the rule's program."""
    shape = [f"--nodes={sizes['nodes']}", f"--memory={sizes['memory']}"]
    words = ["compile", *shape, f"--faults={sizes['faults']}", f"--modulus={sizes['modulus']}"]
    told = answer(program, ["verify", *shape], answer(program, words, sizes["rule"].encode()).out)
    return [int(it) for it in re.findall(rb"\d+", told.out)]


def differences_of(program, table):
    def differences(task):
        name, byzantine = task
        text = (COUNTERS / f"{name}.toml").read_text(encoding="utf-8")
        sizes = tomllib.loads(text)
        if byzantine is None:
            return list(sizes_differ(program, name, sizes, table[name]))
        if byzantine == "wrong":
            told = explored(program, KNOWN.sub("if all == 0: now = 0\n", text, count=1))
            return [] if told.status == 3 and PREVENTED in told.out else [f"{name}: a wrong entry: {told}"]
        told = explored(program, with_byzantine(text, sizes, byzantine))
        within = int((STABILISES.search(told.out) or [0, 0])[1])
        is_own = byzantine == tuple(range(sizes["nodes"]))[-sizes["faults"] :]
        is_right = within == table[name][5] if is_own else 0 < within <= table[name][5]
        return [] if told.status == 0 and is_right else [f"{name}: Byzantine {byzantine}: {told}"]

    return differences


def sizes_differ(program, name, sizes, row):
    has = [sizes["nodes"], sizes["faults"], sizes["modulus"], *length_of(program, sizes)]
    named = [*row[:3], *row[6:8]]
    if has != named:
        yield f"{name}: n, f, M, slots and steps are {has}, and docs/COUNTERS.md has {named}"


def tasks():
    """Each scenario with each set of Byzantine nodes, then its sizes, and then a wrong entry."""
    for path in sorted(set(COUNTERS.glob("*.toml")) - set(COUNTERS.glob(COINS))):
        sizes = tomllib.loads(path.read_text(encoding="utf-8"))
        for byzantine in itertools.combinations(range(sizes["nodes"]), sizes["faults"]):
            yield path.stem, byzantine
        yield path.stem, None
        yield path.stem, "wrong"


# ---- randomised counters


def coin_faults(program):
    """Differences of the randomised counters: their means, and what remains of one without its coins."""
    named = dict(COIN_ROW.findall(PAGE.read_text(encoding="utf-8")))
    paths = sorted(COUNTERS.glob(COINS))
    names = [it.stem for it in paths]
    if sorted(named) != names:
        yield f"docs/COUNTERS.md names the randomised counters {sorted(named)}, and there are {names}"
    for path in paths:
        text = path.read_text(encoding="utf-8")
        told = explored(program, text)
        mean = (MEAN.search(told.out) or [b"", b""])[1].decode()
        if told.status or mean != named.get(path.stem):
            yield f"{path.stem}: docs/COUNTERS.md has the mean {named.get(path.stem)}: {told}"
        told = explored(program, text.replace("clock = coin", "clock = 0"))
        if told.status != 3 or PREVENTED not in told.out:
            yield f"{path.stem}: without its coins: {told}"


def randomised_faults(program):
    """What tools/find_randomised.py finds for four nodes."""
    with tempfile.TemporaryDirectory() as room:
        told = find(program, room, ["4", "1"], script="find_randomised.py")
        made = pathlib.Path(room) / "coins_n4f1.toml"
        if told[0] or made.read_bytes() != (COUNTERS / made.name).read_bytes():
            yield f"find_randomised.py 4 1: {told}"


# ---- the search


def find(program, room, words, path=None, script="find.py"):
    told = subprocess.run(
        [sys.executable, str(TOP / "tools" / script), *words, "--keep", room],
        env={**os.environ, "CLOCKBED_PROGRAM": program, **({"PATH": path} if path else {})},
        capture_output=True, text=True,
    )
    return told.returncode, told.stdout + told.stderr


def has_solver():
    install = [str(TOP / "tools/need_packages.sh"), "cadical"]
    return any(map(shutil.which, SOLVERS)) or subprocess.run(install).returncode == 0


def search_faults(program):
    """What tools/find.py does without a solver, and with one."""
    with tempfile.TemporaryDirectory() as room:
        told = find(program, room, ["4", "1", "3", "2"], room)
        if told[0] != 4 or "apt-get install cadical" not in told[1]:
            yield f"find.py without a solver: {told}"
        if not has_solver():
            print("check_counters: left out: no SAT solver is installed")
            return
        told = find(program, room, ["4", "1", "3", "2", "--rounds", "6"])
        if told[0] or "\nstabilises within 7 pulses\n" not in told[1]:
            yield f"find.py 4 1 3 2: {told}"
        told = find(program, room, ["3", "0", "2", "2", "--rounds", "1", "--by-counterexamples"])
        if told[0] or "\nstabilises within " not in told[1] or " 0 counterexamples" in told[1]:
            yield f"find.py 3 0 2 2 by counterexamples: {told}"
        told = find(program, room, ["4", "1", "2", "2", "--rounds", "3", "--by-counterexamples"])
        if told[0] != 1 or "within 3 rounds: none" not in told[1]:
            yield f"find.py 4 1 2 2 by counterexamples: {told}"
        if not shutil.which("cadical"):
            return
        told = find(program, room, ["4", "1", "2", "2", "--tables", "4", "--rounds", "8", "--proof", room])
        if told[0] != 1 or "verified" not in told[1]:
            yield f"find.py 4 1 2 2: {told}"


def main():
    program, table, tried = named_program(), rows(), list(tasks())
    names = {name for name, _ in tried}
    found = [f"docs/COUNTERS.md and examples/counters/: {it} is in one alone" for it in sorted(names ^ set(table))]
    found += on_all_processors(differences_of(program, table), [it for it in tried if it[0] in table])
    found += [*coin_faults(program), *randomised_faults(program), *search_faults(program)]
    return tell("check_counters", {"counters": len(names), "explorations": len(tried) - len(names)}, found)


if __name__ == "__main__":
    sys.exit(main())
