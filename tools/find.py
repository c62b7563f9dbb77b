#!/usr/bin/env python3
"""Finds a counter by a SAT solver, and explores it: tools/find.py [OPTIONS] NODES FAULTS STATES MODULUS

A counter's nodes count modulo MODULUS together, from every start, whatever FAULTS Byzantine nodes send. Each node has
STATES states and a table with its new state for the states that it hears. For 1 round, 2 rounds and so on a solver
looks for a table that stabilises within them. The table becomes the rule of a scenario, and `explore` proves how soon
it stabilises (docs/COUNTERS.md).

The solver is cadical, kissat or minisat, the first that is installed. CLOCKBED_PROGRAM names another program than
./clockbed.

Status 0: `explore` prints `stabilises within`. 1: no counter was found. 2: command-line error. 3: `explore` prints
another answer, or the program is too long. 4: no solver is installed.
"""
import argparse
import dataclasses
import json
import os
import pathlib
import re
import shutil
import subprocess
import sys
import tempfile
import time

sys.dont_write_bytecode = True
from built_program import TOP
from counter_formula import Counter, encoded, evenly, tables_of
from counter_refinement import Refinement
from counter_rule import by_digits, by_ranges, rule_of, scenario_of

FOUND, NONE, UNDECIDED = "found", "none", "not decided"
# Solvers end with these statuses.
VERDICTS = {10: FOUND, 20: NONE}
ASK = ("explore", "--ask", "stabilisation", "--mail", "all", "--start", "every")
MAX_ROUNDS, MAX_CELLS = 16, 1 << 16
PROGRAM = os.environ.get("CLOCKBED_PROGRAM", str(TOP / "clockbed"))
NO_SOLVER, REFUSED = 4, 3


def cadical(formula, seconds, proof):
    return ["cadical", "-q", "-t", str(seconds), *(["--no-binary"] if proof else []), formula, *proof]


def kissat(formula, seconds, proof):
    return ["kissat", "-q", f"--time={seconds}", *(["--no-binary"] if proof else []), formula, *proof]


def minisat(formula, seconds, _proof):
    return ["minisat", "-verb=0", f"-cpu-lim={seconds}", formula, "/dev/stdout"]


SOLVERS = {"cadical": cadical, "kissat": kissat, "minisat": minisat}


def solver_here():
    """The solver that is installed, or None."""
    return next((it for it in SOLVERS if shutil.which(it)), None)


def solved(name, formula, seconds, proof=()):
    """The solver's verdict on a formula in a file, and the variables that are true."""
    told = subprocess.run(SOLVERS[name](str(formula), seconds, list(proof)), capture_output=True, text=True)
    lines = re.findall(r"^(?:v )?((?:-?\d+ ?)+)$", told.stdout, flags=re.M)
    return VERDICTS.get(told.returncode, UNDECIDED), {int(it) for line in lines for it in line.split() if int(it) > 0}


# ---- progress


def decided(path, seconds):
    """The verdicts that an earlier search kept, by the number of rounds, unless more seconds are allowed now."""
    if not path.exists():
        return {}
    lines = [json.loads(it) for it in path.read_text(encoding="utf-8").splitlines()]
    return {it["rounds"]: it for it in lines if it["verdict"] == NONE or seconds <= it["limit"]}


def keep(path, line):
    with path.open("a", encoding="utf-8") as it:
        it.write(json.dumps(line) + "\n")


def checked(formula, proof, seconds):
    """What a checker says of a proof: drat-trim if it is on the PATH, otherwise tools/check_proof.py."""
    own = [sys.executable, str(TOP / "tools/check_proof.py")]
    checker = ["drat-trim"] if shutil.which("drat-trim") else own
    name = "drat-trim" if checker != own else "check_proof.py"
    try:
        told = subprocess.run([*checker, formula, proof], capture_output=True, text=True, timeout=10 * seconds)
    except subprocess.TimeoutExpired:
        return f"{name}: not checked in {10 * seconds} s"
    return f"{name}: {'verified' if 'verified' in told.stdout.lower() and not told.returncode else 'NOT verified'}"


def within(rounds):
    return f"within {rounds} round{'s'[: rounds > 1]}"


def try_rounds(counter, rounds, options, solver):
    """Asks for a table that stabilises within these rounds. Prints and returns the verdict, with seconds and tables."""
    begun = time.monotonic()
    formula, entries = encoded(counter, rounds)
    with tempfile.TemporaryDirectory() as room:
        place = pathlib.Path(options.proof or room)
        place.mkdir(parents=True, exist_ok=True)
        path = place / f"{name_of(counter)}_within_{rounds}.cnf"
        formula.write(path)
        proof = path.with_suffix(".drat")
        verdict, true = solved(solver, path, options.seconds, [str(proof)] if options.proof else ())
        seconds = time.monotonic() - begun
        sizes = f"{formula.variables} variables, {len(formula.clauses)} clauses"
        print(f"{within(rounds)}: {verdict} ({sizes}, {seconds:.1f} s)", flush=True)
        if options.proof and verdict == NONE:
            lengths = ", ".join(f"{it.name} {it.stat().st_size} bytes" for it in (path, proof))
            print(f"{lengths}; {checked(path, proof, options.seconds)}", flush=True)
        elif options.proof:
            path.unlink()
            proof.unlink(missing_ok=True)
    return verdict, seconds, tables_of(counter, entries, true) if verdict == FOUND else None


def explored(counter, tables, byzantine):
    """The answer of `explore` on tables with these Byzantine nodes, as JSON."""
    correct = [it for it in range(counter.nodes) if it not in byzantine]
    rule = rule_of(counter, tables, by_digits)
    text = scenario_of(counter, rule, "Tables of the search.", counter.modulus, correct)
    _, out, err = program([*ASK, "--json"], text.encode())
    if not out.startswith(b"{"):
        sys.exit(f"find.py: no answer on the tables of the search: {out.decode().strip()} {err.strip()}")
    return json.loads(out)


def refuted(counter, refinement, tables):
    """Adds the first counterexample to these tables to the formula; says whether there is one."""
    for byzantine in counter.byzantine:
        answer = explored(counter, tables, byzantine)
        if answer["stabilisation"] == "certain":
            continue
        told = program(["run", "--json"], answer["scenario"].encode())[1] if answer["scenario"] else b""
        if not refinement.refine(byzantine, tables, answer["scenario"], told):
            sys.exit(f"find.py: the answer of explore shows no new transition: {answer}")
        return True
    return False


def try_by_counterexamples(counter, rounds, options, solver):
    """As `try_rounds`, but the formula has only the transitions of the counterexamples to earlier tables."""
    begun, shown, tables, verdict = time.monotonic(), 0, None, UNDECIDED
    refinement = Refinement(counter, rounds)
    with tempfile.TemporaryDirectory() as room:
        path = pathlib.Path(room) / "refined.cnf"
        while (left := options.seconds - (time.monotonic() - begun)) >= 1:
            refinement.formula.write(path)
            verdict, true = solved(solver, path, int(left))
            tables = tables_of(counter, refinement.entries, true) if verdict == FOUND else None
            if verdict != FOUND or not refuted(counter, refinement, tables):
                break
            shown, verdict = shown + 1, UNDECIDED
    seconds, whole = time.monotonic() - begun, refinement.formula
    sizes = f"{shown} counterexamples, {len(refinement.shown)} transitions, {len(whole.clauses)} clauses"
    print(f"{within(rounds)}: {verdict} ({sizes}, {seconds:.1f} s)", flush=True)
    return verdict, seconds, tables if verdict == FOUND else None


def search(counter, options, solver):
    """The tables of the first number of rounds that has some, or None."""
    path = options.keep / f"{name_of(counter)}.progress"
    known = decided(path, options.seconds) if options.resume else {}
    if not options.resume:
        path.unlink(missing_ok=True)
    for rounds in options.rounds:
        if rounds in known:
            print(f"{within(rounds)}: {known[rounds]['verdict']} (earlier, {known[rounds]['seconds']:.1f} s)")
            continue
        attempt = try_by_counterexamples if options.by_counterexamples else try_rounds
        verdict, seconds, tables = attempt(counter, rounds, options, solver)
        keep(path, {"rounds": rounds, "verdict": verdict, "seconds": seconds, "limit": options.seconds})
        if tables:
            path.unlink()
            return tables
        if verdict == NONE and counter.tables == counter.nodes and rounds >= counter.configurations:
            print("So no tables of any number of rounds show these counts. This is the solver's answer, not a theorem.")
    return None


# ---- the rule


def name_of(counter):
    tables = "" if counter.tables == 1 else f"k{counter.tables}"
    return f"n{counter.nodes}f{counter.faults}c{counter.modulus}s{counter.states}{tables}"


def program(words, given):
    told = subprocess.run([PROGRAM, *words], input=given, capture_output=True)
    return told.returncode, told.stdout, told.stderr.decode()


def length_of(counter, modulus, rule):
    """The slots and announced steps of a rule's program; (0, why) if there is no program."""
    shape = ["--nodes", str(counter.nodes), "--memory", "8"]
    sizes = ["--faults", str(counter.faults), "--modulus", str(modulus)]
    status, out, err = program(["compile", *shape, *sizes], rule.encode())
    if status:
        return 0, (out.decode() + err).strip()
    told = program(["verify", *shape], out)[1].decode()
    numbers = re.fullmatch(r"accepted slots (\d+) announced (\d+)\n", told)
    return (int(numbers[1]), int(numbers[2])) if numbers else (0, told.strip())


def shortest_rule(counter, modulus, tables, layers):
    """The shorter of the two ways to write the rule, with its slots and announced steps."""
    rules = [rule_of(counter, tables, write, layers) for write in (by_ranges, by_digits)]
    tried = [(*length_of(counter, modulus, rule), rule) for rule in rules]
    return min([it for it in tried if it[0]] or tried[1:])


def write_and_explore(counter, tables, options):
    """Writes the scenario, explores it and prints the answer. Gives the status."""
    modulus, states = counter.modulus**options.layers, counter.states**options.layers
    slots, steps, rule = shortest_rule(counter, modulus, tables, options.layers)
    if not slots:
        print(f"find.py: the table has {len(tables) * len(tables[0])} cells, and no program of its rule:\n{steps}")
        return REFUSED
    whole = dataclasses.replace(counter, modulus=modulus, states=states)
    nodes = f"{counter.nodes} nodes ({counter.faults} Byzantine)"
    title = f"A counter of {nodes} with {states} states modulo {modulus}, found by tools/find.py."
    path = options.keep / f"{name_of(whole)}.toml"
    path.write_text(scenario_of(counter, rule, title, modulus), encoding="utf-8")
    print(f"{path}: {slots} slots, {steps} steps", flush=True)
    status, out, err = program([*ASK, "--states", "100000000", str(path)], b"")
    lines = [it for it in out.decode().splitlines() if it.startswith("#")] or out.decode().splitlines()
    print("\n".join(lines) if lines else err.strip())
    return 0 if status == 0 and b"\nstabilises within " in out else REFUSED


# ---- the command line


def rounds_of(text):
    found = re.fullmatch(r"(\d+)(?:\.\.(\d+))?", text)
    if not found or not 1 <= int(found[1]) <= int(found[2] or found[1]):
        raise argparse.ArgumentTypeError(f"{text} is neither a number from 1 on nor a range such as 3..8")
    return range(int(found[1]), int(found[2] or found[1]) + 1)


def counts_of(text):
    return tuple(int(it) for it in text.split(","))


def parsed(words):
    about, more = __doc__.split("\n\n", 1)
    parser = argparse.ArgumentParser(
        usage=about.split(": ", 1)[1], description=about.split(":")[0] + ".", epilog=more,
        formatter_class=argparse.RawDescriptionHelpFormatter,
    )
    for name in ("nodes", "faults", "states", "modulus"):
        parser.add_argument(name, type=int)
    parser.add_argument("--tables", type=int, default=1, help="tables; node i has table i %% TABLES [default: 1]")
    parser.add_argument("--rounds", type=rounds_of, default=range(1, MAX_ROUNDS + 1), help="rounds [default: 1..16]")
    parser.add_argument("--seconds", type=int, default=60, help="time limit of a formula [default: 60]")
    parser.add_argument("--shows", type=counts_of, help="the count that each state shows, as 0,1,1")
    parser.add_argument("--layers", type=int, default=1, choices=(1, 2), help="2 squares them [default: 1]")
    parser.add_argument("--keep", type=pathlib.Path, default=".", help="folder to write into [default: .]")
    parser.add_argument("--resume", action="store_true", help="skip formulas that an earlier search decided")
    parser.add_argument("--proof", help="folder for formulas without a solution and their DRAT proofs")
    parser.add_argument(
        "--by-counterexamples", action="store_true", help="build the formula from counterexamples of explore"
    )
    options = parser.parse_args(words)
    options.shows = options.shows or evenly(options.states, options.modulus)
    fault = fault_of(options)
    if fault:
        parser.error(fault)
    return options


def fault_of(options):
    """The first error among the options, or an empty text."""
    nodes, faults, states, modulus = options.nodes, options.faults, options.states, options.modulus
    if not 2 <= nodes <= 64 or not 0 <= faults < nodes:
        return f"{nodes} nodes and {faults} faults: nodes are 2 to 64, and faults fewer"
    if modulus < 2 or not modulus <= states:
        return f"{states} states and the modulus {modulus}: both are 2 or more, and the modulus at most the states"
    if nodes % options.tables:
        return f"--tables {options.tables} doesn't divide {nodes} nodes"
    if options.tables * states**nodes > MAX_CELLS:
        return f"{options.tables} tables of {states}^{nodes} cells exceed {MAX_CELLS} cells"
    if options.by_counterexamples and options.proof:
        return "--proof keeps whole formulas: leave out --by-counterexamples"
    if len(options.shows) != states or set(options.shows) != set(range(modulus)):
        return f"--shows needs {states} numbers, among them each from 0 to {modulus - 1} and no other"
    return ""


def main(words):
    options = parsed(words)
    solver = solver_here()
    if not solver or (options.proof and solver == "minisat"):
        wanted = "SAT solver that writes proofs" if solver else "SAT solver"
        print(f"find.py: no {wanted} is on the PATH: apt-get install cadical", file=sys.stderr)
        return NO_SOLVER
    sizes = (options.nodes, options.faults, options.states, options.modulus)
    counter = Counter(*sizes, options.tables, options.shows)
    options.keep.mkdir(parents=True, exist_ok=True)
    begun = time.monotonic()
    tables = search(counter, options, solver)
    if tables is None:
        print("no counter was found")
        return 1
    print(f"found in {time.monotonic() - begun:.1f} s by {solver}")
    return write_and_explore(counter, tables, options)


if __name__ == "__main__":
    sys.exit(main(sys.argv[1:]))
