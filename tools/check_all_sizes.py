#!/usr/bin/env python3
"""Tries tools/all_sizes.py on the claims of examples/claims/ and on properties: check_all_sizes.py [PROGRAM]

Each step must get its answer, and a step of a wrong rule or claim must be refuted. The scenario of each refutation is
run: the step must begin in its pulse 1, and fail in pulse 2, by the lines of `run --json`. Pulses of the rules are
drawn, and made by tools/rule_meaning.py. None may break a step that holds for all sizes. Some must be among the
rule's paths, and meet the formulas that z3 is given. Claims with an error must be refused where it is, and properties
where `run --claims` refuses them. A drawn property that is covered must be true in whole numbers if it is in 32 bits.
Without z3 the tool must name the package; without root the rest is then left out. PROGRAM is as for check_rows.py.
"""
import itertools
import json
import os
import pathlib
import random
import re
import shutil
import subprocess
import sys
import tempfile
import tomllib

sys.dont_write_bytecode = True
from all_sizes import HOLDS, OUTSIDE, REFUTED, UNDECIDED, answer
from built_program import TOP, named_program, on_all_processors, tell
from built_program import answer as told_by
from check_properties import WRONG as WRONG_PROPERTIES
from check_properties import term as drawn_term
from claims_text import SIZES, ClaimTerms, admits, is_in, read_claims
from quorum_formula import Pair, paths
from rule_text import MAX_FRAMES, NONE, Reader, Refused
from small_benches import PULSE, Case, RunningNode, pairs_outside, scenario_of
from symbolic import SAT, Formula, Solver, chosen, compared, implied, total

SEED, DRAWN, BEGUN, ASKED, NODES = 9669, 2000, 100, 6, 5
TERMS, PAIRS, WORDS = 2000, 5, ["clock", "mark"]
# z3 has far more time than it needs, so that other work on the machine changes no answer.
SECONDS = 300
EXAMPLES = {
    "clock": [HOLDS] * 7,
    "king": [HOLDS] * 7,
    "greatest": [REFUTED] * 2 + [HOLDS] * 3,
    "two_coins": [REFUTED] + [HOLDS] * 5,
    "middle": [HOLDS],
    "agreement": [HOLDS],
}
# The rule and the claims of an example, if they aren't those of its name.
FILES = {"agreement": ("rules/clock.rule", "properties/agreement.claims")}
# An edit of a rule or its claims, and the number of a step that it makes wrong.
WRONG = [
    ("clock", "n > 3 * f", "n > 2 * f", 0),
    ("clock", "n > 3 * f", "n >= 3 * f", 0),
    ("clock", "support < n - f:", "support < n - f - 1:", 0),
    ("clock", "support < n - f:", "support < f + 1:", 0),
    ("clock", "support < n - f:", "support < n - f + 1:", 1),
    ("clock", "elif mark != 0:", "elif 1 == 0:", 1),
    ("king", "n > 3 * f", "n >= 3 * f", 0),
    ("king", "said < n - f:", "said < n - f - 1:", 0),
    ("king", "said < n - f:", "said < n - f + 1:", 3),
    ("king", "said >= n - f ", "said >= n - f - 1 ", 1),
    ("king", "said >= n - f ", "said >= n - f + 1 ", 3),
    ("king", ") > f:", ") > f - 1:", 1),
    ("king", ") > f:", ") > 2 * f:", 1),
    ("king", "Equal correct", "Equal", 2),
    ("two_coins", "n > 3 * f", "n >= 3 * f", 1),
    ("two_coins", "zeros >= n - f", "zeros >= n - f - 1", 1),
    ("two_coins", "coin c", "coin 1 - c", 3),
    ("middle", "n - 1 - f", "n - f", 0),
    ("agreement", "n > 3 * f", "n >= 3 * f", 0),
    ("agreement", "support < n - f:", "support < n - f - 1:", 0),
    ("agreement", "p.clock == q.clock", "p.clock != q.clock", 0),
]
# Properties of the clock with more than 3f nodes, and the answer to each.
BEGUN_AT, FAILS_AT = f"{HOLDS}; it begins at n = 4, f = 1, M = 2", "at n = 2, f = 0, M = 2"
PROPERTIES = [
    ("always p.mark < 2 and p.clock < M and not (p.clock and not p.mark)", BEGUN_AT),
    ("eventually always p.clock == 0 or q.clock == 0 or p.clock == q.clock", BEGUN_AT),
    ("within 0 2 > p.mark and none != f", BEGUN_AT),
    ("always p.clock == q.clock", f"{REFUTED} {FAILS_AT}"),
    ("always p.mark", f"{REFUTED} at n = 1, f = 0, M = 2"),
    ("eventually always p.clock == q.clock", f"{UNDECIDED}: its term fails after a pulse {FAILS_AT}, which refutes only always"),
    ("within 3 p.clock == q.clock", f"{UNDECIDED}: its term fails after a pulse {FAILS_AT}, which refutes only always"),
    ("always p.clock <= q.clock + 1", f"{UNDECIDED}: {OUTSIDE.format(9, 27)}"),
    ("always p.before.clock == 0 or p.clock % 2 == 1", f"{UNDECIDED}: {OUTSIDE.format(10, 8)}"),
    ("within 1 p.clock or (1 if q.clock else f - 1)", f"{UNDECIDED}: {OUTSIDE.format(11, 24)}"),
    ("always n > 0 and p.me == q.me", f"{UNDECIDED}: {OUTSIDE.format(12, 18)}"),
    ("always p.mark == (q.clock != 0)", f"{UNDECIDED}: {OUTSIDE.format(13, 27)}"),
    ("always p.mark == (not q.clock)", f"{UNDECIDED}: {OUTSIDE.format(14, 19)}"),
    ("always p.clock -1", f"{UNDECIDED}: {OUTSIDE.format(15, 16)}"),
]
# Claims with an error, the error, and its note without the place.
FAULTY = [
    ("asume n > f", "Expected line 1 column 1",
     'asume n > f; expected "assume", "set", "step", "always", "eventually" or "within", found "asume"'),
    ("set A: p.clok", "UnknownName line 1 column 10", "set A: p.clok; unknown name clok; did you mean clock?"),
    ("set A: p == 1", "Expected line 1 column 8", "set A: p == 1; write a word of the node, such as p.clock"),
    ("set A: me", "Expected line 1 column 8", 'set A: me; "me" isn\'t part of claims: write p.clock, p.sent'),
    ("set A[c]: c\nstep any -> A", "Expected line 2 column 13", "step any -> A; the set is A[c]"),
    ("set As: 1\nstep As -> A", "UnknownName line 2 column 12", "step As -> A; unknown set A; did you mean As?"),
    ("set A: 1\nset A: 2", "NameTwice line 2 column 5", "set A: 2; A has a meaning already"),
    ("assume n >  # nodes\nset A: 1", "Expected line 1 column 20",
     "assume n >; expected a term, such as a number or a name, found end of line"),
    ("set A: (p.clock", "Expected line 1 column 16", 'set A: (p.clock; expected ")", found end of text'),
    ("assume p.clock > 1", "Expected line 1 column 8", "assume p.clock > 1; only sets and properties speak of p and q"),
    ("set A: sorted[0] j: 1", "Expected line 1 column 8",
     "set A: sorted[0] j: 1; sorted isn't part of claims: they have p.clock, p.sent"),
    ("assume n $", "BadCharacter line 1 column 10",
     "assume n $; no token begins with this byte, or a letter follows a number"),
    ("assume n", "Expected line 1 column 9",
     "assume n; no step and no property: expected a line such as step any -> Agree"),
    ("assume n\n", "Expected line 2 column 1", "no step and no property: expected a line such as step any -> Agree"),
    ("assume n > f\nalways p.clok == 0", "UnknownName line 2 column 10",
     "always p.clok == 0; unknown name clok; did you mean clock?"),
    ("always p.sent == 0", "UnknownName line 1 column 10", "always p.sent == 0; unknown name sent"),
    ("always mail[0] == 0", "NotCovered line 1 column 8",
     'always mail[0] == 0; "mail" isn\'t part of properties: write p.clock, p.me'),
    ("within 1000001 p.clock", "OutOfRange line 1 column 8",
     "within 1000001 p.clock; a number is at most 4294967295, that of within at most 1000000, and a name has at most 32 "
     "letters"),
    ("  within p.clock", "Expected line 1 column 10", 'within p.clock; expected a number of pulses, found "p"'),
    ("step any -> any\neventually p.clock", "Expected line 2 column 12",
     'eventually p.clock; expected "always", found "p"'),
]
# Properties that `run --claims` refuses, but for its limits.
READ_ALIKE = [it for it in WRONG_PROPERTIES if not it[1].startswith("TooLong")]
# Rules with a word that claims or properties have for something else: the rule, the claims and the error.
TAKEN = [
    ("state sent", "step any -> any", "NameTwice line 1 column 1"),
    ("state before", "assume n > f\n\n  within 4 p.clock == 0", "NameTwice line 3 column 3"),
]


class Example:
    """A rule of examples/rules/ with its claims, or with an edit of one of them."""

    def __init__(self, name, old="", new=""):
        paths_of_name = f"rules/{name}.rule", f"claims/{name}.claims"
        self.name = name
        self.text, claims = ((TOP / "examples" / it).read_bytes() for it in FILES.get(name, paths_of_name))
        if old and (old.encode() in self.text) == (old.encode() in claims):
            raise ValueError(f"{name}: {old} isn't in one of rule and claims alone")
        self.text, claims = self.text.replace(old.encode(), new.encode()), claims.replace(old.encode(), new.encode())
        self.rule = Reader(self.text).rule()
        self.claims = read_claims(claims, self.rule.words)
        self.steps = self.claims.steps


# ---- answers, and runs of refutations


def answer_faults(program):
    def faults(task):
        example, step, wanted = task
        solver = Solver(SECONDS)
        got = answer(solver, example.rule, example.claims, step, NODES)
        solver.close()
        where = f"{example.name}, line {step.line}: {step.text}: {got}"
        if got.kind != wanted:
            return [f"{where}, and not {wanted}"]
        return [f"{where}: {it}" for it in run_faults(program, example, step, got.case)] if got.kind == REFUTED else []

    return faults


def run_faults(program, example, step, case):
    """What is wrong of the run of a refutation's scenario, by the lines of JSON."""
    scenario = scenario_of(example.text, example.rule, example.claims, step, case)
    told = told_by(program, ["run", "--json"], scenario.encode())
    if told.status:
        return [f"the run has status {told.status}: {told.out} {told.err}"]
    before, after = states_of_run(tomllib.loads(scenario), list(map(json.loads, told.out.splitlines())), example.rule)
    faults = []
    if len(before) < case.sizes["n"] - case.sizes["f"]:
        faults.append(f"{len(before)} nodes are correct")
    if pairs_outside(example.claims, step.before, case.names, before):
        faults.append(f"the run doesn't begin in {step.before.name}: {before}")
    if pairs_outside(example.claims, step.after, case.names, after) is None:
        faults.append(f"the run ends in {step.after.name}: {after}")
    return faults


def states_of_run(scenario, lines, rule):
    """The states of the nodes that run the clock in the step's pulse, before and after it."""
    _, earlier, pulse, _ = lines
    images = {it["node"]: bytes(it["image"]) for it in scenario["corrupt"] if it["pulse"] == PULSE}
    correct = [node for node, kind in enumerate(pulse["ran"]) if kind == "clock"]
    before = {node: state_in(rule, images[node], earlier["sent"][node]) for node in correct}
    return before, {node: state_in(rule, bytes.fromhex(pulse["memory"][node]), pulse["sent"][node]) for node in correct}


def state_in(rule, memory, sent):
    if len(set(sent)) != 1:
        raise ValueError(f"a correct node sent {sent}")
    words = {it: int.from_bytes(memory[4 * place : 4 * place + 4], "little") for place, it in enumerate(rule.words)}
    return words | {"sent": NONE if sent[0] is None else sent[0]}


# ---- drawn pulses


def drawn_case(dice, words, step):
    """A case at drawn sizes: the correct nodes are equal, or nearly so."""
    n = dice.randint(1, 7)
    f = dice.randint(0, n - 1)
    sizes = {"n": n, "f": f, "M": dice.randint(2, 5)}
    number = lambda: dice.choice([0, 0, 1, 1, 2, sizes["M"] - 1, dice.randrange(3 * f + 4), NONE])
    first = {it: number() for it in words}
    first["sent"] = first["clock"] if dice.random() < 0.8 else number()
    changes = dice.choice([0, 0, 0.2, 0.5])

    def state():
        changed = {it: number() if dice.random() < changes else value for it, value in first.items()}
        return changed | ({"sent": changed["clock"]} if dice.random() < 0.8 else {})

    correct = sorted(dice.sample(range(n), n - dice.randint(0, f)))
    states = {it: state() for it in correct}
    heard_numbers = [number(), *(it["sent"] for it in states.values())]
    heard = {it: {k: dice.choice(heard_numbers) for k in range(n) if k not in states} for it in correct}
    free = {it: dice.choice([*first.values(), number()]) for it in step.free}
    coin = dice.randrange(2) if step.coin is None else ClaimTerms(sizes | free).value(step.coin)
    coins = {it: dice.randrange(2) if step.coin is None else coin for it in correct}
    return Case(sizes, free, states, heard, coins)


def executed(example, case, node):
    """The pulse of a node as small_benches.py executes it, on numbers that are known."""
    given = case.sizes | {"me": node, "coin": case.coins[node]}
    running = RunningNode(Formula(), case.states[node], given, case.inbox(node))
    running.act(example.rule.body, True)
    return running


def begins(example, step, case):
    """Whether the case is one of the step: sizes and names, all pairs of nodes, and nodes that are read by number."""
    if not admits(example.claims, step, case.names) or not set(case.coins.values()) <= {0, 1}:
        return False
    if pairs_outside(example.claims, step.before, case.names, case.states):
        return False
    places = (it for node in case.states for it in executed(example, case, node).places) if step.is_correct else ()
    return all(not guard or place in case.states for guard, place in places)


def drawn_faults(task):
    """Drawn pulses of a step that holds: none breaks it, and some are asked of the formulas."""
    example, number = task
    step, dice, solver = example.steps[number], random.Random(SEED + number), Solver(SECONDS)
    drawn = (drawn_case(dice, example.rule.words, step) for _ in range(DRAWN))
    faults, begun = [], 0
    for case in itertools.islice((it for it in drawn if begins(example, step, it)), BEGUN):
        after, begun = case.after(example.rule, step), begun + 1
        if pairs_outside(example.claims, step.after, case.names, after):
            faults.append(f"it holds, and fails in {case}")
        faults += [f"{case}: node {it}" for it in case.states if executed(example, case, it).after() != after[it]]
        if begun <= ASKED:
            faults += formula_faults(solver, example, step, case, after)
    solver.close()
    if not begun:
        faults.append(f"none of {DRAWN} drawn cases begins in it")
    return [f"{example.name}, line {step.line}: {step.text}: {it}" for it in faults]


def formula_faults(solver, example, step, case, after):
    """Whether the pulses of two nodes are on paths of the rule, and meet the formula of these paths with all laws."""
    nodes = [min(case.states), max(case.states)]
    taken = []
    for node in nodes:
        pairs = ((path, Pair(example.rule, example.claims, step, [path])) for path in paths(example.rule.body))
        taken.append([path for path, pair in pairs if is_met(solver, pair, case, after, [node])])
    for one in taken[0]:
        for other in taken[1]:
            pair = Pair(example.rule, example.claims, step, [one, other])
            pair.add_laws()
            if is_met(solver, pair, case, after, nodes):
                return []
    return [f"no formula of the paths {taken} has {case}"]


def is_met(solver, pair, case, after, nodes):
    """Whether the formula has the pulses of these nodes as a solution."""
    pair.formula.add(*(compared("==", pair.names[it], number) for it, number in case.names.items()))
    for unknown, node in zip(pair.nodes, nodes):
        inbox = case.inbox(node)
        pair.formula.add(compared("==", unknown.me, node), compared("==", unknown.coin, case.coins[node]))
        for state, wanted in ((unknown.before, case.states[node]), (unknown.after(), after[node])):
            pair.formula.add(*(compared("==", state[it], number) for it, number in wanted.items()))
        for test in unknown.tests:
            pair.formula.add(compared("==", test.count, total(*(chosen(test.at(it), 1, 0) for it in inbox))))
        for place, message in unknown.places:
            for sender, heard in enumerate(inbox):
                pair.formula.add(implied(compared("==", place, sender), compared("==", message, heard)))
    return solver.verdict(pair.formula) == SAT


# ---- the tool as a program


def tool(words, path=None):
    told = subprocess.run(
        [sys.executable, str(TOP / "tools/all_sizes.py"), *words], capture_output=True, text=True,
        env={**os.environ, **({"PATH": path} if path else {})},
    )
    return told.returncode, told.stdout, told.stderr


def error_faults():
    """What the tool says of claims with an error."""
    rule = str(TOP / "examples/rules/clock.rule")
    with tempfile.TemporaryDirectory() as room:
        for text, name, note in FAULTY:
            path = pathlib.Path(room, "claims")
            path.write_text(text, encoding="utf-8")
            line, column = re.findall(r"\d+", name)
            wanted = 2, f"refused claims {name}\n", f"note: line {line}, column {column}: {note}\n"
            got = tool([rule, str(path)])
            if got != wanted:
                yield f"{text!r}: {got} in place of {wanted}"
        for state, text, name in TAKEN:
            pathlib.Path(room, "rule").write_text(f"{state}\nsend clock\n", encoding="utf-8")
            pathlib.Path(room, "claims").write_text(text, encoding="utf-8")
            got = tool([str(pathlib.Path(room, it)) for it in ("rule", "claims")])
            if got[:2] != (2, f"refused claims {name}\n"):
                yield f"a rule with {state}: {got}"
        without = tool([rule, str(TOP / "examples/claims/clock.claims")], room)
        if without != (4, "", "all_sizes.py: z3 isn't on the PATH: apt-get install z3\n"):
            yield f"without z3: {without}"


def reading_faults():
    """Properties that `run --claims` refuses are refused by the same error at the same place."""
    sys.setrecursionlimit(MAX_FRAMES)
    for text, wanted in READ_ALIKE:
        try:
            read_claims(text.encode(), WORDS)
            yield f"{text!r} is read"
        except Refused as why:
            if not str(why).startswith(f"refused claims {wanted}"):
                yield f"{text!r}: {why} in place of {wanted}"


def covered_faults():
    """Drawn properties that are covered, in whole numbers and in those of 32 bits that check_properties.py computes."""
    dice, covered = random.Random(SEED), 0
    number = lambda: dice.choice([0, 1, 2, 3, 7, NONE - 1, NONE])
    for _ in range(TERMS):
        sizes = {it: number() for it in SIZES}
        text, value, _ = drawn_term(dice, WORDS, sizes, dice.randrange(4))
        claims = read_claims(f"always {text}".encode(), WORDS)
        step = claims.steps[0]
        if step.uncovered:
            continue
        covered += 1
        for _pair in range(PAIRS):
            pair = [(0, [number() for _ in WORDS], []) for _ in "pq"]
            is_true = is_in(claims, step.after, sizes, *(dict(zip(WORDS, after)) for _, after, _ in pair))
            if is_true != (value(pair) != 0):
                yield f"{step.text} of {pair} and {sizes} is {is_true} in whole numbers"
    if covered < TERMS // 20:
        yield f"{covered} of {TERMS} drawn properties are covered"


def has_solver():
    return shutil.which("z3") or subprocess.run([str(TOP / "tools/need_packages.sh"), "z3"]).returncode == 0


def command_faults():
    """What the tool prints and writes for one refuted step, by its line."""
    with tempfile.TemporaryDirectory() as room:
        path = pathlib.Path(room, "scenario")
        names = [str(TOP / f"examples/{it}") for it in ("rules/greatest.rule", "claims/greatest.claims")]
        got = tool([*names, "--seconds", str(SECONDS), "--line", "6", "--scenario", str(path)])
        if got != (3, "line 6: any -> Agree\n  refuted at n = 4, f = 1, M = 2\n", "") or not path.is_file():
            yield f"all_sizes.py --line 6: {got}"
        yield from sketch_faults(pathlib.Path(room))
        yield from property_faults(pathlib.Path(room))


def sketch_faults(room):
    """What the tool prints for three quorums of the clock, and that it writes a scenario for each wrong one."""
    rule = (TOP / "examples/rules/clock.rule").read_text(encoding="utf-8")
    (room / "sketch").write_text(rule.replace("support < n - f:", "support < ?quorum:"), encoding="utf-8")
    names = [str(room / "sketch"), str(TOP / "examples/claims/clock.claims")]
    terms = "quorum=n - f - 1,n - f,n - f + 1"
    got = tool([*names, "--seconds", str(SECONDS), "--hole", terms, "--scenario", str(room / "scenarios")])
    lines = [it.split(": ", 1)[1] for it in got[1].splitlines()[:-1]]
    wanted = [
        "line 6 refuted at n = 2, f = 0, M = 3",
        "all 7 steps hold",
        "line 10 refuted at n = 1, f = 0, M = 2, c = 0",
    ]
    files = sorted(it.name for it in (room / "scenarios").iterdir())
    if got[0] or lines != wanted or files != ["1.toml", "3.toml"]:
        yield f"a sketch of the clock: {got}, {files}"


def property_faults(room):
    """What the tool prints of properties, and that it writes the first refuted one, and certificates of those that hold."""
    lines = ["assume n > 3 * f", *(text for text, _answer in PROPERTIES)]
    (room / "properties").write_text("\n".join(lines), encoding="utf-8")
    names = [str(TOP / "examples/rules/clock.rule"), str(room / "properties"), "--seconds", str(SECONDS)]
    files = ["--scenario", str(room / "refuted"), "--certificate", str(room / "certificates")]
    told = "".join(f"line {line}: {text}\n  {answered}\n" for line, (text, answered) in enumerate(PROPERTIES, 2))
    got = tool([*names, *files])
    if got != (3, told, ""):
        yield f"properties: {got} in place of {told}"
        return
    scenario, certificates = ((room / it).read_text(encoding="utf-8") for it in ("refuted", "certificates"))
    if lines[4] not in scenario or re.findall(r"(?m)^step (\d+)$", certificates) != ["2", "3", "4"]:
        yield f"files of properties: {scenario}{certificates}"


def main():
    program = named_program()
    found = [*error_faults(), *reading_faults(), *covered_faults()]
    counts = {"claims with an error": len(FAULTY) + len(TAKEN) + len(READ_ALIKE), "terms": TERMS}
    if not has_solver():
        print("check_all_sizes: left out: z3 isn't installed")
        return tell("check_all_sizes", counts, found)
    examples = {name: Example(name) for name in EXAMPLES}
    asked = [(it, *pair) for name, it in examples.items() for pair in zip(it.steps, EXAMPLES[name], strict=True)]
    wrong = [Example(*it[:3]) for it in WRONG]
    asked += [(it, it.steps[number], REFUTED) for it, (*_, number) in zip(wrong, WRONG)]
    drawn = [(examples[name], it) for name, kinds in EXAMPLES.items() for it, kind in enumerate(kinds) if kind == HOLDS]
    found += command_faults()
    found += on_all_processors(answer_faults(program), asked)
    found += on_all_processors(drawn_faults, drawn)
    counts |= {"steps": len(asked), "steps with drawn pulses": len(drawn), "properties": len(PROPERTIES)}
    return tell("check_all_sizes", counts, found)


if __name__ == "__main__":
    sys.exit(main())
