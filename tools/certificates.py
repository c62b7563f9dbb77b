"""Finds the certificates of steps of claims for `clockbed prove` (docs/ALL_SIZES.md, "Certificates"); all_sizes.py uses it.

z3 finds case splits and the facts of each leaf, and multipliers of these facts as a model over the rationals. Nothing of it
is trusted: `clockbed prove` checks each certificate.

A certificate has the paths of two nodes as its frame: `follow` has a plan for each case of the next `if`, and `refute`
says why the known facts can't all hold. A fact is named by how many later ones are known.
"""
import fractions
import math
import re
import shutil
import subprocess

from rule_text import Count, Let, parts_of
from step_formulas import Paths, StepFormulas
from symbolic import NoSolver, UNSAT

# A search that passes one of these ends without a certificate.
MOST_SPLITS, MOST_CUTS = 3000, 200
NODE_NAMES = ("p", "q")


class NotFound(Exception):
    """No certificate was found; the step may hold all the same."""


# ---- z3 over the rationals or the integers


class Process:
    """z3 as a process with named atoms."""

    def __init__(self, sort):
        if not shutil.which("z3"):
            raise NoSolver
        pipe = subprocess.PIPE
        self.process = subprocess.Popen(["z3", "-in", "-smt2"], stdin=pipe, stdout=pipe, text=True)
        self.sort, self.known, self.count = sort, set(), 0
        logic = "QF_LRA" if sort == "Real" else "QF_LIA"
        self.send(f"(set-option :global-declarations true)\n(set-option :produce-unsat-cores true)\n(set-logic {logic})")

    def send(self, text):
        self.process.stdin.write(text + "\n")

    def told(self, text):
        self.send(text)
        self.process.stdin.flush()
        answer = self.process.stdout.readline()
        while answer.count("(") > answer.count(")"):
            answer += self.process.stdout.readline()
        return answer.strip()

    def declare(self, formula):
        for variable in variables_of(formula) - self.known:
            self.known.add(variable)
            self.send(f"(declare-const v{variable} {self.sort})")

    def put(self, formula, name=None):
        """Asserts a formula, and gives the number of its name."""
        self.declare(formula)
        self.count += 1
        self.send(f"(assert (! {smt(formula)} :named a{self.count}))" if name is None else f"(assert {smt(formula)})")
        return self.count

    def is_impossible(self):
        return self.told("(check-sat)") == UNSAT

    def core(self):
        return [int(it) for it in re.findall(r"\ba(\d+)\b", self.told("(get-unsat-core)"))]

    def values(self, variables):
        answer = self.told(f"(get-value ({' '.join(f'v{it}' for it in variables)}))")
        return {int(name[1:]): number for name, number in values_in(answer)}

    def close(self):
        self.process.stdin.close()
        self.process.wait()
        self.process.stdout.close()


def values_in(answer):
    for name, number in re.findall(r"\((v\d+) ((?:[^()]|\([^()]*(?:\([^()]*\))?[^()]*\))+)\)", answer):
        yield name, rational(number)


def rational(text):
    """A number of z3, such as (- (/ 1.0 3.0))."""
    numbers = [fractions.Fraction(it) for it in re.findall(r"\d+(?:\.\d+)?", text)]
    value = numbers[0] / numbers[1] if "/" in text else numbers[0]
    return -value if "-" in text else value


def variables_of(formula):
    if formula[0] == "le":
        return set(formula[1])
    return variables_of(formula[1]) | variables_of(formula[2])


def integer(number):
    return str(number) if number >= 0 else f"(- {-number})"


def smt(formula):
    if formula[0] == "le":
        terms = " ".join(f"(* {integer(by)} v{it})" for it, by in formula[1].items())
        return f"(<= (+ {integer(formula[2])} 0 {terms}) 0)"
    return f"({formula[0]} {smt(formula[1])} {smt(formula[2])})"


def multipliers(atoms):
    """Natural numbers by which the atoms add up to a constant above 0."""
    variables = sorted({it for atom in atoms for it in atom[1]})
    lines = ["(set-logic QF_LRA)"]
    lines += [f"(declare-const m{k} Real)\n(assert (<= 0 m{k}))" for k in range(len(atoms))]

    def total(numbers):
        parts = " ".join(f"(* {integer(by)} m{k})" for k, by in enumerate(numbers) if by)
        return f"(+ 0 0 {parts})"

    lines += [f"(assert (= 0 {total([it[1].get(variable, 0) for it in atoms])}))" for variable in variables]
    lines.append(f"(assert (= 1 {total([it[2] for it in atoms])}))\n(check-sat)")
    lines.append(f"(get-value ({' '.join(f'm{k}' for k in range(len(atoms)))}))")
    answer = subprocess.run(["z3", "-in", "-smt2"], input="\n".join(lines), capture_output=True, text=True).stdout
    if not answer.startswith("sat"):
        raise NotFound("no multipliers were found")
    found = dict(values_in(answer.replace("(m", "(v")))
    numbers = [found[f"v{k}"] for k in range(len(atoms))]
    by = math.lcm(*(it.denominator for it in numbers))
    return [int(it * by) for it in numbers]


# ---- proofs. A leaf is an atom or an "or" of a fact: the key of the fact, and the sides that lead to it.


def leaves_of(formula, key):
    if formula[0] == "and":
        yield from leaves_of(formula[1], (*key, 0))
        yield from leaves_of(formula[2], (*key, 1))
    else:
        yield key, formula


class Sum:
    """Multiples of atoms that add up to a constant above 0."""

    def __init__(self, multiples):
        self.multiples = multiples
        self.used = {key for key, _ in multiples}


class Split:
    """An "or", with the proofs of both sides, whose facts have the keys (\"side\", number, which)."""

    def __init__(self, key, formula, number, proofs):
        self.key, self.formula, self.number, self.proofs = key, formula, number, proofs
        self.used = {key} | set().union(*(without(it, number) for it in proofs))


class Cut:
    """Two atoms of which one holds of all integers, with the proofs of both."""

    def __init__(self, atoms, number, proofs):
        self.atoms, self.number, self.proofs = atoms, number, proofs
        self.used = set().union(*(without(it, number) for it in proofs))


def side(number, which):
    return ("side", number, which)


def without(proof, number):
    """The leaves that a proof uses, without those of both sides of a case."""
    return {it for it in proof.used if it[0][:2] != ("side", number)}


class Search:
    """Looks for a proof that facts can't all hold."""

    def __init__(self):
        self.rationals, self.integers = Process("Real"), Process("Int")
        self.cases, self.splits, self.cuts = 0, 0, 0

    def close(self):
        self.rationals.close()
        self.integers.close()

    def both(self, text):
        self.rationals.send(text)
        self.integers.send(text)

    def is_impossible(self, facts):
        """Whether no integers meet the facts."""
        self.integers.send("(push)")
        for fact in facts:
            self.integers.put(fact, "")
        found = self.integers.is_impossible()
        self.integers.send("(pop)")
        return found

    def core(self, leaves):
        """The leaves of a part of the facts that no integers meet."""
        self.integers.send("(push)")
        names = {self.integers.put(formula): (key, formula) for key, formula in leaves}
        found = self.integers.is_impossible() and [names[it] for it in self.integers.core() if it in names]
        self.integers.send("(pop)")
        if found is False:
            raise NotFound("the facts don't contradict one another")
        return found

    def proof(self, facts):
        """A proof that the facts can't all hold; the keys of its leaves begin with (\"fact\", place)."""
        leaves = [it for place, fact in enumerate(facts) for it in leaves_of(fact, (("fact", place),))]
        self.splits = self.cuts = 0
        self.both("(push)")
        try:
            return self.go(*self.added(self.core(leaves), {}))
        finally:
            self.both("(pop)")

    def added(self, leaves, names):
        """The atoms' names with those of the leaves, which are put, and the "or"s among them."""
        names, cases = dict(names), []
        for key, formula in leaves:
            if formula[0] == "le":
                self.integers.put(formula)
                names[self.rationals.put(formula)] = key, formula
            else:
                cases.append((key, formula))
        return names, cases

    def go(self, names, cases):
        if self.rationals.is_impossible():
            used = [names[it] for it in self.rationals.core() if it in names]
            numbers = multipliers([formula for _, formula in used])
            return Sum([(key, by) for (key, _), by in zip(used, numbers) if by])
        if self.integers.is_impossible():
            return self.cut(names)
        if not cases or self.splits > MOST_SPLITS:
            raise NotFound("too many cases" if cases else "the laws of quorums aren't enough")
        self.splits += 1
        chosen = self.best(cases)
        rest = [it for it in cases if it is not chosen]
        return self.split(chosen, names, rest)

    def best(self, cases):
        """The case with the fewest sides that integers meet."""
        best = None
        for case in cases:
            live = sum(not self.is_impossible([it for _, it in leaves_of(part, ())]) for part in case[1][1:])
            if best is None or live < best[0]:
                best = live, case
            if live <= 1:
                break
        return best[1]

    def split(self, case, names, rest):
        (key, formula), self.cases = case, self.cases + 1
        number, proofs = self.cases, []
        for which, part in enumerate(formula[1:]):
            self.both("(push)")
            more, cases = self.added(leaves_of(part, (side(number, which),)), names)
            proof = self.go(more, [*rest, *cases])
            self.both("(pop)")
            if not any(it[0] == side(number, which) for it in proof.used):
                return proof
            proofs.append(proof)
        return Split(key, formula, number, proofs)

    def cut(self, names):
        """A proof by two atoms of which one holds of all integers, if no integers but some rationals meet the atoms."""
        self.cuts += 1
        if self.cuts > MOST_CUTS:
            raise NotFound("too many cuts")
        low, high = self.cut_atoms(names)
        self.cases += 1
        number, proofs = self.cases, []
        for which, atom in enumerate((low, high)):
            self.both("(push)")
            more, _ = self.added([((side(number, which),), atom)], names)
            proofs.append(self.go(more, []))
            self.both("(pop)")
        return Cut((low, high), number, proofs)

    def cut_atoms(self, names):
        variables = sorted({it for _, formula in names.values() for it in formula[1]})
        self.rationals.is_impossible()
        values, best = self.rationals.values(variables), None
        forms = [{it: 1} for it in variables]
        forms += [{one: 1, other: by} for one in variables for other in variables if one < other for by in (-1, 1)]
        for form in forms:
            value = sum(by * values[it] for it, by in form.items())
            if value.denominator == 1:
                continue
            below = math.floor(value)
            atoms = ("le", form, -below), ("le", {it: -by for it, by in form.items()}, below + 1)
            live = sum(not self.is_rationally_impossible(it) for it in atoms)
            if best is None or live < best[0]:
                best = live, atoms
            if live == 0:
                break
        if best is None:
            raise NotFound("no cut was found")
        return best[1]

    def is_rationally_impossible(self, atom):
        self.rationals.send("(push)")
        self.rationals.put(atom)
        found = self.rationals.is_impossible()
        self.rationals.send("(pop)")
        return found


# ---- text


class Writer:
    """A proof as words: the parts of a fact that are used are opened as soon as it is known."""

    def __init__(self, facts):
        self.words, self.count, self.places = [], len(facts), {}
        self.facts = facts

    def text(self, proof):
        for place, fact in enumerate(self.facts):
            self.know((("fact", place),), fact, place, proof.used)
        self.write(proof)
        return " ".join(self.words)

    def back(self, place):
        return self.count - 1 - place

    def know(self, key, formula, place, used):
        """Opens a known fact as far as leaves in it are used."""
        if not any(it[: len(key)] == key for it in used):
            return
        if formula[0] != "and":
            self.places[key] = place
            return
        self.words.append(f"open {self.back(place)}")
        self.count += 2
        here = self.count
        self.know((*key, 0), formula[1], here - 2, used)
        self.know((*key, 1), formula[2], here - 1, used)

    def write(self, proof):
        if isinstance(proof, Sum):
            multiples = " ".join(f"{self.back(self.places[key])} {by}" for key, by in proof.multiples)
            self.words.append(f"sum {len(proof.multiples)} {multiples}")
            return
        if isinstance(proof, Split):
            self.words.append(f"split {self.back(self.places[proof.key])}")
            parts = proof.formula[1:]
        else:
            self.words.append(f"cut {atom_words(proof.atoms[0])} {atom_words(proof.atoms[1])}")
            parts = proof.atoms
        for which, (part, inner) in enumerate(zip(parts, proof.proofs)):
            kept = self.count, dict(self.places)
            self.count += 1
            self.know((side(proof.number, which),), part, self.count - 1, inner.used)
            self.write(inner)
            self.count, self.places = kept


def atom_words(atom):
    terms = "".join(f"{variable} {by} " for variable, by in sorted(atom[1].items()))
    return f"le {len(atom[1])} {terms}{atom[2]}"


# ---- plans


class PlanProver:
    """Makes the plan of a step: certificates at the ends of paths, or before."""

    def __init__(self, search):
        self.search, self.ends = search, []

    def branch(self, known, first, second):
        if self.search.is_impossible(known):
            return self.close(known)
        return f"follow\n{first()}{second()}"

    def close(self, known):
        proof = self.search.proof(known)
        self.ends.append((known, proof))
        return f"refute {Writer(known).text(proof)}\n"


def all_uses(formulas, most):
    """All uses of a law: of each answer of each count, and of each two."""
    answered = [(node, count, answer) for node in (0, 1) for count in range(most) for answer in (True, False)]
    pairs = [(one, other) for k, one in enumerate(answered) for other in answered[k + 1 :]]
    return [(it,) for it in answered] + pairs


def most_counts(rule):
    """The most counts of a path: no more than there are lets."""
    return sum(isinstance(it, Let) and isinstance(it.term, Count) for it in parts_of(rule.body))


def law_of(key, uses):
    """The use of a law that a leaf of the laws' fact belongs to: its place in the list, by the sides that lead to it."""
    place = 0
    for which in key[1:]:
        if which == 0:
            return place
        place += 1
    return min(place, len(uses) - 1)


def needed_uses(uses, ends):
    """The uses that the proofs of the ends need."""
    needed = set()
    for known, proof in ends:
        laws = ("fact", len(known) - 2)
        needed |= {law_of(it, uses) for it in proof.used if it[0] == laws}
    return [it for place, it in enumerate(uses) if place in needed]


def use_words(use):
    parts = " ".join(f"{NODE_NAMES[node]} {count} {'yes' if answer else 'no'}" for node, count, answer in use)
    return f"{'one' if len(use) == 1 else 'two'} {parts}"


def counted(numbers):
    return " ".join(map(str, [len(numbers), *numbers]))


def beginning_words(case, step):
    """The state of a correct node of a case in which the step begins, as a line of text."""
    sizes = " ".join(str(case.sizes[it]) for it in ("n", "f", "M"))
    state = next(iter(case.states.values()))
    free, words = [case.free[it] for it in step.names], [state[it] for it in step.words]
    return f"begins {sizes} free {counted(free)} sent {state['sent']} words {counted(words)}\n"


def certificate_of(rule, step, case):
    """The certificate of a step as sums that begins in this case, as lines of text. Raises NotFound or NotCovered."""
    formulas, search = StepFormulas(rule, step), Search()
    try:
        uses = all_uses(formulas, most_counts(rule))
        prover = PlanProver(search)
        Paths(formulas, uses).plan(prover)
        uses = needed_uses(uses, prover.ends)
        plan = Paths(formulas, uses).plan(PlanProver(search))
    finally:
        search.close()
    laws = "".join(f" {use_words(it)}" for it in uses)
    return f"{beginning_words(case, step)}uses {len(uses)}{laws}\n{plan}"
