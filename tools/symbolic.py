"""Terms of rules and claims as numbers that a solver looks for, and the solver z3; all_sizes.py uses it.

A number is an int or an expression of SMT-LIB (a str); a condition is a bool or an expression. What is known is
computed, so the same code works for numbers alone.
"""
import re
import shutil
import subprocess

from rule_text import LIMIT, Binary, Choice, Count, Given, Inverse, Least, Lookup, Mail, Name, Number, Sorted

SAT, UNSAT = "sat", "unsat"
VALUE = re.compile(r"\(([^\s()]+) (\d+|\(- \d+\)|true|false)\)")
SIMPLE = re.compile(r"[^\s()]+")
KNOWN = {
    "==": lambda a, b: a == b,
    "!=": lambda a, b: a != b,
    "<": lambda a, b: a < b,
    "<=": lambda a, b: a <= b,
    ">": lambda a, b: a > b,
    ">=": lambda a, b: a >= b,
}


def text(part):
    """A number or condition as SMT-LIB."""
    if isinstance(part, bool):
        return "true" if part else "false"
    return f"(- {-part})" if isinstance(part, int) and part < 0 else str(part)


def applied(sign, *parts):
    return f"({sign} {' '.join(map(text, parts))})"


def are_known(part, other=0):
    return not isinstance(part, str) and not isinstance(other, str)


# ---- conditions


def inverse(condition):
    return (not condition) if are_known(condition) else applied("not", condition)


def all_of(*conditions):
    left = [it for it in conditions if it is not True]
    if not left or any(it is False for it in left):
        return not left
    return left[0] if len(left) == 1 else applied("and", *left)


def any_of(*conditions):
    left = [it for it in conditions if it is not False]
    if not left or any(it is True for it in left):
        return bool(left)
    return left[0] if len(left) == 1 else applied("or", *left)


def implied(condition, other):
    return any_of(inverse(condition), other)


def compared(sign, one, other):
    if are_known(one, other):
        return KNOWN[sign](one, other)
    if sign == "!=":
        return inverse(compared("==", one, other))
    return applied("=" if sign == "==" else sign, one, other)


# ---- numbers


def chosen(condition, one, other):
    if are_known(condition):
        return one if condition else other
    return one if one == other else applied("ite", condition, one, other)


def total(*parts):
    known = sum(it for it in parts if are_known(it))
    unknown = [it for it in parts if not are_known(it)]
    if not unknown:
        return known
    return unknown[0] if not known and len(unknown) == 1 else applied("+", *unknown, *([known] if known else []))


def difference(one, other):
    return one - other if are_known(one, other) else applied("-", one, other)


def product(one, other):
    return one * other if are_known(one, other) else applied("*", one, other)


def quotient(one, other):
    """Rounded down; 0 if the divisor is 0 or less."""
    if are_known(one, other):
        return one // other if other > 0 else 0
    return chosen(compared("<=", other, 0), 0, applied("div", one, other))


def remainder(one, other):
    """That of `quotient`; the left side if the divisor is 0 or less."""
    if are_known(one, other):
        return one % other if other > 0 else one
    return chosen(compared("<=", other, 0), one, applied("mod", one, other))


WHOLE = {"+": total, "-": difference, "*": product, "/": quotient, "%": remainder}


def wrapped(sign, one, other):
    """Arithmetic of rules: modulo 2^32."""
    result = WHOLE[sign](one, other)
    if sign == "+":
        return chosen(compared(">=", result, LIMIT), difference(result, LIMIT), result)
    if sign == "-":
        return chosen(compared("<", result, 0), total(result, LIMIT), result)
    return remainder(result, LIMIT) if sign == "*" else result


# ---- terms

LEAVES = {Given: "given", Name: "name", Mail: "mail", Count: "count", Least: "least", Sorted: "ranked"}


class Terms:
    """The numbers and conditions of terms. What names and messages are, and what is found of them, is that of a subclass."""

    def value(self, term):
        if isinstance(term, Number):
            return term.value
        if isinstance(term, Choice):
            return chosen(self.holds(term.test), self.value(term.then), self.value(term.other))
        if isinstance(term, Lookup):
            return self.value(term.choices())
        if isinstance(term, Binary) and term.sign in WHOLE:
            return self.arithmetic(term, self.value(term.left), self.value(term.right))
        if isinstance(term, (Binary, Inverse)):
            return chosen(self.holds(term), 1, 0)
        return self.leaf(term)

    def leaf(self, term):
        return getattr(self, LEAVES[type(term)])(term)

    def holds(self, term):
        if isinstance(term, Inverse):
            return inverse(self.holds(term.inner))
        if isinstance(term, Binary) and term.sign in ("and", "or"):
            return (all_of if term.sign == "and" else any_of)(self.holds(term.left), self.holds(term.right))
        if isinstance(term, Binary) and term.sign in KNOWN:
            return compared(term.sign, self.value(term.left), self.value(term.right))
        return compared("!=", self.value(term), 0)


# ---- formulas and z3


class Formula:
    """Numbers that are looked for, and conditions that all of them have to meet."""

    def __init__(self):
        self.kinds, self.facts = {}, []

    @property
    def names(self):
        return list(self.kinds)

    def new(self, hint, kind):
        name = f"{hint}!{len(self.kinds)}"
        self.kinds[name] = kind
        return name

    def number(self, hint, low=0, high=LIMIT - 1):
        """A new unknown number, at least `low` and at most `high`."""
        name = self.new(hint, "Int")
        self.add(compared("<=", low, name), compared("<=", name, high))
        return name

    def condition(self, hint):
        """A new unknown condition."""
        return self.new(hint, "Bool")

    def named(self, hint, part, kind="Int"):
        """A name for a number or a condition, so that later expressions stay short."""
        if are_known(part) or SIMPLE.fullmatch(part):
            return part
        name = self.new(hint, kind)
        self.add(compared("==", name, part))
        return name

    def add(self, *conditions):
        self.facts += [it for it in conditions if it is not True]

    def declarations(self):
        return [f"(declare-const {name} {kind})" for name, kind in self.kinds.items()]


class NoSolver(Exception):
    """z3 isn't installed."""


class Solver:
    """z3 as a process that answers one formula after the other."""

    def __init__(self, seconds):
        if not shutil.which("z3"):
            raise NoSolver
        self.seconds = seconds
        pipe = subprocess.PIPE
        self.process = subprocess.Popen(["z3", "-in", "-smt2"], stdin=pipe, stdout=pipe, text=True)

    def close(self):
        self.process.stdin.close()
        self.process.wait()
        self.process.stdout.close()

    def verdict(self, formula):
        """`sat`, `unsat`, or `unknown` if z3 ran out of time."""
        lines = ["(reset)", f"(set-option :timeout {self.seconds * 1000})", *formula.declarations()]
        lines += [applied("assert", it) for it in formula.facts]
        return self.told("\n".join([*lines, "(check-sat)"]))

    def narrowed(self, condition):
        """Whether the last formula has a solution with one more condition, which then stays."""
        self.send(f"(push)\n{applied('assert', condition)}")
        found = self.told("(check-sat)") == SAT
        if not found:
            self.send("(pop)")
        return found

    def values(self, names):
        """The numbers that these names have in the solution found last."""
        if not names:
            return {}
        answer = self.told(f"(get-value ({' '.join(names)}))")
        while answer.count("(") > answer.count(")"):
            answer += self.process.stdout.readline()
        return {name: value_of(number) for name, number in VALUE.findall(answer)}

    def send(self, lines):
        self.process.stdin.write(lines + "\n")

    def told(self, lines):
        self.send(lines)
        self.process.stdin.flush()
        answer = self.process.stdout.readline()
        if not answer or answer.startswith("(error"):
            raise RuntimeError(f"z3: {answer.strip() or 'it ended'}")
        return answer.strip()


def value_of(number):
    if number in ("true", "false"):
        return number == "true"
    return int(number.strip("(-) ")) * (-1 if number.startswith("(") else 1)
