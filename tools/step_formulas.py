"""The formulas of a step of claims, as `clockbed prove` makes them (docs/ALL_SIZES.md, "Certificates").

certificates.py uses it. A certificate names facts by their places, so the formulas here have the very form of those of
crates/certified_steps. Nothing rests on this file: a formula that differs makes a certificate that is rejected.

A formula is an atom ("le", {variable: coefficient}, constant), which says that the sum is at most 0, or ("and", one,
other), or ("or", one, other). A number is an int, or Variable.
"""
import dataclasses

from claims_text import ANY, SENT, Field
from rule_text import (
    LIMIT, NONE, Assignment, Binary, Cases, Choice, Count, Given, Inverse, Least, Let, Lookup, Mail, Name, Number, Send,
    Sorted,
)

OPPOSITE = {"==": "!=", "!=": "==", "<": ">=", ">=": "<", ">": "<=", "<=": ">"}
MOST_QUANTITIES = 1000


class NotCovered(Exception):
    """A part of a rule or of claims of which `prove` has no formula."""


@dataclasses.dataclass(frozen=True)
class Variable:
    number: int


NODES, FAULTS, MODULUS = Variable(0), Variable(1), Variable(2)


# ---- formulas


def atom(left, right, less=0):
    """The sum of the left numbers and `less` is at most that of the right ones."""
    terms, constant = {}, less
    for sign, numbers in ((1, left), (-1, right)):
        for number in numbers:
            if isinstance(number, Variable):
                terms[number.number] = terms.get(number.number, 0) + sign
            else:
                constant += sign * number
    return "le", {it: by for it, by in terms.items() if by}, constant


def both(one, other):
    return "and", one, other


def either(one, other):
    return "or", one, other


def equal(left, right):
    return both(atom(left, right), atom(right, left))


ALWAYS, NEVER = atom([0], [0]), atom([1], [0])


def is_number(number):
    return both(atom([0], [number]), atom([number], [LIMIT], 1))


def compared(sign, one, other):
    if sign == "!=":
        return either(atom([one], [other], 1), atom([other], [one], 1))
    if sign == "==":
        return equal([one], [other])
    left, right = ([other], [one]) if sign[0] == ">" else ([one], [other])
    return atom(left, right, 0 if sign.endswith("=") else 1)


def computed(sign, a, b, result):
    if sign == "+":
        return either(equal([result], [a, b]), equal([result, LIMIT], [a, b]))
    if sign == "-":
        return either(equal([result, b], [a]), equal([result, b], [a, LIMIT]))
    if sign == "*":
        return ALWAYS
    if sign == "/":
        return atom([result], [a])
    none = both(atom([b], [0]), equal([result], [a]))
    low = both(atom([a], [b], 1), equal([result], [a]))
    once = both(atom([a], [b, b], 1), equal([result, b], [a]))
    rest = both(atom([b, b], [a]), atom([result], [b], 1))
    return either(none, either(low, either(once, rest)))


# ---- terms of the rule


@dataclasses.dataclass
class Truth:
    """A test: the formula that it holds, and the one that it doesn't."""

    holds: tuple
    fails: tuple


@dataclasses.dataclass
class Sender:
    """The node of a count, and its message."""

    node: Variable
    message: Variable


@dataclasses.dataclass
class Formed:
    """What a term is, the formula that says so, and the next free variable."""

    facts: tuple
    what: object
    next: int


def answers(what):
    if isinstance(what, Truth):
        return what
    number = what.node if isinstance(what, Sender) else what
    return Truth(atom([1], [number]), atom([number], [0]))


def as_number(formed):
    if isinstance(formed.what, Sender):
        return Formed(formed.facts, formed.what.node, formed.next)
    if not isinstance(formed.what, Truth):
        return formed
    number = Variable(formed.next)
    bit = either(
        both(formed.what.holds, equal([number], [1])), both(formed.what.fails, equal([number], [0]))
    )
    return Formed(both(formed.facts, bit), number, formed.next + 1)


def fresh(facts, k, says):
    return Formed(both(facts, both(is_number(Variable(k)), says)), Variable(k), k + 1)


@dataclasses.dataclass
class Store:
    """What the names of a node are: its number, its coin, its lets and words by name."""

    me: Variable
    coin: Variable
    names: dict

    def with_names(self, names):
        return Store(self.me, self.coin, {**self.names, **names})


def first_store(start, words):
    return Store(Variable(start), Variable(start + 1), {it: Variable(start + 3 + k) for k, it in enumerate(words)})


def form(term, store, around, k):
    """A term in a store, with the node of the count around it."""
    if isinstance(term, Number):
        return Formed(ALWAYS, term.value, k)
    if isinstance(term, Given):
        known = {"n": NODES, "f": FAULTS, "M": MODULUS, "me": store.me, "coin": store.coin, "none": NONE}
        return Formed(ALWAYS, known[term.name], k)
    if isinstance(term, Name):
        if term.kind == "node":
            return Formed(ALWAYS, around or 0, k)
        return Formed(ALWAYS, store.names[term.text], k)
    if isinstance(term, Mail):
        sender = form(term.sender, store, around, k)
        if isinstance(sender.what, Sender):
            return Formed(sender.facts, sender.what.message, sender.next)
        return fresh(sender.facts, sender.next, ALWAYS)
    if isinstance(term, Inverse):
        inner = form(term.inner, store, around, k)
        found = answers(inner.what)
        return Formed(inner.facts, Truth(found.fails, found.holds), inner.next)
    if isinstance(term, Count):
        return fresh(ALWAYS, k, atom([Variable(k)], [NODES]))
    if isinstance(term, Least):
        raise NotCovered("a least message")
    if isinstance(term, Sorted):
        raise NotCovered("a sorted number")
    if isinstance(term, Lookup):
        return form(term.choices(), store, around, k)
    if isinstance(term, Choice):
        return form_choice(term, store, around, k)
    return form_binary(term, store, around, k)


def form_choice(term, store, around, k):
    test = form(term.test, store, around, k)
    one = as_number(form(term.then, store, around, test.next))
    other = as_number(form(term.other, store, around, one.next))
    result, found = Variable(other.next), answers(test.what)
    first = both(found.holds, both(one.facts, equal([result], [one.what])))
    second = both(found.fails, both(other.facts, equal([result], [other.what])))
    return fresh(test.facts, other.next, either(first, second))


def form_binary(term, store, around, k):
    if term.sign in ("and", "or"):
        one = form(term.left, store, around, k)
        other = form(term.right, store, around, one.next)
        a, b = answers(one.what), answers(other.what)
        if term.sign == "and":
            what = Truth(both(a.holds, b.holds), either(a.fails, b.fails))
        else:
            what = Truth(either(a.holds, b.holds), both(a.fails, b.fails))
        return Formed(both(one.facts, other.facts), what, other.next)
    one = as_number(form(term.left, store, around, k))
    other = as_number(form(term.right, store, around, one.next))
    facts = both(one.facts, other.facts)
    if term.sign in OPPOSITE:
        a, b = one.what, other.what
        return Formed(facts, Truth(compared(term.sign, a, b), compared(OPPOSITE[term.sign], a, b)), other.next)
    return fresh(facts, other.next, computed(term.sign, one.what, other.what, Variable(other.next)))


# ---- claims as sums


class ClaimSums:
    """Terms of claims as sums: {quantity: coefficient} with the constant at None. A quantity is a size, a free name, or a
    field of p or q. Conditions become the `Condition` of crates/step_searches."""

    def __init__(self, claims, names):
        self.claims, self.names = claims, names

    def value(self, term, known):
        if isinstance(term, Number):
            return {None: term.value}
        if isinstance(term, Given):
            return {None: NONE} if term.name == "none" else {term.name: 1}
        if isinstance(term, Field):
            return {(term.node, term.word): 1}
        if isinstance(term, Name):
            return known[term.text] if term.text in known else {term.text: 1}
        if isinstance(term, Binary) and term.sign in "+-*":
            left, right = self.value(term.left, known), self.value(term.right, known)
            if term.sign == "*":
                return multiplied(left, right)
            return added(left, right, 1 if term.sign == "+" else -1)
        raise NotCovered("a claim has a term that isn't a sum of sizes, names and words with constant factors")

    def condition(self, term, known, is_meant=True):
        if isinstance(term, Inverse):
            return self.condition(term.inner, known, not is_meant)
        if isinstance(term, Binary) and term.sign in ("and", "or"):
            parts = self.condition(term.left, known, is_meant), self.condition(term.right, known, is_meant)
            return ("both" if (term.sign == "and") == is_meant else "either", *parts)
        if isinstance(term, Binary) and term.sign in OPPOSITE:
            sign = term.sign if is_meant else OPPOSITE[term.sign]
            return compared_sums(sign, self.value(term.left, known), self.value(term.right, known))
        return compared_sums("!=" if is_meant else "==", self.value(term, known), {None: 0})

    def of_set(self, use):
        if use.name == ANY:
            return None
        found = self.claims.set_of(use)
        return self.condition(found.term, dict(zip(found.parameters, (self.value(it, {}) for it in use.terms))))


def added(one, other, sign):
    total = dict(one)
    for name, by in other.items():
        total[name] = total.get(name, 0) + sign * by
    return total


def multiplied(one, other):
    for a, b in ((one, other), (other, one)):
        if set(a) <= {None}:
            by = a.get(None, 0)
            return {name: by * it for name, it in b.items()}
    raise NotCovered("a claim has a product of two unknown numbers")


def compared_sums(sign, left, right):
    if sign == "==":
        return "both", at_most(left, right), at_most(right, left)
    if sign == "!=":
        return "either", at_most(left, right, 1), at_most(right, left, 1)
    if sign[0] == ">":
        left, right = right, left
    return at_most(left, right, 0 if sign.endswith("=") else 1)


def at_most(left, right, less=0):
    sum_of = added(added(left, right, -1), {None: less}, 1)
    if sum(map(abs, sum_of.values())) > MOST_QUANTITIES * LIMIT:
        raise NotCovered("a claim has too great a constant")
    return "at most", sum_of


def both_of(parts):
    """The conditions as one, the first outermost; None says nothing."""
    there = [it for it in parts if it is not None]
    if not there:
        return None
    made = there[-1]
    for part in reversed(there[:-1]):
        made = "both", part, made
    return made


@dataclasses.dataclass
class SumStep:
    """A step as sums."""

    words: list
    names: list
    coin: object  # None, a number, or a free name
    before: object
    after: object


def step_of(claims, step, words):
    sums = ClaimSums(claims, step.free)
    sizes = both_of([at_most({"f": 1}, {"n": 1}, 1), at_most({None: 2}, {"M": 1})])
    assumed = [sums.condition(it, {}) for it in claims.assumptions]
    asked = [sums.condition(step.condition, {})] if step.condition is not None else []
    before = both_of([sizes, *assumed, *asked, sums.of_set(step.before)])
    if step.is_correct:
        raise NotCovered("a step with `correct`")
    return SumStep(words, list(step.free), coin_of(step.coin), before, sums.of_set(step.after))


def coin_of(term):
    if term is None:
        return None
    if isinstance(term, Number):
        return term.value
    if isinstance(term, Name):
        return term.text
    raise NotCovered("a coin that is neither a number nor a free name")


# ---- the facts of a step


@dataclasses.dataclass
class View:
    """The numbers of a node between pulses."""

    words: dict
    sent: object

    def field(self, word):
        return self.sent if word == SENT else self.words[word]


def view_at(k, words):
    return View({it: Variable(k + 3 + i) for i, it in enumerate(words)}, Variable(k + 2))


class StepFormulas:
    """The formulas of a step of a rule."""

    def __init__(self, rule, step):
        self.rule, self.step, self.words = rule, step, rule.words
        self.first = 3 + len(step.names)
        self.second = self.beyond(self.first)
        self.free = self.beyond(self.second)

    def beyond(self, k):
        return k + 3 + len(self.words)

    def quantity(self, name, p, q):
        if isinstance(name, tuple):
            node, word = name
            return (p if node == "p" else q).field(word)
        sizes = {"n": NODES, "f": FAULTS, "M": MODULUS}
        return sizes[name] if name in sizes else Variable(3 + self.step.names.index(name))

    def sum(self, sum_of, p, q, sign=1):
        """The atom that a sum is at most 0; with sign -1 that it is at least 1."""
        terms, constant = {}, sum_of.get(None, 0)
        for name, by in sum_of.items():
            if name is not None:
                number = self.quantity(name, p, q)
                if isinstance(number, Variable):
                    terms[number.number] = terms.get(number.number, 0) + by
                else:
                    constant += by * number
        constant = constant if sign == 1 else 1 - constant
        return "le", {it: sign * by for it, by in terms.items() if by}, constant

    def stated(self, condition, p, q):
        if condition is None:
            return ALWAYS
        if condition[0] == "at most":
            return self.sum(condition[1], p, q)
        join = both if condition[0] == "both" else either
        return join(*(self.stated(it, p, q) for it in condition[1:]))

    def denied(self, condition, p, q):
        if condition is None:
            return NEVER
        if condition[0] == "at most":
            return self.sum(condition[1], p, q, -1)
        join = either if condition[0] == "both" else both
        return join(*(self.denied(it, p, q) for it in condition[1:]))

    # ---- nodes

    def is_node(self, k):
        numbers = ALWAYS
        for i in range(len(self.words)):
            numbers = both(numbers, is_number(Variable(k + 3 + i)))
        one = both(atom([0], [Variable(k)]), atom([Variable(k)], [NODES], 1))
        flip = both(atom([0], [Variable(k + 1)]), atom([Variable(k + 1)], [1]))
        return both(numbers, both(is_number(Variable(k + 2)), both(one, flip)))

    def met(self, k, j):
        one, other = view_at(k, self.words), view_at(j, self.words)
        return both(self.stated(self.step.before, one, other), self.stated(self.step.before, other, one))

    def met_alone(self, k):
        view = view_at(k, self.words)
        return self.stated(self.step.before, view, view)

    def is_correct(self, k):
        return both(self.met_alone(k), both(self.met(k, self.first), self.met(k, self.second)))

    def coin_is(self, k):
        coin = self.step.coin
        if coin is None:
            return ALWAYS
        return equal([Variable(k + 1)], [coin if isinstance(coin, int) else self.quantity(coin, None, None)])

    def begun(self):
        names = ALWAYS
        for i in range(len(self.step.names)):
            names = both(names, atom([0], [Variable(3 + i)]))
        sizes = both(is_number(NODES), both(is_number(FAULTS), is_number(MODULUS)))
        nodes = both(self.is_node(self.first), self.is_node(self.second))
        coins = both(self.coin_is(self.first), self.coin_is(self.second))
        met = both(self.met_alone(self.first), self.is_correct(self.second))
        return both(sizes, both(names, both(nodes, both(coins, met))))

    # ---- laws of quorums

    def answered(self, count, answer, k, m):
        found = form(count.test, count.store, Sender(Variable(k), Variable(k + 2)), m)
        both_ways = answers(found.what)
        return both(found.facts, both_ways.holds if answer else both_ways.fails), found.next

    def one_count(self, count, answer, k):
        heard, following = self.answered(count, answer, k, self.beyond(k))
        more, fewer = (count.variable, 0) if answer else (NODES, count.variable)
        sender = both(self.is_node(k), self.is_correct(k))
        return either(atom([more], [FAULTS, fewer]), both(sender, heard)), following

    def two_counts(self, same, one, one_answer, other, other_answer, k):
        first, m = self.answered(one, one_answer, k, self.beyond(k))
        second, following = self.answered(other, other_answer, k, m)
        more, fewer = (one.variable, 0) if one_answer else (NODES, one.variable)
        others, less = (other.variable, 0) if other_answer else (NODES, other.variable)
        few = atom([more, others], [NODES, 0 if same else FAULTS, fewer, less])
        sender = both(self.is_node(k), ALWAYS if same else self.is_correct(k))
        return either(few, both(sender, both(first, second))), following

    def used(self, use, counts, k):
        """The instance of a law, and the next free variable."""
        found = [(it, counts[it[0]][it[1]] if it[1] < len(counts[it[0]]) else None) for it in use]
        if any(count is None for _, count in found):
            return ALWAYS, k
        if len(found) == 1:
            (_, _, answer), count = found[0]
            return self.one_count(count, answer, k)
        ((node, _, answer), count), ((other_node, _, other_answer), other) = found
        return self.two_counts(node == other_node, count, answer, other, other_answer, k)

    def all_used(self, uses, counts, k):
        if not uses:
            return ALWAYS, k
        first, k = self.used(uses[0], counts, k)
        rest, k = self.all_used(uses[1:], counts, k)
        return both(first, rest), k


# ---- paths


@dataclasses.dataclass(frozen=True)
class Counted:
    """A `let` that is a count: its variable, its test, and the store of the test."""

    variable: Variable
    test: object
    store: object


@dataclasses.dataclass
class Place:
    """A place of a path: names, the number sent, counts with the latest first, and the next free variable."""

    store: Store
    sent: object
    counts: tuple
    next: int


def block_of(cases):
    """The block of `else`, or of the next `elif`."""
    if not cases:
        return []
    if cases[0][0] == Number(1):
        return cases[0][1]
    return [Cases(cases)]


class Paths:
    """Goes along the paths of p and then of q, as the search of crates/certified_steps does, and calls `close` and
    `branch` for what is to be proved."""

    def __init__(self, formulas, uses):
        self.formulas, self.uses, self.rule = formulas, uses, formulas.rule

    def start(self, k, following):
        return Place(first_store(k, self.rule.words), None, (), following)

    def plan(self, prover):
        """What `prover` makes of the ends of all paths."""
        known = [self.formulas.begun()]
        place = self.start(self.formulas.first, self.formulas.free)
        return self.walk(prover, known, place, (self.rule.body, ("second",)))

    def walk(self, prover, known, place, rest):
        while True:
            if rest[0] == "second":
                place, rest = self.start(self.formulas.second, place.next), (self.rule.body, ("end", place))
            elif rest[0] == "end":
                return self.close(prover, known, rest[1], place)
            elif not rest[0]:
                rest = rest[1]
            else:
                (statement, *others), later = rest
                rest = (others, later)
                if isinstance(statement, Cases):
                    return self.branch(prover, known, place, statement, rest)
                known, place = self.passed(known, place, statement)

    def passed(self, known, place, statement):
        if isinstance(statement, Let):
            found = as_number(form(statement.term, place.store, None, place.next))
            counts = place.counts
            if isinstance(statement.term, Count):
                counts = (Counted(Variable(place.next), statement.term.test, place.store), *counts)
            store = place.store.with_names({statement.name: found.what})
            return [*known, found.facts], Place(store, place.sent, counts, found.next)
        if isinstance(statement, Assignment):
            return self.assigned(known, place, statement)
        if isinstance(statement, Send) and statement.receiver is None:
            found = as_number(form(statement.term, place.store, None, place.next))
            return [*known, found.facts], Place(place.store, found.what, place.counts, found.next)
        raise NotCovered("a loop, or `send .. to`")

    def assigned(self, known, place, statement):
        facts, written, k = None, {}, place.next
        for target, term in zip(statement.targets, statement.terms):
            found = as_number(form(term, place.store, None, k))
            facts = found.facts if facts is None else both(facts, found.facts)
            written[target.text], k = found.what, found.next
        return [*known, facts], Place(place.store.with_names(written), place.sent, place.counts, k)

    def branch(self, prover, known, place, statement, rest):
        (test, body), *others = statement.cases
        found = form(test, place.store, None, place.next)
        both_ways = answers(found.what)
        here = Place(place.store, place.sent, place.counts, found.next)

        def follow(answer, block):
            return self.walk(prover, [*known, found.facts, answer], here, (block, rest))

        return prover.branch(
            known, lambda: follow(both_ways.holds, body), lambda: follow(both_ways.fails, block_of(others))
        )

    def close(self, prover, known, first, second):
        if first.sent is None or second.sent is None:
            raise NotCovered("a path on which nothing is sent")
        laws, _ = self.formulas.all_used(self.uses, (first.counts, second.counts), second.next)
        views = [View({it: node.store.names[it] for it in self.rule.words}, node.sent) for node in (first, second)]
        denied = self.formulas.denied(self.formulas.step.after, *views)
        return prover.close([*known, laws, denied])
