"""A step of claims as formulas for all sizes at once (docs/ALL_SIZES.md, "How it works"); all_sizes.py uses it.

One correct node's pulse is one of the rule's paths: a choice among the cases of each `if`. On a path each
`count j: t` is an unknown number, and the laws of quorums tie the counts of one or two nodes together. A pair of paths
gives a formula: if it has no solution, the step holds for these paths, whatever n, f and M are.
"""
import dataclasses
import itertools
import re

from claims_text import ClaimTerms, admits, are_in
from rule_text import (
    LIMIT, NONE, Assignment, Binary, Cases, Count, Let, Loop, Mail, Name, Number, parts_of,
)
from symbolic import (
    UNSAT, Formula, Terms, all_of, any_of, are_known, compared, difference, implied, inverse, product, total,
    wrapped,
)

# n and M are less than this, so that sums of a few sizes aren't taken modulo 2^32.
MAX_SIZE = 1 << 28
MAX_PATHS = 64
MESSAGE = "@message"
EQUAL = re.compile(rf"\(= {MESSAGE} ([^\s()]+)\)|\(= ([^\s()]+) {MESSAGE}\)")
OPPOSITE = {"<": ">", ">": "<", "<=": ">=", ">=": "<="}


class OutsideCounts(Exception):
    """A part of a rule that the formulas don't cover."""

    def __init__(self, place, why):
        super().__init__(f"line {place[0]}, column {place[1]} of the rule: {why}")


# ---- loops for the least or greatest message


@dataclasses.dataclass(frozen=True)
class Extremum:
    """`for j:` with `if mail[j] < x and T: x = mail[j]`: x becomes the least of itself and the messages with T."""

    node: str
    target: Name
    sign: str  # "<" for the least, ">" for the greatest
    tests: list


def conjuncts(term):
    """The conditions that `and` joins."""
    if isinstance(term, Binary) and term.sign == "and":
        return [*conjuncts(term.left), *conjuncts(term.right)]
    return [term]


def speaks_of(term, name):
    return any(isinstance(it, Name) and it.text == name for it in parts_of(term))


def has_count(term):
    return any(isinstance(it, Count) for it in parts_of(term))


def is_message_of(term, node):
    return isinstance(term, Mail) and isinstance(term.sender, Name) and term.sender.text == node


def sign_of(part, node, target):
    """How a condition compares the message of the loop's node with the target, or None."""
    if not isinstance(part, Binary) or part.sign not in OPPOSITE:
        return None
    for one, other, sign in ((part.left, part.right, part.sign), (part.right, part.left, OPPOSITE[part.sign])):
        if is_message_of(one, node) and isinstance(other, Name) and other.text == target:
            return sign[0]
    return None


def extremum_of(loop):
    """The loop as an extremum. Raises OutsideCounts if it is another loop."""
    wrong = OutsideCounts(loop.place, "a loop that takes neither the least nor the greatest message")
    if len(loop.body) != 1 or not isinstance(loop.body[0], Cases) or len(loop.body[0].cases) != 1:
        raise wrong
    (test, body), = loop.body[0].cases
    if len(body) != 1 or not isinstance(body[0], Assignment) or len(body[0].targets) != 1:
        raise wrong
    target = body[0].targets[0]
    parts = conjuncts(test)
    signs = [sign_of(it, loop.node, target.text) for it in parts]
    tests = [it for it, sign in zip(parts, signs) if not sign]
    is_one = len(parts) - len(tests) == 1 and is_message_of(body[0].terms[0], loop.node)
    if not is_one or any(speaks_of(it, target.text) for it in tests):
        raise wrong
    return Extremum(loop.node, target, next(filter(None, signs)), tests)


# ---- paths


def paths(body):
    """The lists of cases that a pulse can take: one number for each `if` that it meets, in order."""
    found = [()]
    for statement in body:
        if isinstance(statement, Cases):
            ways = [(number, *rest) for number, (_, inner) in enumerate(statement.cases) for rest in paths(inner)]
            if statement.cases[-1][0] != Number(1):
                ways.append((len(statement.cases),))
            if len(found) * len(ways) > MAX_PATHS:
                raise OutsideCounts((1, 1), f"it has more than {MAX_PATHS} paths")
            found = [one + other for one in found for other in ways]
    return found


@dataclasses.dataclass
class Test:
    """A test of messages, and how many messages of the inbox pass it."""

    at: object  # the condition that a message passes, as a function of the message
    count: object

    def __post_init__(self):
        self.key = self.at(MESSAGE)

    def equal_number(self):
        """The number v if the test is `message == v`; otherwise None."""
        found = EQUAL.fullmatch(str(self.key))
        number = found and (found[1] or found[2])
        return int(number) if number and number.isdigit() else number


class CountingNode(Terms):
    """A correct node in one pulse along a path. Its words, messages and counts are unknown numbers."""

    def __init__(self, formula, label, words, sizes):
        self.formula, self.label, self.sizes = formula, label, sizes
        self.before = state_of(formula, label, words)
        self.store, self.sent = {it: self.before[it] for it in words}, NONE
        self.coin = formula.number(f"{label}.coin", 0, 1)
        self.me = formula.number(f"{label}.me", 0, difference(sizes["n"], 1))
        self.heard, self.tests, self.places, self.extrema = {}, [], [], []

    def after(self):
        return {it: self.store[it] for it in self.before if it != "sent"} | {"sent": self.sent}

    # ---- terms

    def given(self, term):
        known = {**self.sizes, "coin": self.coin, "me": self.me, "none": NONE}
        return known[term.name]

    def name(self, term):
        if term.kind == "node":
            raise OutsideCounts(term.place, f"{term.text} is used otherwise than in mail[{term.text}]")
        return self.store[term.text]

    def mail(self, term):
        if isinstance(term.sender, Name) and term.sender.kind == "node":
            return self.heard[term.sender.text]
        place = self.value(term.sender)
        if MESSAGE in str(place):
            raise OutsideCounts(term.place, "the number of a node depends on a message")
        for other, message in self.places:
            if other == place:
                return message
        message = self.formula.number(f"{self.label}.mail")
        self.formula.add(implied(compared(">=", place, self.sizes["n"]), compared("==", message, NONE)))
        for other, heard in self.places:
            self.formula.add(implied(compared("==", place, other), compared("==", message, heard)))
        self.places.append((place, message))
        return message

    def count(self, term):
        if any(MESSAGE in str(it) for it in self.heard.values()):
            raise OutsideCounts(term.place, "a count in a count")
        return self.counted(self.tests_at(term.node, [term.test])).count

    def least(self, term):
        if any(MESSAGE in str(it) for it in self.heard.values()):
            raise OutsideCounts(term.place, "a least message in a count or in another one")
        return self.extreme(NONE, "<", term.node, [term.test])

    def ranked(self, term):
        """That of some message: at most as many as the place are less, and more than so many aren't greater."""
        if any(MESSAGE in str(it) for it in self.heard.values()):
            raise OutsideCounts(term.place, "a sorted number in a count or in another one")
        place, item = self.named(self.value(term.at)), self.at_message(term.node, lambda: self.value(term.item))
        found, is_place = self.formula.number(f"{self.label}.sorted"), compared("<", place, self.sizes["n"])
        less, up_to, equal = (
            self.counted(lambda message, sign=sign: compared(sign, item(message), found)).count for sign in ("<", "<=", "==")
        )
        self.formula.add(compared("==", total(less, equal), up_to))
        within = all_of(compared("<=", less, place), compared("<", place, up_to))
        self.formula.add(chosen_condition(is_place, within, compared("==", found, NONE)))
        return found

    def tests_at(self, node, tests):
        """The condition that tests hold now, as a function of the message of a node."""
        return self.at_message(node, lambda: all_of(*map(self.holds, tests)))

    def at_message(self, node, read):
        """What is read with the numbers of now, as a function of the message of a node."""
        then = dict(self.store), dict(self.heard)

        def at(message):
            kept = self.store, self.heard
            self.store, self.heard = then[0], {**then[1], node: message}
            found = read()
            self.store, self.heard = kept
            return found

        return at

    def counted(self, at):
        """The test, with the number of messages that pass it: one number for equal tests."""
        made = Test(at, None)
        for test in self.tests:
            if test.key == made.key:
                return test
        if are_known(made.key):
            made.count = self.sizes["n"] if made.key else 0
        else:
            made.count = self.formula.number(f"{self.label}.count", 0, self.sizes["n"])
            self.tests.append(made)
        return made

    def arithmetic(self, term, left, right):
        if term.sign in "+-" or are_known(left, right) or (term.sign in "/%" and are_known(right)):
            return wrapped(term.sign, left, right)
        if MESSAGE in str(left) + str(right):
            raise OutsideCounts(term.place, f"{term.sign} of a message and an unknown number")
        if term.sign == "*":
            return self.multiplied(term, left, right)
        if term.sign == "/":
            raise OutsideCounts(term.place, "a division by an unknown number")
        return self.remaining(self.named(left), self.named(right))

    def named(self, value):
        return self.formula.named(self.label, value)

    def multiplied(self, term, left, right):
        """A product with a constant: exact below 2^32, and any number otherwise."""
        if not are_known(left) and not are_known(right):
            raise OutsideCounts(term.place, "a product of unknown numbers")
        exact, result = product(self.named(left), self.named(right)), self.formula.number("product")
        self.formula.add(implied(compared("<", exact, LIMIT), compared("==", result, exact)))
        return result

    def remaining(self, left, right):
        """A remainder: exact below twice the divisor, and any number below the divisor otherwise."""
        result, twice = self.formula.number("remainder"), product(2, right)
        self.formula.add(
            chosen_condition(
                compared("<", left, right),
                compared("==", result, left),
                any_of(
                    compared("==", right, 0),
                    chosen_condition(
                        compared("<", left, twice),
                        compared("==", result, difference(left, right)),
                        compared("<", result, right),
                    ),
                ),
            )
        )
        return result

    # ---- statements

    def follow(self, path, body):
        """Does a block along a path. Returns the rest of the path."""
        for statement in body:
            if isinstance(statement, Cases):
                path = self.take(path, statement)
            else:
                self.do(statement)
        return path

    def take(self, path, statement):
        taken, *rest = path
        for number, (test, body) in enumerate(statement.cases):
            holds = self.holds(test)
            if number == taken:
                self.formula.add(holds)
                return self.follow(rest, body)
            self.formula.add(inverse(holds))
        return rest

    def do(self, statement):
        if isinstance(statement, Let):
            self.store[statement.name] = self.named(self.value(statement.term))
        elif isinstance(statement, Assignment):
            values = [self.named(self.value(it)) for it in statement.terms]
            self.store.update((it.text, value) for it, value in zip(statement.targets, values))
        elif isinstance(statement, Loop):
            self.extremum(extremum_of(statement))
        elif statement.receiver is not None:
            raise OutsideCounts(statement.place, "send .. to: claims speak of what a node sends to all")
        else:
            self.sent = self.named(self.value(statement.term))

    def extremum(self, loop):
        old = self.store[loop.target.text]
        self.store[loop.target.text] = self.extreme(old, loop.sign, loop.node, loop.tests)

    def extreme(self, old, sign, node, tests):
        """One of the messages that pass, or the old number. No message that passes is beyond it."""
        new, at = self.formula.number(f"{self.label}.best"), self.tests_at(node, tests)
        equal = self.counted(lambda message: compared("==", message, new))
        is_one = all_of(compared(sign, new, old), compared(">=", equal.count, 1), at(new))
        self.formula.add(any_of(compared("==", new, old), is_one))
        if any(map(has_count, tests)):
            self.extrema.append((new, sign, at))
        else:
            beyond = self.counted(lambda message: all_of(compared(sign, message, new), at(message)))
            self.formula.add(compared("==", beyond.count, 0))
        return new


def chosen_condition(test, one, other):
    return all_of(implied(test, one), any_of(test, other))


def state_of(formula, label, words):
    return {it: formula.number(f"{label}.{it}") for it in [*words, "sent"]}


# ---- the formula of a pair of paths


class Pair:
    """Two correct nodes p and q that take two paths, in a step. The formula says that the step fails for them."""

    def __init__(self, rule, claims, step, taken):
        self.rule, self.claims, self.step, self.formula = rule, claims, step, Formula()
        n = self.formula.number("n", 1, MAX_SIZE - 1)
        sizes = {"n": n, "f": self.formula.number("f", 0, difference(n, 1))}
        self.sizes = sizes | {"M": self.formula.number("M", 2, MAX_SIZE - 1)}
        self.names = self.sizes | {it: self.formula.number(it) for it in step.free}
        self.formula.add(admits(claims, step, self.names))
        self.nodes = [self.node(label, path) for label, path in zip("pq", taken)]
        for one, other in itertools.combinations_with_replacement(self.nodes, 2):
            self.formula.add(self.before(one.before, other.before))

    def node(self, label, path):
        node = CountingNode(self.formula, label, self.rule.words, self.sizes)
        if self.step.coin is not None:
            self.formula.add(compared("==", node.coin, ClaimTerms(self.names).value(self.step.coin)))
        node.follow(path, self.rule.body)
        return node

    def before(self, one, other):
        return are_in(self.claims, self.step.before, self.names, one, other)

    def sender(self):
        """A further correct node, and the condition that it is in the step's first set with all others."""
        state = state_of(self.formula, "w", self.rule.words)
        return state, all_of(self.before(state, state), *(self.before(state, it.before) for it in self.nodes))

    def add_laws(self):
        """Adds what ties the counts together."""
        self.compare_extrema()
        for node in self.nodes:
            self.more_than_faults(node)
            self.one_inbox(node)
        if len(self.nodes) == 2:
            self.two_inboxes(*self.nodes)
        if self.step.is_correct:
            self.correct_places()

    def fail(self):
        """Adds that p and q leave the step's second set."""
        after = [it.after() for it in self.nodes]
        kept = are_in(self.claims, self.step.after, self.names, after[0], after[-1])
        self.formula.add(inverse(kept))

    def signed(self, node):
        """Each test and its negation, with their counts."""
        for test in node.tests:
            yield test.at, test.count
            yield (lambda message, at=test.at: inverse(at(message))), difference(self.sizes["n"], test.count)

    def more_than_faults(self, node):
        """More than f messages that pass a test: that of a correct node passes."""
        for at, count in self.signed(node):
            state, is_sender = self.sender()
            enough = compared(">", count, self.sizes["f"])
            self.formula.add(implied(enough, all_of(at(state["sent"]), is_sender)))

    def one_inbox(self, node):
        """More than n messages that pass two tests in all: one message passes both."""
        for (one, first), (other, second) in itertools.combinations(self.signed(node), 2):
            message = self.formula.number("m")
            enough = compared(">", total(first, second), self.sizes["n"])
            self.formula.add(implied(enough, all_of(one(message), other(message))))

    def two_inboxes(self, p, q):
        """More than n + f messages that pass a test of p or of q in all: that of one correct node passes both."""
        for (one, first), (other, second) in itertools.product(self.signed(p), self.signed(q)):
            state, is_sender = self.sender()
            enough = compared(">", total(first, second), total(self.sizes["n"], self.sizes["f"]))
            self.formula.add(implied(enough, all_of(one(state["sent"]), other(state["sent"]), is_sender)))

    def compare_extrema(self):
        """For loops with a count in their test: a number that some test asks for, or that p or q sent, isn't beyond."""
        asked = {it.equal_number() for node in self.nodes for it in node.tests} - {None}
        asked |= {it.before["sent"] for it in self.nodes}
        for node in self.nodes:
            for new, sign, at in node.extrema:
                for number in sorted(asked - {new}, key=str):
                    equal = node.counted(lambda message, number=number: compared("==", message, number))
                    passes = all_of(compared(sign, number, new), compared(">=", equal.count, 1), at(number))
                    self.formula.add(inverse(passes))

    def correct_places(self):
        """Messages that are read by number are those of correct nodes: one message if the numbers are equal."""
        places = [it for node in self.nodes for it in node.places]
        for place, message in places:
            state, is_sender = self.sender()
            self.formula.add(compared("==", message, state["sent"]), is_sender)
            self.formula.add(compared("<", place, self.sizes["n"]))
        for (one, first), (other, second) in itertools.combinations(places, 2):
            self.formula.add(implied(compared("==", one, other), compared("==", first, second)))


def verdict(solver, rule, claims, step):
    """UNSAT if the step holds for all sizes. Raises OutsideCounts if the rule has a part that isn't covered."""
    taken = [it for it in paths(rule.body) if solver.verdict(Pair(rule, claims, step, [it]).formula) != UNSAT]
    for one, other in itertools.combinations_with_replacement(taken, 2):
        pair = Pair(rule, claims, step, [one, other])
        if solver.verdict(pair.formula) == UNSAT:
            continue
        pair.add_laws()
        pair.fail()
        told = solver.verdict(pair.formula)
        if told != UNSAT:
            return told
    return UNSAT
