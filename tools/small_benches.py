"""Refutes a step of claims on a small bench, exactly, and writes the run as a scenario; all_sizes.py uses it.

For one n, f and M z3 looks for memories and messages with which the step fails: the rule is executed on unknown
numbers, node by node. What z3 finds is tried by rule_meaning.py before it counts.
"""
import argparse
import dataclasses
import itertools

from claims_text import ClaimTerms, admits, are_in, is_in
from quorum_formula import OutsideCounts, extremum_of
from rule_meaning import State, action_of
from rule_text import NONE, Assignment, Cases, Given, Let, Loop, Mail, Name, Send, parts_of
from symbolic import (
    SAT, UNSAT, Formula, Terms, all_of, any_of, are_known, chosen, compared, implied, inverse, total, wrapped,
)
from worst_run import load

MODULI, MAX_MODULUS = 3, 256
BEFORE, PULSE = 1, 2


class RunningNode(Terms):
    """A node's pulse on a bench of known sizes, executed on unknown numbers. `guard` is when a statement is done."""

    def __init__(self, formula, state, given, inbox):
        self.formula, self.given_numbers, self.inbox = formula, given, inbox
        self.store, self.words = dict(state), [it for it in state if it != "sent"]
        self.sent, self.nodes, self.guard, self.places = NONE, {}, True, []

    def after(self):
        return {it: self.store[it] for it in self.words} | {"sent": self.sent}

    # ---- terms

    def given(self, term):
        return NONE if term.name == "none" else self.given_numbers[term.name]

    def name(self, term):
        return (self.nodes if term.kind == "node" else self.store)[term.text]

    def mail(self, term):
        place = self.value(term.sender)
        if not isinstance(term.sender, Name) or term.sender.kind != "node":
            self.places.append((self.guard, place))
        if are_known(place):
            return self.inbox[place] if place < len(self.inbox) else NONE
        heard = NONE
        for node, message in enumerate(self.inbox):
            heard = chosen(compared("==", place, node), message, heard)
        return heard

    def count(self, term):
        passed = []
        for node in range(len(self.inbox)):
            self.nodes[term.node] = node
            passed.append(chosen(self.holds(term.test), 1, 0))
        return total(*passed)

    def least(self, term):
        found = NONE
        for node, message in enumerate(self.inbox):
            self.nodes[term.node] = node
            is_less = all_of(self.holds(term.test), compared("<", message, found))
            found = self.named(chosen(is_less, message, found))
        return found

    def ranked(self, term):
        """The number of some node: no more than so many are less, and more than so many aren't greater."""
        place, items = self.value(term.at), []
        for node in range(len(self.inbox)):
            self.nodes[term.node] = node
            items.append(self.named(self.value(term.item)))
        if place >= len(items):
            return NONE
        if all(map(are_known, items)):
            return sorted(items)[place]
        found = self.formula.number("sorted")
        less, up_to = (total(*(chosen(compared(sign, it, found), 1, 0) for it in items)) for sign in ("<", "<="))
        self.formula.add(any_of(*(compared("==", it, found) for it in items)))
        self.formula.add(compared("<=", less, place), compared("<", place, up_to))
        return found

    def arithmetic(self, term, left, right):
        return wrapped(term.sign, left, right)

    # ---- statements

    def act(self, body, guard):
        for statement in body:
            self.guard = guard
            if isinstance(statement, Let):
                self.store[statement.name] = self.named(self.value(statement.term))
            elif isinstance(statement, Assignment):
                self.assign(statement)
            elif isinstance(statement, Send):
                self.send(statement)
            elif isinstance(statement, Cases):
                self.choose(statement, guard)
            else:
                for node in range(len(self.inbox)):
                    self.nodes[statement.node] = node
                    self.act(statement.body, guard)

    def named(self, value):
        return self.formula.named("value", value)

    def assign(self, statement):
        for target, value in zip(statement.targets, [self.value(it) for it in statement.terms]):
            self.store[target.text] = self.named(chosen(self.guard, value, self.store[target.text]))

    def send(self, statement):
        if statement.receiver is not None:
            raise OutsideCounts(statement.place, "send .. to: claims speak of what a node sends to all")
        self.sent = self.named(chosen(self.guard, self.value(statement.term), self.sent))

    def choose(self, statement, guard):
        for test, body in statement.cases:
            self.guard = guard
            holds = self.formula.named("holds", self.holds(test), "Bool")
            self.act(body, all_of(guard, holds))
            guard = all_of(guard, inverse(holds))


def is_symmetric(rule):
    """Whether nodes can change their numbers: the rule asks for messages in counts and extrema alone."""
    parts = list(parts_of(rule))
    if any(isinstance(it, Given) and it.name == "me" for it in parts):
        return False
    senders = [it.sender for it in parts if isinstance(it, Mail)]
    of_nodes = [it for it in parts if isinstance(it, Name) and it.kind == "node"]
    if len(senders) != len(of_nodes) or any(not isinstance(it, Name) or it.kind != "node" for it in senders):
        return False
    try:
        return all(extremum_of(it) for it in parts if isinstance(it, Loop))
    except OutsideCounts:
        return False


# ---- benches


class SmallBench:
    """A bench of these sizes whose correct nodes are in the step's first set; nodes p and q make one pulse."""

    def __init__(self, rule, claims, step, sizes, pair):
        self.rule, self.claims, self.step, self.sizes, self.pair = rule, claims, step, sizes, pair
        self.formula, self.nodes = Formula(), range(sizes["n"])
        self.names = sizes | {it: self.formula.number(it) for it in step.free}
        self.formula.add(admits(claims, step, self.names))
        self.states = [{it: self.formula.number(it) for it in [*rule.words, "sent"]} for _ in self.nodes]
        self.byzantine = [it not in pair and self.formula.condition("byzantine") for it in self.nodes]
        self.formula.add(compared("<=", self.faults(), sizes["f"]))
        if is_symmetric(rule):  # the last nodes are Byzantine
            self.formula.add(*(implied(*it) for it in itertools.pairwise(self.byzantine)))
        for one, other in itertools.combinations_with_replacement(self.nodes, 2):
            is_right = are_in(claims, step.before, self.names, self.states[one], self.states[other])
            self.formula.add(any_of(self.byzantine[one], self.byzantine[other], is_right))
        self.messages, self.coins = {}, {}
        self.running = {it: self.run(it) for it in sorted(set(pair))}

    def faults(self):
        return total(*(chosen(it, 1, 0) for it in self.byzantine))

    def run(self, node):
        """The pulse of a node. Byzantine nodes send it any numbers."""
        messages = [self.formula.number("message") for _ in self.nodes]
        inbox = [chosen(it, one, state["sent"]) for it, one, state in zip(self.byzantine, messages, self.states)]
        coin = self.formula.number("coin", 0, 1)
        if self.step.coin is not None:
            self.formula.add(compared("==", coin, ClaimTerms(self.names).value(self.step.coin)))
        running = RunningNode(self.formula, self.states[node], self.sizes | {"me": node, "coin": coin}, inbox)
        running.act(self.rule.body, True)
        for guard, place in running.places if self.step.is_correct else ():
            is_correct = any_of(*(all_of(compared("==", place, it), inverse(self.byzantine[it])) for it in self.nodes))
            self.formula.add(implied(guard, is_correct))
        self.messages[node], self.coins[node] = messages, coin
        return running

    def fail(self):
        """Adds that p and q leave the step's second set."""
        after = [it.after() for it in self.running.values()]
        kept = are_in(self.claims, self.step.after, self.names, after[0], after[-1])
        self.formula.add(inverse(kept))

    def least_names(self):
        """Conditions by which the free names are the least possible, each list in the order of preference."""
        return [self.least(self.names[it]) for it in self.step.free]

    def least_numbers(self):
        """Likewise for all: the fewest Byzantine nodes, and then the least numbers."""
        faults = self.faults()
        fewest = [compared("==", faults, it) for it in range(self.sizes["f"] + 1)]
        first = [[inverse(it)] for it in self.byzantine if it is not False]
        numbers = [*self.coins.values(), *(it for state in self.states for it in state.values())]
        numbers += [it for messages in self.messages.values() for it in messages]
        return [fewest, *first, *self.least_names(), *map(self.least, numbers)]

    def least(self, number):
        return [compared("==", number, it) for it in range(self.sizes["M"] + 2)]

    def case(self, solver):
        """The solution that the solver found last."""
        values = solver.values(self.formula.names)
        byzantine = [it for it in self.nodes if self.byzantine[it] and values[self.byzantine[it]]]
        states = {
            node: {word: values[number] for word, number in state.items()}
            for node, state in enumerate(self.states) if node not in byzantine
        }
        heard = {node: {it: values[sent[it]] for it in byzantine} for node, sent in self.messages.items()}
        coins = {node: values[it] for node, it in self.coins.items()}
        free = {it: values[self.names[it]] for it in self.step.free}
        return Case(self.sizes, free, states, heard, coins)


@dataclasses.dataclass
class Case:
    """A start of a pulse on a bench: states of the correct nodes, and what some of them hear from Byzantine nodes."""

    sizes: dict
    free: dict
    states: dict
    heard: dict
    coins: dict

    @property
    def names(self):
        return self.sizes | self.free

    def inbox(self, node):
        """What a node hears. Nodes of which nothing is said hear what the first of the others hears."""
        from_byzantine = self.heard.get(node, next(iter(self.heard.values())))
        return [self.states[it]["sent"] if it in self.states else from_byzantine[it] for it in range(self.sizes["n"])]

    def coin(self, node, step):
        return self.coins.get(node, 0 if step.coin is None else next(iter(self.coins.values())))

    def after(self, rule, step):
        """The states after the pulse, by rule_meaning.py."""
        return {node: self.pulse(rule, node, self.coin(node, step)) for node in self.states}

    def pulse(self, rule, node, coin):
        sizes = argparse.Namespace(
            nodes=self.sizes["n"], faults=self.sizes["f"], modulus=self.sizes["M"], id=node, coin=coin
        )
        mail = [None if it == NONE else it for it in self.inbox(node)]
        state = State(sizes, bytearray(image_of(self.states[node], rule.words)), mail, [None] * sizes.nodes)
        action_of(rule)(state)
        sent = NONE if state.sent[0] is None else state.sent[0]
        return {it: state.word(place) for place, it in enumerate(rule.words)} | {"sent": sent}


def image_of(state, words):
    """A node's memory: the words, and zeros up to a multiple of 8 bytes."""
    image = b"".join(state[it].to_bytes(4, "little") for it in words)
    return image + bytes(-len(image) % 8)


def pairs_outside(claims, use, names, states):
    """The first two of some states that aren't in a set, or None."""
    for one, other in itertools.product(states, repeat=2):
        if not is_in(claims, use, names, states[one], states[other]):
            return one, other
    return None


# ---- the search


def sizes_in_order(claims, most):
    """n, f and M that the claims admit: n up to `most`, and the first moduli for each n and f."""
    for n in range(1, most + 1):
        for f in range(n):
            sizes = ({"n": n, "f": f, "M": it} for it in range(2, MAX_MODULUS + 1))
            admitted = (it for it in sizes if all(ClaimTerms(it).holds(term) for term in claims.assumptions))
            yield from itertools.islice(admitted, MODULI)


def pairs_of(rule, n):
    """Nodes p and q: one and two of them, or all choices if the rule asks for numbers of nodes."""
    if is_symmetric(rule):
        return [(0, 1), (0, 0)] if n > 1 else [(0, 0)]
    return list(itertools.combinations_with_replacement(range(n), 2))


def refutation(solver, rule, claims, step, most):
    """The first case in which the step fails, and at how many sizes before z3 ran out of time; None without a case."""
    undecided = 0
    for sizes in sizes_in_order(claims, most):
        for pair in pairs_of(rule, sizes["n"]):
            bench = SmallBench(rule, claims, step, sizes, pair)
            bench.fail()
            verdict = solver.verdict(bench.formula)
            undecided += verdict not in (SAT, UNSAT)
            if verdict == SAT:
                case = least_case(solver, bench, bench.least_numbers())
                return tried(rule, claims, step, case), undecided
    return None, undecided


def least_case(solver, bench, preferred):
    """The bench's solution by preferences: of each list the first condition that is possible, if there is one."""
    case = bench.case(solver)
    for conditions in preferred:
        if any(map(solver.narrowed, conditions)):
            case = bench.case(solver)
    return case


def tried(rule, claims, step, case):
    """The case, if the step fails there by rule_meaning.py. Otherwise the formula is wrong."""
    begins = pairs_outside(claims, step.before, case.names, case.states) is None and admits(claims, step, case.names)
    if not begins or pairs_outside(claims, step.after, case.names, case.after(rule, step)) is None:
        raise RuntimeError(f"{step.text}: rule_meaning.py doesn't refute it by {case}")
    return case


def beginning(solver, rule, claims, step, most):
    """A case in which the step begins, with f Byzantine nodes, if possible above 0; None if there is no such case."""
    sizes = sorted(sizes_in_order(claims, most), key=lambda it: (it["f"] == 0, it["n"] == 1))
    for it in sizes:
        for pair in pairs_of(rule, it["n"]):
            bench = SmallBench(rule, claims, step, it, pair)
            bench.formula.add(compared("==", bench.faults(), it["f"]))
            if solver.verdict(bench.formula) == SAT:
                return least_case(solver, bench, bench.least_names())
    return None


# ---- scenarios


def said(message):
    return -1 if message == NONE else message


def shown(state):
    return ", ".join(f"{word} {'none' if number == NONE else number}" for word, number in state.items())


def scenario_of(text, rule, claims, step, case):
    """The case as a scenario: in pulse 1 all messages are sent, and the step is pulse 2."""
    lines = [*explained(rule, claims, step, case), "version = 4", f"nodes = {case.sizes['n']}"]
    lines += [f"faults = {case.sizes['f']}", f"modulus = {case.sizes['M']}"]
    memory = len(image_of(next(iter(case.states.values())), rule.words))
    lines += [f"memory = {memory}", f"pulses = {PULSE}", 'coins = "zeros"']
    rule_text = text.decode().strip("\n").replace("'''", "' ' '")
    return "\n".join(lines) + f"\nrule = '''\n{rule_text}\n'''\n" + "".join(entries_of(rule, step, case))


def explained(rule, claims, step, case):
    """The case in words, as comments: the step, its sizes, the states before it, and those that fail after it."""
    after = case.after(rule, step)
    p, q = pairs_outside(claims, step.after, case.names, after)
    kind = "property" if step.form else "step of claims"
    yield f"# Pulse {PULSE} refutes a {kind} for all sizes (tools/all_sizes.py): {step.text}"
    yield f"# {', '.join(f'{name} = {it}' for name, it in case.names.items())}"
    uses_coin = any(isinstance(it, Given) and it.name == "coin" for it in parts_of(rule))
    for node, state in case.states.items():
        coin = f", and the coin {case.coin(node, step)}" if uses_coin else ""
        yield f"# Before it node {node} has {shown(state)}{coin}."
    byzantine = [str(it) for it in range(case.sizes["n"]) if it not in case.states]
    if byzantine:
        yield f"# Byzantine: {', '.join(byzantine)}."
    for node in sorted({p, q}):
        yield f"# After it node {node} has {shown(after[node])}."
    whose = f"node {p}" if p == q else f"nodes {p} and {q}"
    if step.form:
        yield f"# So the term fails for {whose}."
    else:
        yield f"# So {whose} {'is' if p == q else 'are'}n't in {step.after.name}."


def entries_of(rule, step, case):
    """The loads, corruptions and coins that make the case."""
    nodes = range(case.sizes["n"])
    inboxes = {it: case.inbox(it) for it in case.states}
    for sender in nodes:
        own = case.states.get(sender, {}).get("sent", NONE)
        yield load(BEFORE, [sender], [said(inboxes[it][sender] if it in inboxes else own) for it in nodes])
    yield load(PULSE, case.states, ())
    for node, state in case.states.items():
        yield f"\n[[corrupt]]\npulse = {PULSE}\nnode = {node}\nimage = {list(image_of(state, rule.words))}\n"
    for node in case.states:
        if case.coin(node, step):
            yield f"\n[[coin]]\npulse = {PULSE}\nnode = {node}\nvalue = 1\n"
