"""The search for a counter as a formula: what tools/find.py gives to a solver, and what it reads out of the answer.

In each round a node takes the new state that its table has for the states that it hears, its own first and then round
the ring. With one table the counter is cyclic: all nodes have it. With K tables node i has table i % K. A
configuration is the states of the correct nodes. The formula has a variable for each entry of a table, and for each
configuration and each k one that says: from there the nodes count for good within k rounds. It asks for exactly
FAULTS Byzantine nodes, since a Byzantine node may do what a correct one does.
"""
import dataclasses
import itertools


@dataclasses.dataclass(frozen=True)
class Counter:
    """What is searched: sizes, how many tables the nodes have, and which count each state shows."""

    nodes: int
    faults: int
    states: int
    modulus: int
    tables: int
    shows: tuple

    @property
    def views(self):
        """All states that a node may hear, in the order of their numbers in base STATES."""
        return itertools.product(range(self.states), repeat=self.nodes)

    @property
    def configurations(self):
        """How many configurations there are. A counter that stabilises at all does it within that many rounds."""
        return self.states ** (self.nodes - self.faults)

    def cell(self, node, heard):
        """The table and the view of a node, for what it hears from node 0, 1, and so on."""
        return node % self.tables, (*heard[node:], *heard[:node])

    @property
    def byzantine(self):
        """The sets of Byzantine nodes, one of those that a turn of the ring makes equal if it keeps the tables."""
        turns = range(0, self.nodes, self.tables)
        sets = itertools.combinations(range(self.nodes), self.faults)
        return sorted({min(tuple(sorted((it + by) % self.nodes for it in one)) for by in turns) for one in sets})


def evenly(states, modulus):
    """Which count each state shows unless it is named: in turn, or further states for the last if they are few."""
    if states >= 2 * modulus:
        return tuple(it % modulus for it in range(states))
    return tuple(min(it, modulus - 1) for it in range(states))


class Formula:
    """Clauses over numbered variables."""

    def __init__(self):
        self.variables, self.clauses = 0, []

    def variable(self):
        self.variables += 1
        return self.variables

    def add(self, *literals):
        self.clauses.append(literals)

    def write(self, path):
        with open(path, "w", encoding="ascii") as it:
            it.write(f"p cnf {self.variables} {len(self.clauses)}\n")
            it.writelines(" ".join(map(str, clause)) + " 0\n" for clause in self.clauses)


def add_entries(formula, counter):
    """A variable for each table, view and new state, of which each view has exactly one."""
    entries = {}
    for table, view in itertools.product(range(counter.tables), counter.views):
        here = [formula.variable() for _ in range(counter.states)]
        entries.update(((table, view, state), it) for state, it in enumerate(here))
        formula.add(*here)
        for one, other in itertools.combinations(here, 2):
            formula.add(-one, -other)
    return entries


def heard_by(counter, correct, configuration, byzantine):
    """What a node may hear of a configuration, whatever the Byzantine nodes send to it."""
    heard = [0] * counter.nodes
    for node, state in zip(correct, configuration):
        heard[node] = state
    for sent in itertools.product(range(counter.states), repeat=len(byzantine)):
        for node, state in zip(byzantine, sent):
            heard[node] = state
        yield heard


def add_reached(formula, counter, entries, ranks, configuration):
    """A variable for each correct node and state: the node may take this state after the configuration."""
    reached = {(node, state): formula.variable() for node in ranks.correct for state in range(counter.states)}
    for heard in heard_by(counter, ranks.correct, configuration, ranks.byzantine):
        for (node, state), variable in reached.items():
            formula.add(-entries[(*counter.cell(node, heard), state)], variable)
    return reached


class Ranks:
    """For one set of Byzantine nodes: the variables that say within how many rounds each configuration counts."""

    def __init__(self, formula, counter, byzantine, rounds):
        self.formula, self.counter, self.byzantine, self.rounds = formula, counter, byzantine, rounds
        self.correct = [it for it in range(counter.nodes) if it not in byzantine]
        self.configurations = list(itertools.product(range(counter.states), repeat=len(self.correct)))
        self.counts = {(k, it): formula.variable() for it in self.configurations for k in range(rounds + 1)}

    def add_bounds(self, one):
        """Clauses: the configuration counts within the rounds; and if within k, then within k + 1."""
        self.formula.add(self.counts[self.rounds, one])
        for k in range(self.rounds):
            self.formula.add(-self.counts[k, one], self.counts[k + 1, one])

    def add_shown(self, one, reached):
        """Clauses: if the configuration counts, all nodes show one count, and take states that show the next one."""
        shown = {self.counter.shows[it] for it in one}
        if len(shown) > 1:
            self.formula.add(-self.counts[0, one])
            return
        following = (shown.pop() + 1) % self.counter.modulus
        for (_, state), variable in reached.items():
            if self.counter.shows[state] != following:
                self.formula.add(-self.counts[0, one], -variable)

    def add_transition(self, one, other, reached):
        """Clauses: if the nodes may take the states of the other configuration, it counts a round sooner."""
        transition = [-reached[it] for it in zip(self.correct, other)]
        self.formula.add(*transition, -self.counts[0, one], self.counts[0, other])
        for k in range(self.rounds):
            self.formula.add(*transition, -self.counts[k + 1, one], self.counts[k, other])


def add_transitions(formula, counter, entries, byzantine, rounds):
    """Clauses for one set of Byzantine nodes: each transition leads to a configuration that counts a round sooner."""
    ranks = Ranks(formula, counter, byzantine, rounds)
    for one in ranks.configurations:
        ranks.add_bounds(one)
        reached = add_reached(formula, counter, entries, ranks, one)
        ranks.add_shown(one, reached)
        for other in ranks.configurations:
            ranks.add_transition(one, other, reached)


def encoded(counter, rounds):
    """The formula that has a solution if and only if some counter stabilises within the rounds; and its entries."""
    formula = Formula()
    entries = add_entries(formula, counter)
    for byzantine in counter.byzantine:
        add_transitions(formula, counter, entries, byzantine, rounds)
    return formula, entries


def tables_of(counter, entries, true):
    """The tables of a solution: a list of new states for each, in the order of the views."""
    found = [[] for _ in range(counter.tables)]
    for (table, _, state), variable in entries.items():
        if variable in true:
            found[table].append(state)
    return found
