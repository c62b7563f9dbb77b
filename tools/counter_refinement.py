"""A counter by counterexamples: a formula that has only the transitions that were shown to it; tools/find.py uses it.

The solver finds tables, and `explore` answers for their rule. If stabilisation can be prevented, the counterexample is
run, and its transitions join the formula: every one is among those of the whole formula (tools/counter_formula.py). So
if the smaller formula has no solution, the whole one has none.
"""
import itertools
import json

from counter_formula import Formula, Ranks, add_entries, add_reached, heard_by

STATE = slice(8, 16)


class Refinement:
    """The formula with the transitions that were shown so far, for each set of Byzantine nodes."""

    def __init__(self, counter, rounds):
        self.counter, self.formula = counter, Formula()
        self.entries = add_entries(self.formula, counter)
        self.ranks = {it: Ranks(self.formula, counter, it, rounds) for it in counter.byzantine}
        self.reached, self.shown = {}, set()
        for ranks in self.ranks.values():
            for one in ranks.configurations:
                ranks.add_bounds(one)
                if len({counter.shows[it] for it in one}) > 1:
                    ranks.add_shown(one, {})

    def add(self, byzantine, one, other):
        """Adds a transition that was shown, unless it is there."""
        if (byzantine, one, other) in self.shown:
            return
        self.shown.add((byzantine, one, other))
        ranks = self.ranks[byzantine]
        if (byzantine, one) not in self.reached:
            reached = add_reached(self.formula, self.counter, self.entries, ranks, one)
            self.reached[byzantine, one] = reached
            ranks.add_shown(one, reached)
        ranks.add_transition(one, other, self.reached[byzantine, one])

    def add_equal(self, byzantine, tables):
        """Adds the transitions that these tables have from configurations that show one count."""
        correct = self.ranks[byzantine].correct
        for one in self.ranks[byzantine].configurations:
            if len({self.counter.shows[it] for it in one}) == 1:
                for other in itertools.product(*taken(self.counter, tables, byzantine, correct, one)):
                    self.add(byzantine, one, other)

    def refine(self, byzantine, tables, scenario, told):
        """Adds what `explore` shows: the transitions of its counterexample, of which `told` is the run. Without one,
        those between counts that are equal. Says whether one of them is new."""
        known = len(self.shown)
        if scenario:
            for pair in transitions(self.ranks[byzantine].correct, told):
                self.add(byzantine, *pair)
        else:
            self.add_equal(byzantine, tables)
        return len(self.shown) > known


def taken(counter, tables, byzantine, correct, configuration):
    """For each correct node the states that these tables may give it."""
    found = [set() for _ in correct]
    for heard in heard_by(counter, correct, configuration, byzantine):
        for states, node in zip(found, correct):
            table, view = counter.cell(node, heard)
            states.add(tables[table][place_of(view, counter.states)])
    return found


def place_of(view, states):
    place = 0
    for state in view:
        place = states * place + state
    return place


def transitions(correct, told):
    """The pairs of configurations in a row, in a run as `run --json` prints it."""
    pulses = [json.loads(it) for it in told.splitlines()[1:-1]]
    ran = [it for it in pulses if all(it["ran"][node] == "clock" for node in correct)]
    held = [tuple(state_in(it["memory"][node]) for node in correct) for it in ran]
    return zip(held, held[1:])


def state_in(memory):
    """The state of a node, the second word of its memory."""
    return int.from_bytes(bytes.fromhex(memory[STATE]), "little")
