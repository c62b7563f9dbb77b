"""Draws clocks for small benches, each as a rule and as a step written apart from it; tools/check_explore.py uses it.

A drawn node has a phase. In each pulse it takes a number, such as the first node's clock, and asks one question, its
*event*. A table gives by phase and event the next phase, and by how much the clock advances. Half of the benches have a
Byzantine node which the event is about: whether it guessed the node's coin, or used up a power. Other events don't tell
the four answers on stabilisation apart as often.
"""
import dataclasses
import itertools
import random

PHASES = 3
ADVANCES = (0, 1, 1, 1, 2)

# What a node goes on from, as a term.
NUMBERS = {
    "first": "mail[0] if mail[0] < M else 0",
    "own": "clock if clock < M else 0",
    "common": "mail[0] if mail[0] < M and (count j: mail[j] == mail[0]) >= n - f else 0",
    "least": "(least j: mail[j] < M) % M",
}

# The events, as terms. The first two are about the last node.
GUESS, POWER = "guess", "power"
EVENTS = {
    GUESS: "mail[n - 1] == coin",
    POWER: "mail[n - 1] == M",
    "coin": "coin == 1",
    "all": "(count j: mail[j] == mail[0]) == n",
    "behind": "mail[1] < v",
}
OTHERS = tuple(it for it in EVENTS if it not in (GUESS, POWER))


def is_below(number, modulus):
    return number is not None and number < modulus


@dataclasses.dataclass(frozen=True)
class DrawnClock:
    number: str
    event: str
    # By phase and event: the next phase, and by how much the clock advances.
    table: tuple

    def text(self):
        """Returns the clock as a rule."""
        lines = ["state phase", f"let v = {NUMBERS[self.number]}", "let hit = 0", f"if {EVENTS[self.event]}: hit = 1"]
        test = "if"
        for (phase, hit), (after, step) in self.table:
            lines.append(f"{test} phase == {phase} and hit == {hit}: clock, phase = (v + {step}) % M, {after}")
            test = "elif"
        return "\n".join([*lines, "send clock", ""])

    def number_of(self, bed, clock, mail):
        modulus, first = bed.modulus, mail[0]
        if self.number == "first":
            return first if is_below(first, modulus) else 0
        if self.number == "own":
            return clock if clock < modulus else 0
        if self.number == "common":
            said = sum(it == first for it in mail)
            return first if is_below(first, modulus) and said >= bed.nodes - bed.faults else 0
        # No message is 2^32 - 1.
        return min((it for it in mail if is_below(it, modulus)), default=2**32 - 1) % modulus

    def is_hit(self, bed, number, mail, coin):
        if self.event == GUESS:
            return mail[-1] == coin
        if self.event == POWER:
            return mail[-1] == bed.modulus
        if self.event == "coin":
            return coin == 1
        if self.event == "all":
            return len(set(mail)) == 1
        return is_below(mail[1], number)

    def step(self, bed, clock, phase, mail, coin):
        """Returns the clock and the phase after a pulse. No message is None."""
        number = self.number_of(bed, clock, mail)
        found = dict(self.table).get((phase, int(self.is_hit(bed, number, mail, coin))))
        if found is None:
            return clock, phase
        after, advance = found
        return (number + advance) % bed.modulus, after


def drawn_table(draws, goes_back, ends, missed):
    """Draws the table. Without the event the clock advances by one of `missed`. If no phase comes back, a power is used
    up; if it ends, the last phase counts for ever."""
    table = {}
    for phase, hit in itertools.product(range(PHASES), (0, 1)):
        after, advance = draws.randrange(0 if goes_back else phase, PHASES), draws.choice(ADVANCES if hit else missed)
        table[phase, hit] = (phase, 1) if ends and phase == PHASES - 1 else (after, advance)
    return tuple(table.items())


def drawn_clock(seed):
    """Draws a clock. With even seeds its event is about the last node, and mostly it counts without the event."""
    draws = random.Random(f"clock {seed}")
    if seed % 2:
        event, number = draws.choice(OTHERS), draws.choice(tuple(NUMBERS))
        return DrawnClock(number, event, drawn_table(draws, draws.random() < 0.4, draws.random() < 0.7, ADVANCES))
    event, number = draws.choice((GUESS, GUESS, POWER)), draws.choice(("first", "first", "common", "least"))
    missed = draws.choice(((1,), (1,), ADVANCES))
    return DrawnClock(number, event, drawn_table(draws, draws.random() < 0.3, draws.random() < 0.9, missed))


def drawn_sizes(seed):
    """Draws correct and Byzantine nodes, the modulus, and what the clock and the phase may be at the start, if not 0."""
    draws = random.Random(f"sizes {seed}")
    byzantine = 1 if seed % 2 == 0 else draws.choice((0, 0, 1))
    correct = draws.choice((2, 2, 3)) if byzantine else 3
    modulus = draws.choice((2, 3))
    starts = ()
    if draws.random() < 0.4:
        clocks, phases = range(modulus), draws.choice(((0,), (0, 1), (0, 1, 2)))
        starts = (tuple(clocks), (0,), (0,), (0,), phases)
    return correct, byzantine, modulus, starts
