"""The program's answers as frozen objects.

Their members are those of docs/lines.schema.json and docs/EXPLORE_REFERENCE.md ("JSON").
"""
from __future__ import annotations

import csv
import enum
import io
import json
import math
import re
import statistics
from collections.abc import Iterable
from dataclasses import dataclass, field
from typing import Any

from clockbed import frames, picture, readings
from clockbed.decode import decoded

UNBOUNDED = math.inf


class Word(str, enum.Enum):
    """Is a word of the program. It equals its text: `Stabilisation.CERTAIN == "certain"`."""

    def __str__(self) -> str:
        return str(self.value)


class ClockKind(Word):
    """Says which clock a scenario has from version 3 on: the built-in one (`rule`, `bed`), or its own."""

    RULE = "rule"
    BED = "bed"
    OWN = "own"


class ProgramKind(Word):
    CLOCK = "clock"
    SAY = "say"
    ECHO = "echo"
    ASM = "asm"
    RULE = "rule"
    NOISE = "noise"


class Ran(Word):
    CLOCK = "clock"
    OTHER = "other"


class Ask(Word):
    AGREEMENT = "agreement"
    STABILISATION = "stabilisation"
    BOTH = "both"


class By(Word):
    """Says what gave the answer: a search, one up to renaming of nodes, or the theorem for all n > 3f."""

    SEARCH = "search"
    RENAMING = "renaming"
    THEOREM = "theorem"


class Agreement(Word):
    """Is the answer on agreement; NONE if there are fewer than two correct nodes."""

    HOLDS = "holds"
    NONE = "none"
    VIOLATED = "violated"


class Stabilisation(Word):
    """Is the answer on stabilisation (docs/EXPLORE.md, "Stabilisation")."""

    CERTAIN = "certain"
    POSSIBLE = "possible"
    UNBOUNDED = "unbounded"
    PREVENTABLE = "preventable"
    UNDECIDED = "undecided"


class Limit(Word):
    """Says what ended a search."""

    STATES = "states"
    TRANSITIONS = "transitions"
    DEPTH = "depth"
    MEMORY = "memory"
    INBOXES = "inboxes"
    COUNTEREXAMPLE = "counterexample"


@dataclass(frozen=True)
class Frame:
    """Is the first line of a run: the scenario's numbers. `format` is its version."""

    format: int
    nodes: int
    faults: int
    modulus: int
    memory: int
    pulses: int
    clock: ClockKind | None = None
    zero_agrees: bool | None = None


@dataclass(frozen=True)
class Staged:
    """Is a change before a pulse: one of `load` (with the kind of its `program`), `unload` and `corrupt` is a node."""

    load: int | None = None
    program: ProgramKind | None = None
    unload: int | None = None
    corrupt: int | None = None


@dataclass(frozen=True)
class Pulse:
    """Is a closed pulse. Tuples have an item for each node; docs/OUTPUT.md ("JSON lines") defines the members."""

    pulse: int
    staged: tuple[Staged, ...]
    coins: tuple[int, ...]
    ran: tuple[Ran | None, ...]
    clocks: tuple[int | None, ...]
    settled: tuple[bool, ...]
    steps: tuple[int, ...]
    memory: tuple[str, ...]
    sent: tuple[tuple[int | None, ...], ...]
    agree: bool | None
    counts: bool | None = None


@dataclass(frozen=True)
class Summary:
    """Is the last line of a run: how many pulses agree, of how many, and since which pulse it is synchronised."""

    agreed: int
    of: int
    in_step_since: int | None


@dataclass(frozen=True)
class Run:
    """Is a run, pulse by pulse. In a notebook it is its picture.

    >>> from clockbed import Bench
    >>> run = Bench().run(pulses=4, coins="ones")
    >>> run.clocks
    ((0, 0, 0, None), (1, 1, 1, None), (2, 2, 2, None), (3, 3, 3, None))
    >>> run.summary
    Summary(agreed=3, of=3, in_step_since=1)
    """

    setup: Frame
    pulses: tuple[Pulse, ...]
    summary: Summary
    text: str = field(repr=False, compare=False)

    @classmethod
    def read(cls, text: str) -> Run:
        """Reads what `clockbed run --json` wrote."""
        first, *pulses, last = map(json.loads, text.splitlines())
        return cls(decoded(Frame, first), tuple(decoded(Pulse, it) for it in pulses), decoded(Summary, last), text)

    @property
    def clocks(self) -> tuple[tuple[int | None, ...], ...]:
        """Returns the clocks of all nodes, pulse by pulse."""
        return tuple(it.clocks for it in self.pulses)

    @property
    def violations(self) -> tuple[int, ...]:
        """Returns the pulses that violate agreement."""
        return tuple(it.pulse for it in self.pulses if it.agree is False)

    def row(self) -> dict[str, object]:
        """Returns the summary as a row of a table."""
        return dict(vars(self.summary))

    def frame(self) -> Any:
        """Returns a pandas data frame with a row for each pulse and node."""
        lists = ("ran", "coins", "clocks", "settled", "steps", "memory")
        rows = [
            {"pulse": it.pulse, "node": node} | {name: getattr(it, name)[node] for name in lists} | {"agree": it.agree}
            for it in self.pulses
            for node in range(self.setup.nodes)
        ]
        return frames.data_frame(rows)

    def svg(self) -> str:
        """Returns the picture of the run (docs/GALLERY.md)."""
        return picture.draw(readings.read_lines(self.text), is_phase=False)

    def _repr_html_(self) -> str:
        return self.svg()


@dataclass(frozen=True)
class SweepRow:
    """Is the line of a seed (docs/OUTPUT.md, "CSV of sweep")."""

    key: int
    agreed: int
    of: int
    first_disagreement: int | None
    in_step_since: int | None
    steps: int


@dataclass(frozen=True)
class Sweep:
    """Is a sweep: a row for each seed.

    >>> from clockbed import Bench
    >>> sweep = Bench(4, 1, 8).sweep(range(1, 101))
    >>> sweep.since[:5], sweep.median
    ((1, 1, 1, 1, 1), 10)
    """

    rows: tuple[SweepRow, ...]

    @classmethod
    def read(cls, text: str) -> Sweep:
        """Reads what `clockbed sweep` wrote."""
        lines = csv.DictReader(io.StringIO(text))
        rows = [{name: int(it) if it else None for name, it in row.items()} for row in lines]
        return cls(tuple(decoded(SweepRow, it) for it in rows))

    @property
    def since(self) -> tuple[int, ...]:
        """Returns the pulses from which the runs that stabilised are synchronised, lowest first."""
        return tuple(sorted(it.in_step_since for it in self.rows if it.in_step_since is not None))

    @property
    def median(self) -> int | None:
        """Returns the pulse by which half of all runs are synchronised, or None if it is past the last pulse."""
        pulses = [UNBOUNDED if it.in_step_since is None else it.in_step_since for it in self.rows]
        middle = statistics.median_low(pulses)
        return None if middle == UNBOUNDED else int(middle)

    def row(self) -> dict[str, object]:
        """Returns the counts as a row of a table."""
        return {"seeds": len(self.rows), "synchronised": len(self.since), "median": self.median}

    def frame(self) -> Any:
        """Returns a pandas data frame with a row for each seed."""
        return frames.data_frame([dict(vars(it)) for it in self.rows])

    def _repr_html_(self) -> str:
        return frames.html([self.row()])


@dataclass(frozen=True)
class Mean:
    """Is a bound on the expected number of pulses: `parts` of which a pulse has `of`.

    Some adversary makes it at least `least_parts`; None if that isn't known.
    """

    parts: int
    of: int
    least_parts: int | None = None

    @property
    def pulses(self) -> float:
        return self.parts / self.of

    @property
    def at_least(self) -> float | None:
        """Returns the pulses that some adversary makes it at least, rounded down to a hundredth, or None."""
        return None if self.least_parts is None else 100 * self.least_parts // self.of / 100

    @property
    def at_most(self) -> float:
        """Returns the pulses rounded up to a hundredth, as the program prints them."""
        return -(-100 * self.parts // self.of) / 100


@dataclass(frozen=True)
class Reach:
    """Is the least number of pulses with the odds `parts` of `of`, or None if there is none."""

    parts: int
    of: int
    pulses: int | None


@dataclass(frozen=True)
class Odds:
    """Is a bound on the odds of stabilisation: `parts` of `of` for 0, 1, 2 and more pulses, or None if undecided.

    Some adversary keeps them at most `most_parts`; None if that isn't known.
    """

    of: int
    parts: tuple[int, ...] | None
    mean: Mean | None
    reach: Reach | None
    most_parts: tuple[int, ...] | None = None

    def within(self, pulses: int) -> float:
        """Returns the least probability that the clocks stabilise within so many pulses."""
        if self.parts is None or not 0 <= pulses < len(self.parts):
            raise ValueError(f"no odds of {pulses} pulses are known; ask explore for odds={pulses}")
        return self.parts[pulses] / self.of

    def percent(self, pulses: int) -> float:
        """Returns the same in percent, rounded down to a tenth, as the program prints it."""
        return int(1000 * self.within(pulses)) / 10


@dataclass(frozen=True)
class Bytes:
    """Is what the bytes `first` to `last` of each memory may hold at the start: ranges of values."""

    first: int
    last: int
    values: tuple[tuple[int, int], ...]


@dataclass(frozen=True)
class Start:
    """Is where runs of `start="any"` may begin."""

    bytes: tuple[Bytes, ...] | None = None
    images: tuple[str, ...] | None = None
    messages: tuple[tuple[int, int], ...] | None = None


@dataclass(frozen=True)
class Explored:
    """Is an answer of `explore`: docs/EXPLORE_REFERENCE.md ("JSON") defines the members.

    `start` is None for zeroed memories, "every", or a `Start`. `scenario` is the text of a counterexample.

    >>> from clockbed import Bench
    >>> answer = Bench(4, 1, 8).explore(odds=64)
    >>> answer.stabilisation == "possible", answer.pulses
    (True, 8)
    >>> answer.odds.percent(64), answer.odds.mean.at_most
    (53.9, 87.0)
    """

    agreement: Agreement | None
    agreement_after: int | None
    ask: Ask
    by: By
    byzantine: tuple[int, ...]
    byzantine_loaded: tuple[int, ...]
    correct: tuple[int, ...]
    faults: int
    limit: Limit | None
    messages: tuple[tuple[int, int], ...]
    odds: Odds | None
    pulses: int | None
    runs_clock: bool
    scenario: str | None
    stabilisation: Stabilisation | None
    start: Start | str | None
    states: int
    transitions: int | None
    violated_in: int | None

    @classmethod
    def read(cls, text: str) -> Explored:
        """Reads what `clockbed explore --json` wrote. Members that a later version adds are left out."""
        return decoded(cls, json.loads(text))

    @property
    def mean(self) -> float | None:
        """Returns the bound on the expected number of pulses, or None if there is none or no odds were asked."""
        return self.odds.mean.pulses if self.odds and self.odds.mean else None

    def row(self) -> dict[str, object]:
        """Returns the verdicts as a row of a table."""
        names = ("agreement", "violated_in", "stabilisation", "pulses", "by", "states")
        mean = {"mean": self.odds.mean.at_most} if self.odds and self.odds.mean else {}
        return {name: getattr(self, name) for name in names} | mean

    def _repr_html_(self) -> str:
        return frames.html([self.row()])


@dataclass(frozen=True)
class Verified:
    """Is an accepted program: its slots, and the most instructions that a run takes."""

    slots: int
    announced: int

    @classmethod
    def read(cls, text: str) -> Verified:
        """Reads the last line of `clockbed verify`."""
        found = re.search(r"^accepted slots (\d+) announced (\d+)$", text, re.M)
        if not found:
            raise ValueError(f"no verdict of verify: {text[:200]}")
        return cls(int(found[1]), int(found[2]))


@dataclass(frozen=True)
class Claim:
    """Is a property of a file, with its verdict in each pulse and its answer. A verdict is None if the property speaks of
    no node.
    """

    line: int
    text: str
    answer: str
    verdicts: tuple[bool | None, ...]

    @property
    def holds(self) -> bool | None:
        """Whether the run keeps the property; None if no pulse was judged."""
        return None if self.answer == "no pulse was judged" else self.answer.startswith("holds")


@dataclass(frozen=True)
class Claims:
    """Is what a run says of properties (docs/PROPERTIES.md).

    >>> from clockbed import Bench
    >>> claims = Bench().claims("always p.clock == q.clock\\neventually always p.mark == 1", coins="ones")
    >>> [(it.holds, it.answer) for it in claims.each]
    [(True, 'holds in 19 pulses'), (True, 'holds from pulse 2 on')]
    """

    each: tuple[Claim, ...]

    @property
    def hold(self) -> bool:
        """Whether no property is violated."""
        return all(it.holds is not False for it in self.each)

    @classmethod
    def read(cls, text: str) -> Claims:
        """Reads what `clockbed run --claims` wrote."""
        rows = [found[1].split() for found in re.finditer(r"^pulse \d+ claims (.*)$", text, re.M)]
        answers = list(re.finditer(r"^line (\d+): (.*)\n  (.*)$", text, re.M))
        verdicts = zip(*rows) if rows else [()] * len(answers)
        words = {"yes": True, "no": False, "none": None}
        return cls(
            tuple(
                Claim(int(found[1]), found[2], found[3], tuple(words[it] for it in column))
                for found, column in zip(answers, verdicts)
            )
        )

    def row(self) -> dict[str, object]:
        """Returns a row of a table: each property with its answer."""
        return {it.text: it.answer for it in self.each}


@dataclass(frozen=True)
class ClaimedRow:
    """Is the line of a seed: a number for each property, or None if its cell is empty."""

    key: int
    cells: tuple[int | None, ...]


@dataclass(frozen=True)
class ClaimedSweep:
    """Is a sweep with properties: a row for each seed (docs/PROPERTIES.md, "Sweeps").

    >>> from clockbed import Bench
    >>> sweep = Bench(4, 1, 8).noise().sweep_claims("always p.clock == q.clock", range(1, 5), pulses=30)
    >>> sweep.columns, [it.cells for it in sweep.rows]
    (('violated_1',), [(7,), (8,), (6,), (3,)])
    """

    columns: tuple[str, ...]
    rows: tuple[ClaimedRow, ...]

    @classmethod
    def read(cls, text: str) -> ClaimedSweep:
        """Reads what `clockbed sweep --claims` wrote."""
        (_key, *columns), *lines = csv.reader(io.StringIO(text))
        rows = [ClaimedRow(int(key), tuple(int(it) if it else None for it in cells)) for key, *cells in lines]
        return cls(tuple(columns), tuple(rows))

    def frame(self) -> Any:
        """Returns a pandas data frame with a row for each seed."""
        return frames.data_frame([{"key": it.key, **dict(zip(self.columns, it.cells))} for it in self.rows])


@dataclass(frozen=True)
class Step:
    """Is a step of a node's run. `rule_line` is the line of the rule that made the instruction, if there is one."""

    number: int
    slot: int
    instruction: str
    read: str
    wrote: str
    rule_line: int | None


LINE = re.compile(r"line (\d+) ")


@dataclass(frozen=True)
class Trace:
    """Is a node's run in one pulse (docs/COMMANDS.md, "What run --trace prints").

    >>> from clockbed import Bench
    >>> trace = Bench().trace(3, 0, coins="ones")
    >>> trace.mail, trace.memory, trace.sent, len(trace.steps)
    ((1, 1, 1, None), '01000000010000000000000000000000', (2, 2, 2, 2), 40)
    >>> trace.steps[0].instruction, trace.steps[0].wrote
    ('mov64 r6, r1', 'r6 = memory+0')
    """

    pulse: int
    node: int
    memory: str
    mail: tuple[int | None, ...]
    coin: int
    steps: tuple[Step, ...]
    memory_after: str
    sent: tuple[int | None, ...]

    @classmethod
    def read(cls, text: str) -> Trace:
        """Reads what `clockbed run --trace` wrote."""
        first, memory, mail, coin, *middle, _, memory_after, sent = text.rstrip("\n").split("\n")
        _, pulse, _, node = first.split()
        return cls(
            int(pulse),
            int(node),
            memory.removeprefix("memory "),
            messages_of(mail.removeprefix("mail ")),
            int(coin.removeprefix("coin ")),
            tuple(steps_of(middle)),
            memory_after.removeprefix("memory "),
            messages_of(sent.removeprefix("sent ")),
        )

    def frame(self) -> Any:
        """Returns a pandas data frame with a row for each step."""
        return frames.data_frame([dict(vars(it)) for it in self.steps])


def messages_of(text: str) -> tuple[int | None, ...]:
    return tuple(None if it == "-" else int(it) for it in text.split(","))


def steps_of(lines: Iterable[str]) -> Iterable[Step]:
    rule_line = None
    for line in lines:
        if not line.startswith("step "):
            found = LINE.match(line)
            rule_line = int(found[1]) if found else None
            continue
        step, _, told = line.partition(" # ")
        read, _, wrote = told.rpartition("-> ") if "-> " in told else (told, "", "")
        _, number, _, slot, instruction = step.split(" ", 4)
        yield Step(int(number), int(slot), instruction, read.strip(), wrote, rule_line)
