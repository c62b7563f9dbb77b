"""What the package raises."""
from __future__ import annotations

import re
from typing import TYPE_CHECKING

if TYPE_CHECKING:
    from clockbed.answers import Explored

REFUSED = re.compile(r"refused (?P<part>\w+)(?: (?P<kind>[A-Za-z]\w*|\d+(?= slot)))?")
# The first that is found counts: a line of the rule or of the program comes before one of the whole scenario.
PLACES = [
    re.compile(r"refused .*\bline (?P<line>\d+)(?: column (?P<column>\d+))?"),
    re.compile(r"line (?P<line>\d+) of the (?:text|rule)(?:: .*?\bcolumn (?P<column>\d+))?"),
    re.compile(r"line (?P<line>\d+)(?:, column (?P<column>\d+))?"),
]


class ClockbedError(Exception):
    """Is the base of all errors of this package."""


class ProgramMissing(ClockbedError):
    """Says that the program clockbed wasn't found, and where it was looked for."""


class Fault(ClockbedError):
    """Is a fault of the program: of its words, of reading, writing, memory or a thread (docs/COMMANDS.md, "Faults")."""


class Rejected(ClockbedError):
    """Is a rejection of a scenario, a rule or a program.

    `part` is what was rejected, and `kind` the reason in one word. `line` and `column` count from 1 in the rule, in the
    program or in the scenario, and are None if the program names none. `note` says what would be right.

    >>> from clockbed import Bench
    >>> try: Bench(rule="clock = mail[0").run()
    ... except Rejected as why: print(why.kind, why.line, why.column)
    BadRule 1 15
    """

    def __init__(self, answer: str, note: str) -> None:
        super().__init__(f"{answer}\nnote: {note}" if note else answer)
        self.answer, self.note = answer, note
        found = REFUSED.match(answer)
        self.part = found["part"] if found else ""
        self.kind = (found["kind"] or self.part) if found else ""
        place = next(filter(None, (it.search(f"{answer}\n{note}") for it in PLACES)), None)
        self.line = int(place["line"]) if place else None
        self.column = int(place["column"]) if place and place["column"] else None


class NotFinished(ClockbedError):
    """Says that a limit ended an exploration. `answer` has what is known, and which limit it was.

    >>> from clockbed import Bench
    >>> try: Bench().explore(depth=3)
    ... except NotFinished as why: print(why, why.answer.states)
    not finished: 16 states; limit: depth 16
    """

    def __init__(self, answer: Explored) -> None:
        limit = answer.limit.value if answer.limit else "stabilisation or odds not decided"
        super().__init__(f"not finished: {answer.states} states; limit: {limit}")
        self.answer = answer
