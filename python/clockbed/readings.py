"""Reads a run: what `clockbed run` wrote, its report or the lines of `run --json`. The tools take it from here, too."""
from __future__ import annotations

import json
import re
from collections.abc import Sequence
from dataclasses import dataclass
from typing import Any, NamedTuple, Optional

HEAD = re.compile(r"(?:version [2-5] )?nodes (\d+) faults (\d+) modulus (\d+)(?: clock (rule|bed|own)( zero agrees)?)?")
PULSE = re.compile(
    r"pulse (\d+) clocks ((?:(?:\d+|-|!) )+)settled (\d+) steps (\d+) agree (yes|no|none)(?: counts (?:yes|no|none))?"
)
TAIL = re.compile(r"agreed (\d+) of (\d+)(?: counted \d+ of \d+)?")
VERDICTS = {"yes": True, "no": False, "none": None}

# The clock of a node that is past the modulus; what a node ran where a report tells only that it was no clock.
PAST, UNTOLD = -1, "untold"


class Pulse(NamedTuple):
    """A closed pulse. `ran` has for each node clock, other or untold, or none where it is empty; `inside` is the object
    of the JSON line, where there is one."""

    number: int
    clocks: list[Optional[int]]
    settled: list[bool]
    agrees: Optional[bool]
    ran: list[Optional[str]]
    inside: Optional[dict[str, Any]]


@dataclass(frozen=True)
class Run:
    """A run of `count` pulses, of which `pulses` has those that were told; `lines` are its JSON lines, if there are."""

    nodes: int
    faults: int
    modulus: int
    is_strict: bool
    count: int
    pulses: list[Pulse]
    agreed: int
    judged: int
    in_step_since: Optional[int]
    lines: Optional[list[str]]


class NoReport(Exception):
    """The text isn't a run's; says why."""


def matched(rule: re.Pattern[str], line: str, what: str) -> tuple[Any, ...]:
    found = rule.fullmatch(line)
    if not found:
        raise NoReport(f"no {what}: {line[:200]}")
    return found.groups()


def went_on(before: Pulse, after: Pulse, modulus: int) -> bool:
    """Whether each node that ran the clock in both pulses went on by one."""
    both = [(old, new) for old, new in zip(before.clocks, after.clocks) if old is not None and new is not None]
    return all(new == (old + 1) % modulus for old, new in both)


def have_one(pulse: Pulse) -> bool:
    """Whether some node ran the clock, and all that did have one, below the modulus."""
    clocks = {it for it in pulse.clocks if it is not None}
    return len(clocks) == 1 and PAST not in clocks


def in_step_since(pulses: Sequence[Pulse], modulus: int) -> Optional[int]:
    """The least pulse from which to the last all nodes that ran the clock have one, and each goes on by one. The last
    pulse alone shows no going on."""
    since = None
    for at in range(len(pulses) - 1, -1, -1):
        is_last = since is None
        if not have_one(pulses[at]) or not (is_last or went_on(pulses[at], pulses[at + 1], modulus)):
            break
        since = pulses[at].number
    return since if since is not None and since < pulses[-1].number else None


def contradicts(run: Run, pulse: Pulse) -> list[bool]:
    """The nodes whose clocks make the pulse's verdict a no."""
    if pulse.agrees is not False:
        return [False] * run.nodes
    if not run.is_strict:
        return [is_settled and clock != 0 for clock, is_settled in zip(pulse.clocks, pulse.settled)]
    told = {clock for clock, is_settled in zip(pulse.clocks, pulse.settled) if is_settled}
    return [is_settled and (len(told) > 1 or clock == PAST) for clock, is_settled in zip(pulse.clocks, pulse.settled)]


def clock_of(word: str) -> Optional[int]:
    return None if word == "-" else PAST if word == "!" else int(word)


def read_pulse(line: str, number: int, nodes: int, before: Sequence[Optional[int]]) -> Pulse:
    given, clocks, settled, _, agree = matched(PULSE, line, "line of a pulse")
    clocks = [clock_of(word) for word in clocks.split()]
    if int(given) != number or len(clocks) != nodes:
        raise NoReport(f"pulse {number} of {nodes} nodes is wanted: {line}")
    both = [now is not None and last is not None for now, last in zip(clocks, before)]
    if sum(both) != int(settled):
        raise NoReport(f"{sum(both)} nodes are settled by their clocks: {line}")
    ran: list[Optional[str]] = [UNTOLD if it is None else "clock" for it in clocks]
    return Pulse(number, clocks, both, VERDICTS[agree], ran, None)


def read_report(text: str) -> Run:
    lines = text.splitlines()
    if len(lines) < 3:
        raise NoReport(f"too few lines: {text.strip()[:200]}")
    *numbers, clock, zero = matched(HEAD, lines[0], "first line")
    nodes, faults, modulus = map(int, numbers)
    pulses: list[Pulse] = []
    before: list[Optional[int]] = [None] * nodes
    for number, line in enumerate(lines[1:-1], 1):
        pulses.append(read_pulse(line, number, nodes, before))
        before = pulses[-1].clocks
    agreed, judged = map(int, matched(TAIL, lines[-1], "last line"))
    verdicts = [it.agrees for it in pulses if it.agrees is not None]
    if (agreed, judged) != (sum(verdicts), len(verdicts)):
        raise NoReport(f"the pulses don't add up: {lines[-1]}")
    since = in_step_since(pulses, modulus)
    is_strict = clock == "own" and not zero
    return Run(nodes, faults, modulus, is_strict, len(pulses), pulses, agreed, judged, since, None)


def read_inside(told: dict[str, Any], nodes: int, modulus: int) -> Pulse:
    """A pulse from the object of its line."""
    lists = [told[it] for it in ("coins", "ran", "clocks", "settled", "steps", "memory", "sent")]
    if any(len(it) != nodes for it in lists):
        raise NoReport(f"pulse {told['pulse']} of {nodes} nodes is wanted")
    clocks = [PAST if it is not None and it >= modulus else it for it in told["clocks"]]
    return Pulse(told["pulse"], clocks, told["settled"], told["agree"], told["ran"], told)


def read_lines(text: str) -> Run:
    lines = text.splitlines()
    try:
        frame, *pulses, last = map(json.loads, lines)
        nodes, modulus = frame["nodes"], frame["modulus"]
        pulses = [read_inside(it, nodes, modulus) for it in pulses]
        agreed, judged, since = last["agreed"], last["of"], last["in_step_since"]
    except (ValueError, KeyError, TypeError) as why:
        raise NoReport(f"no lines of run --json: {why}") from why
    if not pulses or [it.number for it in pulses] != list(range(pulses[0].number, pulses[0].number + len(pulses))):
        raise NoReport("the pulses don't follow one another")
    if len(pulses) == frame["pulses"] and since != in_step_since(pulses, modulus):
        raise NoReport(f"the pulses are in step since {in_step_since(pulses, modulus)}: {lines[-1]}")
    is_strict = frame.get("clock") == "own" and not frame.get("zero_agrees", False)
    return Run(nodes, frame["faults"], modulus, is_strict, frame["pulses"], pulses, agreed, judged, since, lines)


def read_run(text: str) -> Run:
    """A run from its report or from its JSON lines."""
    return read_lines(text) if text.startswith("{") else read_report(text)
