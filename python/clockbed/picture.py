"""Draws a run as an SVG. docs/GALLERY.md says how to read it.

Pulses go along and nodes go down. Up to 40 pulses a cell has the colour of the node's clock. From 41 pulses on, or with
`is_phase`, it has the colour of the clock less the number of the pulse, modulo M: what counts on by one keeps its
colour, and is one rectangle.
"""
from __future__ import annotations

import math
from collections.abc import Collection, Sequence
from dataclasses import dataclass, replace
from typing import Any, NamedTuple, Optional

from clockbed.readings import PAST, UNTOLD, Pulse, Run, contradicts

Phases = Optional[dict[int, str]]
Names = Sequence[Sequence[str]]

MAX_CELLS_ALONE = 40
# With more shapes and marks than this all cells of one colour are drawn as one, and nothing has a title.
MAX_TITLES = 6000
LEAST_FRAME, LEAST_NUMBER, WIDEST = 8, 18, 1200
TOP, BAR, LINE, NAMES = 54, 6, 16, 54
PALE, INK, RED, BLANK, GREY = "#fbf3d9", "#222222", "#c8102e", "#ffffff", "#666666"
HATCH = "url(#h)"
# Chosen so that each differs from those before it also to readers who don't see red, green or blue as others do.
COLOURS = (
    "#56b4e9 #e69f00 #e15a78 #7878ff #b4f087 #ff1eb4 #a5a55a #ffe100 #ffa5c3 #5ae196 #ffd2ff #d2e15a"
    " #9696ff #0096b4 #e1872d #69a596 #c3c35a #e178d2 #78c396 #a5875a #d2a5d2 #d2693c #ffc32d #ff96ff"
).split()
HATCHING = (
    '<defs><pattern id="h" width="6" height="6" patternUnits="userSpaceOnUse" patternTransform="rotate(45)">'
    '<rect width="6" height="6" fill="#f1f1f1"/><rect width="2" height="6" fill="#a8a8a8"/></pattern></defs>'
)
MARKS = {
    "load": ("M{x} {y}h7l-3.5 6z", INK, "a load"),
    "unload": ("M{x} {y}h7l-3.5 6z", BLANK, "an unload"),
    "corrupt": ("M{x} {y}m3.5 -.5l3.5 3.5l-3.5 3.5l-3.5 -3.5z", "#ffe100", "a corruption"),
}


class Look(NamedTuple):
    fill: str
    is_settled: bool
    is_wrong: bool


@dataclass(frozen=True)
class Shape:
    """The cells of a node that are one rectangle: `count` of them from the place `at` on."""

    node: int
    at: int
    count: int
    look: Look


class Sheet(NamedTuple):
    """Where things stand: the corner of the cells, and the size of one."""

    left: float
    wide: float
    high: float

    def x(self, at: int) -> float:
        return self.left + at * self.wide

    def y(self, node: int) -> float:
        return TOP + node * self.high


def escaped(text: object) -> str:
    return str(text).replace("&", "&amp;").replace("<", "&lt;")


def rectangle(
    x: float, y: float, width: float, height: float, fill: str, more: str = "", title: str = ""
) -> str:
    front = f'<rect x="{x:g}" y="{y:g}" width="{width:g}" height="{height:g}" fill="{fill}"{more}'
    return f"{front}><title>{escaped(title)}</title></rect>" if title else f"{front}/>"


def label(x: float, y: float, text: object, size: int, anchor: str = "middle", fill: str = "") -> str:
    side = "" if anchor == "middle" else f' text-anchor="{anchor}"'
    colour = f' fill="{fill}"' if fill else ""
    return f'<text x="{x:g}" y="{y:g}" font-size="{size}"{side}{colour}>{escaped(text)}</text>'


def staged(pulse: Pulse) -> list[dict[str, Any]]:
    """What was done before a pulse, where that is told."""
    return (pulse.inside or {}).get("staged", [])


# What each node runs.


def name_after(name: str, ran: Optional[str]) -> str:
    """What a node runs, by the name of its last load and by what it ran in the pulse."""
    if ran is None:
        return "empty"
    if ran == "clock":
        return "clock"
    if ran == UNTOLD:
        return "no clock"
    return name if name not in ("empty", "clock", "") else "other"


def names(run: Run) -> list[list[str]]:
    """For each node what it ran in each pulse."""
    loaded = [""] * run.nodes
    told: list[list[str]] = [[] for _ in range(run.nodes)]
    for pulse in run.pulses:
        for done in staged(pulse):
            if "load" in done:
                loaded[done["load"]] = done["program"]
        for node, ran in enumerate(pulse.ran):
            told[node].append(name_after(loaded[node], ran))
    return told


def in_turn(told: Sequence[str]) -> str:
    """The programs of a node one after the other, the first three."""
    turns = [name for at, name in enumerate(told) if at == 0 or told[at - 1] != name]
    return ", ".join(turns[:3]) + (", .." if len(turns) > 3 else "")


# Colours.


def is_resting(run: Run, at: int, node: int) -> bool:
    """Whether a node is at 0 and didn't come there by counting."""
    before = run.pulses[at - 1].clocks[node] if at else None
    return run.pulses[at].clocks[node] == 0 and before != run.modulus - 1


def phase(run: Run, pulse: Pulse, clock: int) -> int:
    return (clock - pulse.number) % run.modulus


def phase_colours(run: Run) -> dict[int, str]:
    """A colour for each phase; the first is that of the phase with the most cells, and so on."""
    count: dict[int, int] = {}
    for at, pulse in enumerate(run.pulses):
        for node, clock in enumerate(pulse.clocks):
            if clock is not None and clock != PAST and not is_resting(run, at, node):
                it = phase(run, pulse, clock)
                count[it] = count.get(it, 0) + 1
    by_count = sorted(count, key=lambda it: (-count[it], it))
    return {it: COLOURS[place % len(COLOURS)] for place, it in enumerate(by_count)}


def fill(run: Run, at: int, node: int, phases: Phases) -> str:
    """The colour of a cell; `phases` has the colours of phases, where these are drawn."""
    pulse = run.pulses[at]
    clock = pulse.clocks[node]
    if clock is None:
        return BLANK if pulse.ran[node] is None else HATCH
    if clock == PAST:
        return INK
    if phases is None:
        return PALE if clock == 0 else COLOURS[(clock - 1) % len(COLOURS)]
    return PALE if is_resting(run, at, node) else phases[phase(run, pulse, clock)]


# Cells.


def shapes(run: Run, phases: Phases) -> list[Shape]:
    """The rectangles of all cells: one for each cell, or for all that follow one another and look alike."""
    wrong = [contradicts(run, pulse) for pulse in run.pulses]
    found: list[Shape] = []
    for node in range(run.nodes):
        for at, pulse in enumerate(run.pulses):
            look = Look(fill(run, at, node, phases), pulse.settled[node], wrong[at][node])
            if phases is not None and at and found[-1].look == look:
                found[-1] = replace(found[-1], count=found[-1].count + 1)
            else:
                found.append(Shape(node, at, 1, look))
    return found


def title(run: Run, shape: Shape, told: Names) -> str:
    pulse = run.pulses[shape.at]
    clock, name = pulse.clocks[shape.node], told[shape.node][shape.at]
    words = [f"node {shape.node}, pulse {pulse.number}"]
    if shape.count > 1:
        words[0] = f"node {shape.node}, pulses {pulse.number} to {pulse.number + shape.count - 1}"
    if clock is None:
        words.append(name)
    elif shape.look.fill == INK:
        words.append("a clock past the modulus")
    else:
        moves = shape.count > 1 and shape.look.fill != PALE
        words.append(f"clock {clock} and on by one" if moves else f"clock {clock}")
    if shape.look.is_settled:
        words.append("settled")
    if shape.look.is_wrong:
        words.append("violates agreement")
    if pulse.inside and shape.count == 1 and name != "empty":
        words.append(f"coin {pulse.inside['coins'][shape.node]}, {pulse.inside['steps'][shape.node]} steps")
    return ": ".join([words[0], ", ".join(words[1:])])


def frame(look: Look, wide: float, high: float) -> str:
    """The edge of a rectangle of this size."""
    if min(wide, high) < LEAST_FRAME:
        return ""
    if look.is_wrong:
        return f' stroke="{RED}" stroke-width="3"'
    return f' stroke="{INK}"' if look.is_settled else ""


def draw_shape(run: Run, sheet: Sheet, shape: Shape, told: Names) -> list[str]:
    gap = 2 if sheet.wide >= LEAST_FRAME else 0
    x, y = sheet.x(shape.at) + gap / 2, sheet.y(shape.node) + 1
    wide, high = shape.count * sheet.wide - gap, sheet.high - 2
    look = shape.look
    edge = frame(look, wide, high)
    inset = 0 if not edge else 1.5 if look.is_wrong else 0.5
    place = (x + inset, y + inset, wide - 2 * inset, high - 2 * inset)
    parts = [rectangle(*place, look.fill, edge, title(run, shape, told))]
    if look.is_wrong and not edge:
        parts.append(rectangle(x, y + high - 3, wide, 3, RED))
    return parts


def draw_alike(sheet: Sheet, found: Sequence[Shape]) -> list[str]:
    """All shapes of one colour as one path."""
    paths: dict[str, list[str]] = {}
    for shape in found:
        piece = f"M{sheet.x(shape.at):g} {sheet.y(shape.node) + 1:g}h{shape.count * sheet.wide:g}v{sheet.high - 2:g}"
        paths.setdefault(shape.look.fill, []).append(f"{piece}h-{shape.count * sheet.wide:g}z")
    return [f'<path fill="{fill}" d="{"".join(pieces)}"/>' for fill, pieces in paths.items() if fill != BLANK]


def draw_numbers(run: Run, sheet: Sheet) -> list[str]:
    size = 12 if sheet.high >= 20 else 8
    parts = []
    for at, pulse in enumerate(run.pulses):
        for node, clock in enumerate(pulse.clocks):
            text = "!" if clock == PAST else clock
            if clock is not None and sheet.wide >= 8 + len(str(text)) * size * 0.6:
                x, y = sheet.x(at) + sheet.wide / 2, sheet.y(node) + sheet.high / 2 + size * 0.35
                parts.append(label(x, y, text, size, fill=BLANK if clock == PAST else ""))
    return parts


# What was done.


def draw_mark(kind: str, x: float, y: float, text: str) -> str:
    path, colour, _ = MARKS[kind]
    shape = f'<path d="{path.format(x=f"{x:g}", y=f"{y:g}")}" fill="{colour}" stroke="{INK}" stroke-width=".8"'
    return f"{shape}><title>{escaped(text)}</title></path>" if text else f"{shape}/>"


def done_in_words(number: int, kind: str, done: dict[str, Any]) -> str:
    node = done[kind]
    if kind == "load":
        return f"before pulse {number}: node {node} is loaded with {done['program']}"
    if kind == "unload":
        return f"before pulse {number}: node {node} is unloaded"
    return f"before pulse {number}: the memory of node {node} is corrupted"


def kind_of(done: dict[str, Any]) -> str:
    return next(it for it in MARKS if it in done)


def draw_marks(run: Run, sheet: Sheet, has_titles: bool) -> list[str]:
    parts = []
    for at, pulse in enumerate(run.pulses):
        count: dict[int, int] = {}
        for done in staged(pulse):
            kind = kind_of(done)
            node = done[kind]
            x = sheet.x(at) + 8 * count.get(node, 0) + (1 if sheet.wide >= LEAST_FRAME else -3)
            count[node] = count.get(node, 0) + 1
            words = done_in_words(pulse.number, kind, done) if has_titles else ""
            parts.append(draw_mark(kind, x, sheet.y(node) + 1, words))
    return parts


# What stands around the cells.


def steps_of_axis(wide: float) -> int:
    """After how many pulses the next number fits."""
    return next(it for it in (1, 2, 5, 10, 20, 50, 100, 200, 500) if it * wide >= (LEAST_NUMBER if it == 1 else 36))


def draw_axis(run: Run, sheet: Sheet) -> list[str]:
    parts, step = [], steps_of_axis(sheet.wide)
    for at, pulse in enumerate(run.pulses):
        if pulse.number == 1 or pulse.number % step == 0:
            parts.append(label(sheet.x(at) + sheet.wide / 2, TOP - 6, pulse.number, 10))
    return parts


def draw_bars(run: Run, sheet: Sheet) -> list[str]:
    """A bar under the pulses whose clocks don't agree."""
    parts, at, y = [], 0, sheet.y(run.nodes) + 1
    while at < len(run.pulses):
        begin = at
        while at < len(run.pulses) and run.pulses[at].agrees is False:
            at += 1
        if at > begin:
            first, last = run.pulses[begin].number, run.pulses[at - 1].number
            words = f"pulse {first}: no agreement" if first == last else f"pulses {first} to {last}: no agreement"
            wide = (at - begin) * sheet.wide - min(1, sheet.wide / 4)
            parts.append(rectangle(sheet.x(begin), y, wide, BAR, RED, "", words))
        at += 1
    return parts


def draw_names(run: Run, sheet: Sheet, told: Names) -> list[str]:
    parts = []
    for node in range(run.nodes):
        y = sheet.y(node) + sheet.high / 2 + 3.5
        parts.append(label(8, y, f"node {node}", 10, "start"))
        parts.append(label(NAMES, y, in_turn(told[node]), 10, "start", GREY))
    return parts


def caption(run: Run) -> str:
    nodes = f"{run.nodes} node{'s' * (run.nodes > 1)}"
    allowed = f"{run.faults or 'no'} fault{'s' * (run.faults != 1)} allowed"
    step = f"synchronised from pulse {run.in_step_since} on" if run.in_step_since else "not synchronised at the end"
    first, last = run.pulses[0].number, run.pulses[-1].number
    span = "" if (first, last) == (1, run.count) else f"; here pulses {first} to {last} of {run.count}"
    return f"{nodes}, {allowed}, clocks below {run.modulus}; {run.agreed} of {run.judged} pulses agree; {step}{span}"


def rows_of_key(run: Run, looks: Collection[Look], phases: Phases) -> list[tuple[str, str, str]]:
    """What the picture shows that needs a word: a sample, as its fill and its edge, and the word."""
    fills = {it.fill for it in looks}
    other = "another program" if run.pulses[0].inside else "no clock"
    rows = [
        (PALE, "", "0, not by counting", PALE in fills and phases is not None),
        (HATCH, "", other, HATCH in fills),
        (BLANK, f' stroke="{GREY}" stroke-dasharray="2 2"', "empty", BLANK in fills),
        (INK, "", "past the modulus", INK in fills),
        (BLANK, f' stroke="{INK}"', "settled", any(it.is_settled and not it.is_wrong for it in looks)),
        (BLANK, f' stroke="{RED}" stroke-width="3"', "violates agreement", any(it.is_wrong for it in looks)),
    ]
    return [row[:3] for row in rows if row[3]]


def draw_key(run: Run, looks: Collection[Look], phases: Phases, y: float) -> tuple[list[str], float]:
    """The key, and the greatest x in it."""
    x, parts = 8.0, []
    kinds = {kind_of(done) for pulse in run.pulses for done in staged(pulse)}
    samples = [(rectangle(1, -9, 11, 10, fill, edge), word) for fill, edge, word in rows_of_key(run, looks, phases)]
    samples += [(draw_mark(kind, 2, -8, ""), MARKS[kind][2]) for kind in MARKS if kind in kinds]
    for sample, word in samples:
        parts.append(f'<g transform="translate({x:g} {y:g})">{sample}{label(17, 0, word, 10, "start")}</g>')
        x += 17 + len(word) * 5.6 + 16
    if phases is not None:
        words = f"Colour: the clock less the pulse's number, modulo {run.modulus}. It stays while the clock counts on."
        parts.append(label(8, y + LINE, words, 10, "start"))
        x = max(x, 8 + len(words) * 5.6)
    return parts, x


def draw_cells(run: Run, sheet: Sheet, found: Sequence[Shape], told: Names) -> list[str]:
    marks = sum(len(staged(pulse)) for pulse in run.pulses)
    has_titles = len(found) + marks <= MAX_TITLES
    cells = [part for shape in found for part in draw_shape(run, sheet, shape, told)] if has_titles else []
    return [
        *(cells or draw_alike(sheet, found)),
        *(draw_numbers(run, sheet) if sheet.wide >= LEAST_NUMBER else []),
        *draw_marks(run, sheet, has_titles),
    ]


def sheet_for(run: Run, told: Names) -> Sheet:
    count = len(run.pulses)
    wide = 30 if count <= MAX_CELLS_ALONE else max(1, WIDEST // count)
    longest = max(len(in_turn(it)) for it in told)
    return Sheet(math.ceil(NAMES + longest * 5.4 + 8), wide, 26 if run.nodes <= 16 else 13)


def draw(run: Run, is_phase: bool) -> str:
    phases = phase_colours(run) if is_phase or len(run.pulses) > MAX_CELLS_ALONE else None
    told = names(run)
    sheet = sheet_for(run, told)
    found = shapes(run, phases)
    foot = sheet.y(run.nodes) + BAR + LINE + 6
    key, key_width = draw_key(run, {it.look for it in found}, phases, foot)
    width = math.ceil(max(sheet.x(len(run.pulses)) + 12, key_width, 16 + len(caption(run)) * 6.7))
    height = foot + (LINE if phases is not None else 0) + 12
    parts = [
        f'<svg xmlns="http://www.w3.org/2000/svg" width="{width}" height="{height:g}" viewBox="0 0 {width} {height:g}"'
        f' font-family="sans-serif" text-anchor="middle" fill="{INK}" role="img">',
        f"<title>{caption(run)}</title>",
        HATCHING,
        rectangle(0, 0, width, height, BLANK),
        label(8, 20, caption(run), 13, "start"),
        label(sheet.left - 6, TOP - 6, "pulse", 10, "end"),
        *draw_axis(run, sheet),
        *draw_names(run, sheet, told),
        *draw_cells(run, sheet, found, told),
        *draw_bars(run, sheet),
        *key,
    ]
    return "\n".join([*parts, "</svg>", ""])
