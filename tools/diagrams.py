#!/usr/bin/env python3
"""Draws the diagrams of docs/ as SVG: tools/diagrams.py [--check]

It writes docs/pictures/*.svg. With --check it writes nothing. It then fails if a file there isn't what it would write,
is missing, or isn't one of its own. Clocks, verdicts and messages are those of the reports of examples/two_faced,
examples/splitter and examples/splitter_of_three, and those that docs/EXPLORE.md shows; the bytes of instructions are
those of docs/ASSEMBLER.md, the crates those of crates.txt, and the steps of the gate those of .ci/run.
"""
import itertools
import re
import sys
import textwrap
from typing import NamedTuple
from xml.sax.saxutils import escape

sys.dont_write_bytecode = True
import layers
from built_program import TOP

FOLDER = TOP / "docs" / "pictures"
INK, GREY, PALE, WHITE, RED = "#222222", "#777777", "#f1f1f1", "#ffffff", "#c8102e"
BLUE, ORANGE, GREEN = "#1f6fb4", "#b86e00", "#2f7d4f"
LIGHT = {BLUE: "#d9eafa", ORANGE: "#fdecc8", GREEN: "#d8f0e0", RED: "#f8d7dc", GREY: PALE, INK: WHITE}
ARROWED = (INK, GREY, RED, BLUE, ORANGE, GREEN)
HEAD = 'viewBox="0 0 8 8" refX="8" refY="4" markerWidth="7" markerHeight="7" orient="auto"'
WIDTH, LINE_HIGH = 760, 17
DASH = "5 4"
# a box with rounder corners lets what is under it shine through
ROUND = 20


class Style(NamedTuple):
    """How a line, a box or a text looks."""

    colour: str = INK
    dash: str = ""
    size: int = 13
    anchor: str = "middle"
    weight: str = "normal"


PLAIN = Style()
SMALL = Style(size=12)
LEFT = Style(anchor="start")
TITLE = Style(size=14, weight="bold")


class Canvas:
    """The parts of an SVG, in the order in which they are drawn."""

    def __init__(self, high, title, wide=WIDTH):
        self.high, self.title, self.wide, self.parts = high, title, wide, []

    def add(self, part):
        self.parts.append(part)

    def text(self, at, words, style=PLAIN):
        self.add(
            f'<text x="{at[0]}" y="{at[1]}" fill="{style.colour}" font-size="{style.size}" text-anchor="{style.anchor}"'
            f' font-weight="{style.weight}">{escape(words)}</text>'
        )

    def lines(self, at, rows, style=PLAIN):
        for number, words in enumerate(rows):
            self.text((at[0], at[1] + LINE_HIGH * number), words, style)

    def path(self, data, style=PLAIN, has_arrow=True):
        dash = f' stroke-dasharray="{style.dash}"' if style.dash else ""
        arrow = f' marker-end="url(#a{ARROWED.index(style.colour)})"' if has_arrow else ""
        self.add(f'<path d="{data}" fill="none" stroke="{style.colour}" stroke-width="1.5"{dash}{arrow}/>')

    def arrow(self, begin, end, style=PLAIN):
        self.path(f"M{begin[0]} {begin[1]}L{end[0]} {end[1]}", style)

    def line(self, begin, end, style=PLAIN):
        self.path(f"M{begin[0]} {begin[1]}L{end[0]} {end[1]}", style, has_arrow=False)

    def box(self, corner, size, style=PLAIN, radius=4):
        look = ' fill-opacity="0.7"' if radius > ROUND else ""
        dash = f' stroke-dasharray="{style.dash}"' if style.dash else ""
        self.add(
            f'<rect x="{corner[0]}" y="{corner[1]}" width="{size[0]}" height="{size[1]}" rx="{radius}"'
            f' fill="{LIGHT[style.colour]}"{look} stroke="{style.colour}" stroke-width="1.5"{dash}/>'
        )

    def named_box(self, corner, size, words, style=PLAIN):
        self.box(corner, size, style)
        self.text((corner[0] + size[0] / 2, corner[1] + size[1] / 2 + 4), words, style)

    def circle(self, at, words, style=PLAIN, radius=20):
        self.add(
            f'<circle cx="{at[0]}" cy="{at[1]}" r="{radius}" fill="{LIGHT[style.colour]}" stroke="{style.colour}"'
            ' stroke-width="1.5"/>'
        )
        self.text((at[0], at[1] + 5), words, style)

    def svg(self):
        heads = "".join(
            f'<marker id="a{number}" {HEAD}><path d="M0 0L8 4L0 8z" fill="{colour}"/></marker>'
            for number, colour in enumerate(ARROWED)
        )
        size = f'width="{self.wide}" height="{self.high}" viewBox="0 0 {self.wide} {self.high}"'
        head = f'<svg xmlns="http://www.w3.org/2000/svg" {size} font-family="sans-serif">'
        ground = f'<rect width="{self.wide}" height="{self.high}" fill="{WHITE}"/>'
        title = f"<title>{escape(self.title)}</title>"
        return "\n".join([head, title, f"<defs>{heads}</defs>", ground, *self.parts, "</svg>\n"])


def clocks_of(example):
    """The clocks of each pulse of an example's report, as they are written."""
    report = (TOP / "examples" / f"{example}.report").read_text(encoding="utf-8")
    return {int(pulse): told.split() for pulse, told in re.findall(r"^pulse (\d+) clocks (.*) settled", report, re.M)}


def violations_of(example):
    """The pulses of an example's report in which agreement is violated."""
    report = (TOP / "examples" / f"{example}.report").read_text(encoding="utf-8")
    return {int(pulse) for pulse in re.findall(r"^pulse (\d+) .* agree no\b", report, re.M)}


# ---- one attack on two benches

CELL, CELL_HIGH, CELLS_LEFT = 26, 24, 118


def cell_look(row, clock, is_violated):
    """White for a clock of 0, red if agreement is violated, green if all correct clocks are equal, otherwise blue."""
    if clock == "0":
        return SMALL
    if is_violated:
        return Style(RED, size=12, weight="bold")
    return Style(GREEN if len({it for it in row if it != "-"}) == 1 else BLUE, size=12)


def draw_cells(canvas, top, example):
    rows, violated = clocks_of(example), violations_of(example)
    for pulse, row in rows.items():
        x = CELLS_LEFT + CELL * (pulse - 1)
        canvas.text((x + CELL / 2, top), str(pulse), Style(GREY, size=12))
        for node, clock in enumerate(row):
            if clock != "-":
                corner = (x + 1, top + 8 + (CELL_HIGH + 3) * node)
                canvas.named_box(corner, (CELL - 2, CELL_HIGH), clock, cell_look(row, clock, pulse in violated))


def draw_bench(canvas, top, example, title):
    """A bench whose last node is Byzantine: a row for each node, a column for each pulse."""
    rows = clocks_of(example)
    byzantine = len(rows[1]) - 1
    canvas.text((14, top), title, Style(size=14, weight="bold", anchor="start"))
    canvas.text((CELLS_LEFT - 8, top + 24), "pulse", Style(GREY, size=12, anchor="end"))
    draw_cells(canvas, top + 24, example)
    for node in range(byzantine + 1):
        y = top + 32 + (CELL_HIGH + 3) * node
        name = f"node {node}" if node < byzantine else "Byzantine node"
        canvas.text((CELLS_LEFT - 8, y + 16), name, Style(size=12, anchor="end"))
    canvas.named_box(
        (CELLS_LEFT + 1, top + 32 + (CELL_HIGH + 3) * byzantine),
        (CELL * len(rows) - 2, CELL_HIGH),
        "sends one node its next value, and 0 to the others",
        Style(INK, DASH, size=12),
    )


def same_attack():
    canvas = Canvas(360, "One Byzantine program: with three nodes agreement is violated, with four it only delays")
    three, four = "splitter_of_three", "splitter"
    pulses = " and ".join(map(str, sorted(violations_of(three))))
    draw_bench(canvas, 28, three, f"n = 3, f = 1: agreement is violated in pulses {pulses}")
    start = next(pulse for pulse, row in clocks_of(four).items() if set(row) == {"1", "-"})
    assert not violations_of(four)
    draw_bench(canvas, 178, four, f"n = 4, f = 1: agreement holds, and the clocks start together in pulse {start}")
    canvas.text((14, 345), "White: 0 agrees with every clock. Red: agreement is violated. Green: all correct clocks are equal.", LEFT)
    return canvas


# ---- the path of a clock of your own

STEPS = (
    ("write", ("the rule first,", "then its text"), INK),
    ("verify", ("each run ends", "within K steps"), GREEN),
    ("run", ("the report", "of this run"), BLUE),
    ("attack", ("the report", "of this attack"), BLUE),
    ("explore", ("all attacks", "on this bench"), GREEN),
    ("sweep", ("a line", "for each seed"), BLUE),
)
STEP_WIDE, STEP_GAP = 106, 18


def own_clock():
    canvas = Canvas(208, "From an idea to answers: write, verify, run, attack, explore, sweep")
    lefts = [16 + (STEP_WIDE + STEP_GAP) * number for number in range(len(STEPS))]
    for left, (name, answer, colour) in zip(lefts, STEPS):
        canvas.named_box((left, 60), (STEP_WIDE, 34), name, Style(colour, size=14, weight="bold"))
        canvas.lines((left + STEP_WIDE / 2, 116), answer, Style(colour, size=12))
        if left is not lefts[-1]:
            canvas.arrow((left + STEP_WIDE, 77), (left + STEP_WIDE + STEP_GAP - 1, 77), Style(GREY))
    begin, end = lefts[4] + STEP_WIDE / 2, lefts[0] + STEP_WIDE / 2
    canvas.path(f"M{begin} 60L{begin} 34L{end} 34L{end} 59", Style(RED))
    canvas.text(((begin + end) / 2, 26), "a counterexample: change the rule", Style(RED, size=12))
    canvas.text((16, 172), "Green: proved of all runs, or of all runs of one bench within the limits of explore.", LEFT)
    canvas.text((16, 192), "Blue: a fact about one run, or about one run for each seed.", LEFT)
    return canvas


# ---- two ways through the states

STATE_WIDE, STATES_Y = 34, 96


def report_below(line):
    """The report that docs/EXPLORE.md shows below a line, in its block. The line is there once."""
    page = (TOP / "docs" / "EXPLORE.md").read_text(encoding="utf-8")
    assert page.count(line) == 1, f"docs/EXPLORE.md has {page.count(line)} times: {line}"
    return page[page.index(line) :].partition("```")[0]


def clocks_in(report):
    """The clocks of the correct nodes, pulse by pulse."""
    states = re.findall(r"^pulse \d+ clocks (\d[\d ]*\d) ", report, re.M)
    assert len(states) == 3, f"docs/EXPLORE.md has {len(states)} pulses, and 3 are drawn: {report}"
    return states


def is_synchronised(before, after, modulus):
    """Returns true if the clocks are equal after a pulse, and each advanced by one in it."""
    clocks = list(zip(map(int, before.split()), map(int, after.split())))
    return len({new for _, new in clocks}) == 1 and all(new == (old + 1) % modulus for old, new in clocks)


def draw_clocks_at(canvas, x, clocks, style):
    canvas.circle((x, STATES_Y), clocks, style, STATE_WIDE)


def draw_violation(canvas):
    states = clocks_in(report_below("agreement violated in pulse 3 (5 states)"))
    assert len(set(states[-1].split()) - {"0"}) > 1, f"these clocks agree: {states[-1]}"
    canvas.text((16, 28), "A violation of agreement", Style(size=14, weight="bold", anchor="start"))
    canvas.arrow((20, STATES_Y), (54, STATES_Y), Style(GREY))
    for number, clocks in enumerate(states):
        x = 90 + 125 * number
        is_last = number == len(states) - 1
        draw_clocks_at(canvas, x, clocks, Style(RED if is_last else INK))
        if not is_last:
            canvas.arrow((x + STATE_WIDE, STATES_Y), (x + 125 - STATE_WIDE - 1, STATES_Y), Style(GREY))
            canvas.text((x + 62, STATES_Y - 10), f"pulse {number + 2}", Style(GREY, size=12))


def draw_lasso(canvas):
    report = report_below("# pulses 2 to 3 repeat for ever")
    first, second, again = clocks_in(report)
    modulus = int(re.search(r" modulus (\d+)", report)[1])
    assert first == again
    assert not is_synchronised(first, second, modulus) and not is_synchronised(second, again, modulus)
    canvas.text((440, 28), "Synchronisation prevented for ever", Style(size=14, weight="bold", anchor="start"))
    canvas.arrow((440, STATES_Y), (484, STATES_Y), Style(GREY))
    draw_clocks_at(canvas, 520, first, PLAIN)
    draw_clocks_at(canvas, 680, second, PLAIN)
    for side, begin, end, pulse in ((-1, 545, 655, 2), (1, 655, 545, 3)):
        y = STATES_Y + 23 * side
        canvas.path(f"M{begin} {y}Q600 {STATES_Y + 64 * side} {end} {y}", Style(ORANGE))
        canvas.text((600, STATES_Y + 4 + 56 * side), f"pulse {pulse}", Style(ORANGE, size=12))


def two_ways():
    canvas = Canvas(206, "Two answers of explore as paths through states: a violation of agreement, and a repetition")
    draw_violation(canvas)
    draw_lasso(canvas)
    canvas.line((415, 16), (415, 150), Style(GREY, DASH))
    canvas.text((16, 172), "Circle: a state, shown by the clocks of the correct nodes. Arrow: a transition.", LEFT)
    canvas.text((16, 192), "Left: two clocks differ. Right: two pulses repeat, and neither is synchronised.", LEFT)
    return canvas


# ---- from a scenario to a report

PROVED, TESTED, ASSUMED = GREEN, BLUE, ORANGE
STAGES = (
    ("words, file", "clap, std", TESTED),
    ("TOML table", "crate toml", ASSUMED),
    ("scenario", "scenario_of", PROVED),
    ("events", "events", PROVED),
    ("run", "run_events", PROVED),
    ("report", "report", PROVED),
    ("terminal", "std", TESTED),
)
STAGE_WIDE, STAGE_GAP = 88, 18


def report_path():
    canvas = Canvas(182, "From a scenario to a report: what is proved, what is tested and what is assumed")
    for number, (name, by, colour) in enumerate(STAGES):
        left = 18 + (STAGE_WIDE + STAGE_GAP) * number
        canvas.named_box((left, 30), (STAGE_WIDE, 36), name, Style(colour))
        canvas.text((left + STAGE_WIDE / 2, 86), by, Style(colour, size=12))
        if number:
            canvas.arrow((left - STAGE_GAP, 48), (left - 1, 48), Style(GREY))
    coins = 18 + (STAGE_WIDE + STAGE_GAP) * 3 + STAGE_WIDE / 2
    canvas.text((coins, 132), "coins of a seed: crate rand_chacha", Style(ASSUMED, size=12))
    canvas.arrow((coins, 118), (coins, 93), Style(ASSUMED))
    for left, (words, colour) in zip((18, 120, 218), (("proved", PROVED), ("tested", TESTED), ("assumed", ASSUMED))):
        canvas.box((left, 150), (14, 14), Style(colour), radius=3)
        canvas.text((left + 22, 162), words, Style(colour, anchor="start"))
    return canvas


# ---- two quorums

APART, SENDERS = 80, 150
FOUR_AGREE = (
    "Correct node 1 is in both quorums, and",
    "sends one number to all: c − 1 = d − 1.",
    "So c = d, whatever node 3 sends.",
)


class Panel(NamedTuple):
    """Senders in a row, the last of them Byzantine, and two quorums: those from the left and those from the right."""

    left: int
    order: tuple
    size: int
    heads: tuple
    tails: tuple


def draw_panel(canvas, panel, title, result):
    nodes = len(panel.order)
    wide = APART * panel.size - 16
    right = panel.left + APART * (nodes - panel.size)
    canvas.text((panel.left + APART * nodes / 2 - 8, 28), title, TITLE)
    canvas.box((panel.left, SENDERS - 44), (wide, 80), Style(BLUE), radius=30)
    canvas.box((right, SENDERS - 36), (wide, 80), Style(ORANGE), radius=30)
    canvas.lines((panel.left, SENDERS - 72), panel.heads, Style(BLUE, anchor="start"))
    canvas.lines((right + wide, SENDERS + 64), panel.tails, Style(ORANGE, anchor="end"))
    for place, node in enumerate(panel.order):
        is_byzantine = node == nodes - 1
        canvas.circle((panel.left + 32 + APART * place, SENDERS), str(node), Style(RED if is_byzantine else INK))
    canvas.lines((panel.left, SENDERS + 122), result, LEFT)


def quorums():
    canvas = Canvas(330, "Two quorums: with n = 4 a correct node is in both, with n = 3 it need not be")
    at_0, at_1, _ = clocks_of("splitter_of_three")[6]
    four = Panel(
        20,
        (0, 1, 3, 2),
        3,
        ("these three sent c − 1", "to a node with new clock c"),
        ("these three sent d − 1", "to a node with new clock d"),
    )
    draw_panel(canvas, four, "n = 4, f = 1: a quorum is 3", FOUR_AGREE)
    before_0, before_1 = int(at_0) - 1, int(at_1) - 1
    three = Panel(
        450,
        (0, 2, 1),
        2,
        (f"these two sent {before_0}", f"to node 0: new clock {at_0}"),
        (f"these two sent {before_1}", f"to node 1: new clock {at_1}"),
    )
    violated = (
        "Only Byzantine node 2 is in both quorums.",
        f"It sends {before_0} to node 0 and {before_1} to node 1:",
        f"clocks {at_0} and {at_1} violate agreement.",
    )
    draw_panel(canvas, three, "n = 3, f = 1: a quorum is 2", violated)
    canvas.line((400, 20), (400, 310), Style(GREY, DASH))
    return canvas


# ---- the automaton of (clock, mark)

FIRST, SECOND, GAP, LAST, WRAPPED, UNMARKED = (300, 110), (430, 110), (540, 110), (660, 110), (480, 225), (90, 165)
STATE = 30


def draw_counting(canvas):
    canvas.box((225, 50), (515, 225), Style(GREY, DASH), radius=14)
    canvas.text((482, 72), "counting: mark 1", Style(GREY))
    for at, words in ((FIRST, "1, 1"), (SECOND, "2, 1"), (LAST, "M−1, 1"), (WRAPPED, "0, 1")):
        canvas.circle(at, words, Style(BLUE), STATE)
    canvas.text((GAP[0], GAP[1] + 4), "…", TITLE)
    for begin, end in ((FIRST, SECOND), (SECOND, GAP), (GAP, LAST)):
        room = STATE if end is not GAP else 12
        canvas.arrow((begin[0] + (STATE if begin is not GAP else 12), begin[1]), (end[0] - room - 1, end[1]))
    canvas.path(f"M{LAST[0]} {LAST[1] + STATE}Q{LAST[0]} {WRAPPED[1]} {WRAPPED[0] + STATE + 1} {WRAPPED[1]}")
    canvas.path(f"M{WRAPPED[0] - STATE} {WRAPPED[1]}Q{FIRST[0]} {WRAPPED[1]} {FIRST[0]} {FIRST[1] + STATE + 1}")
    canvas.text((482, 165), "each solid arrow in this box: supported", SMALL)


def clock_automaton():
    canvas = Canvas(330, "The automaton of (clock, mark): a supported clock counts on, all others fall back to (0, 0)")
    draw_counting(canvas)
    x, y = UNMARKED
    canvas.circle(UNMARKED, "0, 0", Style(RED), STATE)
    canvas.text((x, y + 52), "mark 0", Style(GREY))
    canvas.path(f"M{x - 14} {y - 27}C{x - 50} {y - 95} {x + 50} {y - 95} {x + 14} {y - 28}")
    canvas.lines((x, y - 100), ("supported and coin 0,", "or not supported"), SMALL)
    canvas.arrow((x + 29, y - 10), (FIRST[0] - STATE - 1, FIRST[1] + 8))
    canvas.lines((172, 108), ("supported", "and coin 1"), SMALL)
    canvas.arrow((225, 205), (x + 25, y + 19), Style(RED, DASH))
    canvas.text((170, 226), "not supported", Style(RED, size=12))
    canvas.text((20, 306), "supported: at least n − f nodes sent the node its own clock value.", LEFT)
    return canvas


# ---- two pulses

EXAMPLE, PULSES = "two_faced", (2, 3)
BYZANTINE_SENDS = ("0", "1", "0", "-")
LANES = (110, 170, 230, 290)
OPENS, SPAN = {2: 100, 3: 480}, 200


def sent_by(clocks, sender):
    """What a node sends to each receiver: its new clock, or what the Byzantine node says."""
    return BYZANTINE_SENDS if clocks[sender] == "-" else (clocks[sender],) * len(LANES)


def inbox_of(clocks, receiver):
    return " ".join(sent_by(clocks, sender)[receiver] for sender in range(len(LANES)))


def draw_pulse(canvas, pulse, before, after):
    left = OPENS[pulse]
    canvas.box((left, 62), (SPAN, 265), Style(GREY), radius=0)
    canvas.text((left + SPAN / 2, 56), f"pulse {pulse}", TITLE)
    canvas.text((left, 345), "open", SMALL)
    canvas.text((left + SPAN, 345), "close", SMALL)
    for node, y in enumerate(LANES):
        is_byzantine = after[node] == "-"
        canvas.text((left + 12, y - 8), f"in {inbox_of(before, node)}", Style(size=12, anchor="start"))
        look = Style(RED if is_byzantine else BLUE, size=12)
        canvas.named_box((left + 78, y - 13), (72, 26), "adversary" if is_byzantine else "clock", look)
        canvas.line((left, y), (left + 78, y), Style(GREY))
        canvas.line((left + 150, y), (left + SPAN, y), Style(GREY))
        if not is_byzantine:
            canvas.circle((left + SPAN - 22, y), after[node], Style(BLUE), 12)


def draw_messages(canvas, clocks, begin, end):
    for sender, y in enumerate(LANES):
        for receiver, number in enumerate(sent_by(clocks, sender)):
            if number != "-":
                look = Style(RED if clocks[sender] == "-" else GREY, DASH if number == "0" else "")
                canvas.arrow((begin, y), (end - 1, LANES[receiver]), look)


def two_pulses():
    canvas = Canvas(410, "Two pulses as a space-time diagram, with the messages between them")
    clocks = clocks_of(EXAMPLE)
    for node, y in enumerate(LANES):
        canvas.text((16, y + 4), f"node {node}", LEFT)
        canvas.arrow((OPENS[3] + SPAN, y), (WIDTH - 10, y), Style(GREY))
        canvas.arrow((68, y), (OPENS[2] - 1, y), Style(GREY))
    for pulse in PULSES:
        draw_pulse(canvas, pulse, clocks[pulse - 1], clocks[pulse])
    draw_messages(canvas, clocks[2], OPENS[2] + SPAN, OPENS[3])
    canvas.text((390, 20), "staged: corrupt node 0, clock 0", Style(ORANGE))
    canvas.path(f"M390 28L390 44L{OPENS[3]} 44L{OPENS[3]} {LANES[0] - 6}", Style(ORANGE))
    canvas.text((16, 375), "in 1 1 0 0: the messages from nodes 0 to 3 that the node reads.", LEFT)
    canvas.text((16, 395), "Arrows: solid for a message of 1, dashed for 0; red from the Byzantine node.", LEFT)
    return canvas


# ---- a pulse among threads

ACTORS = ("loader 0", "loader 1", "bench under lock", "engine", "worker 0", "worker 1", "board", "watcher 0")
ACTOR = {name: 50 + 46 * number for number, name in enumerate(ACTORS)}
ENTRIES = (
    (170, "loader 0", "Staged", "load", ORANGE),
    (255, "engine", "Opened", "open_pulse", BLUE),
    (345, "loader 1", "Staged", "load", GREEN),
    (480, "engine", "Closed", "close_pulse", BLUE),
)


def draw_entry(canvas, place, entry):
    x, actor, name, call, colour = entry
    begin, bench = ACTOR[actor], ACTOR["bench under lock"]
    down = begin < bench
    canvas.named_box((x - 36, bench - 12), (72, 24), f"{place} {name}", Style(colour, size=12))
    canvas.arrow((x, begin), (x, bench - 13 if down else bench + 13), Style(colour))
    at, anchor = ((x - 6, begin - 6), "end") if down else ((x - 6, begin + 17), "middle")
    canvas.text(at, call, Style(colour, size=12, anchor=anchor))
    canvas.text((x + 6, begin - 6), f"receipt {place}", Style(colour, size=12, anchor="start"))


def draw_workers(canvas):
    engine = ACTOR["engine"]
    for actor, tasks in (("worker 0", "tasks 0, 2"), ("worker 1", "tasks 1, 3")):
        y = ACTOR[actor]
        canvas.named_box((300, y - 12), (100, 24), tasks, Style(INK, size=12))
        canvas.path(f"M286 {engine}L286 {y}L299 {y}", Style(GREY))
        canvas.path(f"M400 {y}L424 {y}L424 {engine + 2}", Style(GREY))
    canvas.text((432, engine + 60), "results", Style(GREY, size=12, anchor="start"))


def draw_posting(canvas):
    board, watcher = ACTOR["board"], ACTOR["watcher 0"]
    canvas.arrow((560, ACTOR["engine"]), (560, board - 13), Style(BLUE))
    canvas.text((566, ACTOR["engine"] + 17), "post", Style(BLUE, size=12, anchor="start"))
    canvas.named_box((530, board - 12), (60, 24), "row 1", Style(BLUE, size=12))
    canvas.arrow((620, board), (620, watcher - 2), Style(INK))
    canvas.text((626, watcher - 8), "look: row 1", Style(size=12, anchor="start"))


def threads():
    canvas = Canvas(450, "One pulse among threads: calls under the lock add entries to one linear history")
    for name, y in ACTOR.items():
        canvas.text((12, y + 4), name, LEFT)
        canvas.line((124, y), (WIDTH - 12, y), Style(GREY, "" if name == "bench under lock" else "2 4"))
    for place, entry in enumerate(ENTRIES):
        draw_entry(canvas, place, entry)
    draw_workers(canvas)
    draw_posting(canvas)
    canvas.named_box((654, ACTOR["bench under lock"] - 12), (84, 24), "finish", Style(INK, size=12))
    canvas.text((12, 412), "Time runs to the right. The history is 0 Staged, 1 Opened, 2 Staged, 3 Closed.", LEFT)
    canvas.text((12, 432), "Entry 2 takes effect at the next opening: the open pulse doesn't see it.", LEFT)
    return canvas


# ---- the crates

# crates of the gate alone, and libraries that come with the toolchain, which have no line in crates.txt
LEFT_OUT = re.compile(r".*_tests|trials")
RULE_CRATES = ("rule_syntax", "rule_nodes", "rule_text", "rule_programs", "rule_grammar", "rule_steps")
AREAS = (
    (BLUE, "machine, verifier, runner", ("bpf_", "node_env", "value_range")),
    (ORANGE, "clocks, rules, bench", ("bench_", "clock_", "sized_", "quorums", *RULE_CRATES)),
    (GREEN, "scenarios and output", ("scenario_", "run_", "key_sweep", "stream_io", "rule_")),
    (INK, "commands and programs", ("",)),
)
CRATE, ROOM, ROW, LANE = (96, 26), 101, 60, 15
# as wide as the row with the most crates and lines
CRATES_WIDTH = 1400
LONG_NAME = 16


def crates_with_uses():
    """The crates of the program, each with the crates of this repository that it uses."""
    text = re.sub(r"#.*", "", (TOP / "crates.txt").read_text(encoding="utf-8"))
    found = {name: used.split() for name, used in re.findall(r"^(\w+):(.*)$", text, re.M)}
    return {
        name: [it for it in used if it in found and not LEFT_OUT.fullmatch(it)]
        for name, used in found.items()
        if not LEFT_OUT.fullmatch(name)
    }


def crate_style(name):
    """The look of a crate: of `bench_scenario`, which writes reports, as of other output."""
    name = name.replace("bench_scenario", "scenario_")
    colour = next(colour for colour, _, heads in AREAS if name.startswith(heads))
    return Style(colour, size=11 if len(name) < LONG_NAME else 10)


def draw_route(canvas, route, at):
    """A line from a crate down to one that it uses, round the boxes of the rows between."""
    data = f"M{at[route[0]][0]:.0f} {at[route[0]][1] + CRATE[1] / 2:.0f}"
    for upper, lower in zip(route, route[1:]):
        (x, y), (to_x, to_y) = at[upper], at[lower]
        begin, end = y + CRATE[1] / 2, to_y - CRATE[1] / 2
        middle = (begin + end) / 2
        data += f"C{x:.0f} {middle:.0f} {to_x:.0f} {middle:.0f} {to_x:.0f} {end:.0f}"
        if isinstance(lower, layers.Pass):
            data += f"V{to_y + CRATE[1] / 2:.0f}"
    canvas.path(data, Style(GREY))


def crates():
    rows, along, routes = layers.layout(
        crates_with_uses(), lambda it: LANE if isinstance(it, layers.Pass) else ROOM, CRATES_WIDTH - 20
    )
    high = ROW * len(rows)
    canvas = Canvas(high + 40, "The crates in layers: each is above the crates that it uses", CRATES_WIDTH)
    at = {it: (along[it] + 10, high - ROW * number - 30) for number, row in enumerate(rows) for it in row}
    for route in routes:
        draw_route(canvas, route, at)
    for name in crates_with_uses():
        x, y = at[name]
        canvas.named_box((round(x - CRATE[0] / 2), y - CRATE[1] // 2), CRATE, name, crate_style(name))
    for number, (colour, words, _) in enumerate(AREAS):
        canvas.text((24 + 188 * number, high + 24), words, Style(colour, anchor="start"))
    return canvas


# ---- a branch and its join

STATE_BOX = (230, 50)


def draw_state(canvas, corner, words, known, colour):
    canvas.box(corner, STATE_BOX, Style(colour))
    canvas.lines((corner[0] + STATE_BOX[0] / 2, corner[1] + 21), (words, known), Style(colour))


def join():
    """The program is the one of docs/VERIFIER.md ("Abstract states")."""
    canvas = Canvas(318, "A branch and its join: what is known of r0 and r2 before each instruction")
    draw_state(canvas, (265, 14), "slot 1: jgt r2, 0, +1", "r0 = 1, r2 = 0..3", INK)
    draw_state(canvas, (480, 124), "slot 2: mov64 r0, 16", "r0 = 1, r2 = 0", ORANGE)
    draw_state(canvas, (265, 234), "slot 3: add64 r1, r0", "r0 = 1..16, r2 = 0..3", GREEN)
    canvas.path("M310 64C310 150 310 150 310 233", Style(BLUE))
    canvas.lines((298, 130), ("the condition holds:", "r0 = 1, r2 = 1..3"), Style(BLUE, anchor="end"))
    canvas.path("M450 64C450 110 595 80 595 123", Style(ORANGE))
    canvas.text((610, 92), "it doesn't hold", Style(ORANGE, anchor="start"))
    canvas.path("M595 174C595 215 450 190 450 233", Style(ORANGE))
    canvas.text((610, 206), "r0 = 16, r2 = 0", Style(ORANGE, anchor="start"))
    canvas.text((380, 306), "the join: the least ranges around both", Style(GREEN))
    return canvas


# ---- the slot of an instruction

BYTE, BYTES_LEFT, BYTES_TOP = (74, 34), 84, 36
# the parts of an opcode, from the highest bit on: how many bits, what they are, and how they read
LOAD_PARTS = ((3, "mode 3", BLUE), (2, "size W", ORANGE), (3, "class LDX", GREEN))
JUMP_PARTS = ((4, "code 1: eq", BLUE), (1, "source K", ORANGE), (3, "class JMP", GREEN))


def image_of(text):
    """The bytes that docs/ASSEMBLER.md shows for an instruction."""
    page = (TOP / "docs" / "ASSEMBLER.md").read_text(encoding="utf-8")
    return bytes.fromhex(re.search(rf"^\| `{re.escape(text)}` \| `(\w+)` \|$", page, re.M)[1])


def draw_field(canvas, first, count, words, colour):
    """Bytes of the slot in one colour, with their field below."""
    image = image_of("ldxw r4, [r8+1]")
    for place in range(first, first + count):
        x = BYTES_LEFT + BYTE[0] * place
        canvas.named_box((x, BYTES_TOP), BYTE, f"{image[place]:02x}", Style(colour, size=14, weight="bold"))
        canvas.text((x + BYTE[0] / 2, BYTES_TOP - 8), str(place), Style(GREY, size=12))
    canvas.lines((BYTES_LEFT + BYTE[0] * (first + count / 2), BYTES_TOP + 52), words, Style(colour, size=12))


def draw_opcode(canvas, left, text, parts):
    opcode = image_of(text)[0]
    bits, x = f"{opcode:08b}", left
    canvas.text((left, 148), f"opcode {opcode:02x} of {text}", LEFT)
    for count, words, colour in parts:
        wide = max(28 * count, 72)
        canvas.named_box((x, 158), (wide, 28), " ".join(bits[:count]), Style(colour, size=14))
        canvas.text((x + wide / 2, 204), words, Style(colour, size=12))
        bits, x = bits[count:], x + wide + 8


def slot():
    image = image_of("ldxw r4, [r8+1]")
    canvas = Canvas(216, "The eight bytes of a slot, and the bits of two opcodes")
    canvas.text((BYTES_LEFT - 12, BYTES_TOP - 8), "byte", Style(GREY, size=12, anchor="end"))
    draw_field(canvas, 0, 1, ("opcode",), INK)
    draw_field(canvas, 1, 1, (f"src {image[1] >> 4}, dst {image[1] & 15}",), BLUE)
    draw_field(canvas, 2, 2, (f"offset {int.from_bytes(image[2:4], 'little', signed=True)}",), ORANGE)
    draw_field(canvas, 4, 4, (f"imm {int.from_bytes(image[4:], 'little', signed=True)}, unused",), GREEN)
    draw_opcode(canvas, BYTES_LEFT, "ldxw r4, [r8+1]", LOAD_PARTS)
    draw_opcode(canvas, BYTES_LEFT + 320, "jeq r7, 0, +7", JUMP_PARTS)
    return canvas


# ---- the registers

REGISTER, REGISTERS_LEFT, REGISTERS_TOP = (44, 20), 24, 16
REGISTER_ROLES = (
    ((0,), INK, "result"),
    (range(1, 6), ORANGE, "arguments; unset after a call"),
    (range(6, 10), GREEN, "kept by calls"),
    ((10,), BLUE, "the end of the stack; never written"),
)
SET_AT_ENTRY = (1, 2, 10)


def middle_of(register):
    return REGISTERS_TOP + 24 * register + REGISTER[1] / 2


def draw_region(canvas, y, words, colour):
    canvas.box((400, y), (320, 40), Style(colour))
    canvas.text((560, y + 25), words, Style(colour))


def registers():
    canvas = Canvas(312, "The registers and both regions when a run begins")
    for numbers, colour, role in REGISTER_ROLES:
        for number in numbers:
            look = Style(colour, "" if number in SET_AT_ENTRY else DASH)
            canvas.named_box((REGISTERS_LEFT, REGISTERS_TOP + 24 * number), REGISTER, f"r{number}", look)
        role_y = (middle_of(numbers[0]) + middle_of(numbers[-1])) / 2 + 4
        canvas.text((REGISTERS_LEFT + 58, role_y), role, Style(colour, anchor="start"))
    canvas.text((REGISTERS_LEFT + 58, middle_of(2) + 4), "the node's number", Style(size=12, anchor="start"))
    draw_region(canvas, 30, "memory: 8 to 256 bytes, outlives the run", ORANGE)
    draw_region(canvas, 190, "stack: 512 bytes, for one run", BLUE)
    canvas.arrow((REGISTERS_LEFT + 45, middle_of(1)), (399, middle_of(1)), Style(ORANGE))
    canvas.path(f"M320 {middle_of(10)}L720 {middle_of(10)}L720 231", Style(BLUE))
    canvas.text((400, 22), "offset 0", Style(GREY, size=12))
    canvas.text((724, 182), "offset 512", Style(GREY, size=12, anchor="end"))
    canvas.text((16, 304), "Solid: set when a run begins. Dashed: unset.", LEFT)
    return canvas


# ---- the gate

# The parts of .ci/run: the script with which each begins, its name, and what it shows.
PARTS = (
    ("mistakes.py --read", "repository", "citations, counts, style, pictures; no way round the prover", INK),
    ("gate_minutes.py", "rt ci", "every proof from nothing, must-fail edits, tests, stored runs", GREEN),
    ("mistakes.py --share", "seeded bugs", "a share of them: the prover rejects each", GREEN),
    ("check_vectors.py", "built program", "outside answers, rows, certificates, lines of runs", BLUE),
    ("check_pages.sh", "pages, archive", "every command line, the archive alone, pictures", BLUE),
    ("try_lab.py", "lab, failures", "a browser; memory, threads and streams fail, one after the other", ORANGE),
)
# The first and the last of the parts that run side by side.
SIDE_BY_SIDE = 2, 4
PART_HIGH, SCRIPT_LEFT, MAX_LETTERS = 76, 190, 84


def parts_of_gate():
    """The scripts of each part, in the order of .ci/run."""
    steps = re.findall(r"^ *step tools/(.+)$", (TOP / ".ci/run").read_text(encoding="utf-8"), re.M)
    begins = [next(at for at, step in enumerate(steps) if step.startswith(part[0])) for part in PARTS]
    return [steps[begin:end] for begin, end in zip(begins, [*begins[1:], len(steps)])]


def script_lines(steps):
    """The names of steps, as lines that fit beside their part."""
    lines = [""]
    for step in steps:
        name = re.sub(r' "\$.*|\.(py|sh)\b', "", step)
        if len(lines[-1]) + len(name) > MAX_LETTERS:
            lines.append("")
        lines[-1] += f", {name}" if lines[-1] else name
    return lines


def tops_of_parts(lines):
    """Where each part begins, below the one before with its lines, and where the last ends."""
    heights = (max(PART_HIGH, 33 + LINE_HIGH * len(it) + 10) for it in lines)
    return list(itertools.accumulate(heights, initial=10))


def gate():
    lines = [script_lines(it) for it in parts_of_gate()]
    *tops, end = tops_of_parts(lines)
    canvas = Canvas(end, "The gate: six parts, each with its scripts; three run side by side")
    for number, ((_, name, shows, colour), y) in enumerate(zip(PARTS, tops)):
        canvas.named_box((16, y), (150, 40), name, Style(colour, size=14, weight="bold"))
        canvas.text((SCRIPT_LEFT, y + 14), shows, Style(colour, anchor="start"))
        canvas.lines((SCRIPT_LEFT, y + 33), lines[number], Style(GREY, size=12, anchor="start"))
        if number and not SIDE_BY_SIDE[0] < number <= SIDE_BY_SIDE[1]:
            canvas.arrow((91, tops[number - 1] + 40), (91, y - 1), Style(GREY))
    first, last = (tops[it] for it in SIDE_BY_SIDE)
    canvas.line((7, first), (7, last + 40), Style(GREY))
    return canvas


# ---- what is trusted

LAYER = re.compile(r"^\| ([^|]+) \| [^|]+ \| ([^|]+) \|$", re.M)
LAYER_HIGH, LAYER_WIDE, LIMIT_LETTERS = 52, 236, 74


def layers_of_trust():
    """Each layer of the table in docs/TRUST.md, and how it is limited."""
    page = (TOP / "docs/TRUST.md").read_text(encoding="utf-8")
    table = page.partition("\n## Layers\n")[2].partition("\n\n![")[0]
    return [tuple(cell.replace("`", "") for cell in row) for row in LAYER.findall(table)[1:]]


def trust():
    layers = layers_of_trust()
    canvas = Canvas(LAYER_HIGH * (len(layers) + 1) + 16, "The layers of trust, from the theorem down to the processor")
    canvas.named_box((16, 10), (LAYER_WIDE, 38), "theorem on the shipped code", Style(GREEN, weight="bold"))
    canvas.text((262, 33), "proved from the layers below", Style(GREEN, anchor="start"))
    for number, (layer, limit) in enumerate(layers, 1):
        y = 10 + LAYER_HIGH * number
        canvas.named_box((16, y), (LAYER_WIDE, 38), layer, Style(ORANGE, size=12))
        canvas.lines((262, y + 15), textwrap.wrap(limit, LIMIT_LETTERS), Style(GREY, size=12, anchor="start"))
        canvas.arrow((16 + LAYER_WIDE / 2, y - 1), (16 + LAYER_WIDE / 2, y - LAYER_HIGH + 39), Style(GREY))
    return canvas


PICTURES = {
    "same_attack": same_attack,
    "own_clock": own_clock,
    "two_ways": two_ways,
    "report_path": report_path,
    "quorums": quorums,
    "clock_automaton": clock_automaton,
    "two_pulses": two_pulses,
    "threads": threads,
    "crates": crates,
    "join": join,
    "slot": slot,
    "registers": registers,
    "trust": trust,
    "gate": gate,
}


def faults(drawn):
    for path, svg in drawn.items():
        if not path.is_file() or path.read_text(encoding="utf-8") != svg:
            yield f"{path.relative_to(TOP)} isn't what tools/diagrams.py draws"
    for path in sorted(set(FOLDER.glob("*")) - set(drawn)):
        yield f"{path.relative_to(TOP)} isn't a picture of tools/diagrams.py"


def main():
    drawn = {FOLDER / f"{name}.svg": draw().svg() for name, draw in PICTURES.items()}
    if sys.argv[1:] == ["--check"]:
        found = list(faults(drawn))
        print("\n".join([*found, f"diagrams: {len(drawn)} pictures, {len(found)} faults"]))
        return 1 if found else 0
    FOLDER.mkdir(exist_ok=True)
    for path, svg in drawn.items():
        path.write_text(svg, encoding="utf-8")
    return 0


if __name__ == "__main__":
    sys.exit(main())
