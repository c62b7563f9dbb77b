#!/usr/bin/env python3
"""Holds the verdicts and answers of `run --claims` against another reading of the same run: check_properties.py [PROGRAM]

Of each example (examples/properties/) and of drawn properties on examples, the verdicts are judged here by the memories
and the settled nodes that `run --json` tells (docs/PROPERTIES.md), with terms that are drawn as trees: their text is for
the program, their number is computed here. The report before them must be that of `run`, for each number of workers. The
lines of `--json` must say the same, and the status of `--check` must be that of the answers. Drawn lines of `assume` that
the scenario meets change nothing, and the first one that it doesn't meet is where the text is refused. Each wrong text
must be refused where its first error is. Each row of `sweep --claims` must be that of the answers of `run --claims` on
the scenario with its key.
"""
import json
import random
import re
import sys
import tempfile

sys.dont_write_bytecode = True
from built_program import TOP, answer, named_program, on_all_processors, tell, without_note

LIMIT, NONE, SEED, DRAWN, LINES = 2**32, 2**32 - 1, 9669, 60, 8
# The files of properties in examples/properties/, each with the scenario that it is about, and the status with --check.
EXAMPLES = {
    "consensus": ("properties/consensus.toml", 0),
    "vote": ("properties/vote.toml", 3),
    "squad": ("properties/squad.toml", 0),
    "skew": ("properties/skew.toml", 0),
    "clock": ("four_clocks.toml", 0),
    "agreement": ("four_clocks.toml", 0),
}
# Scenarios of the built-in clock and of rules, on which properties are drawn, with the words of the memory.
SCENARIOS = {
    "four_clocks.toml": ["clock", "mark"],
    "all_corrupted.toml": ["clock", "mark"],
    "liar_comes_and_goes.toml": ["clock", "mark"],
    "splitter.toml": ["clock", "mark"],
    "chacha.toml": ["clock", "mark"],
    "clocks/king.toml": ["clock", "round", "sure"],
    "properties/consensus.toml": ["clock", "round", "value", "sure", "decided"],
}
# Scenarios whose coins or messages a key decides, on which properties are drawn for sweeps, with the words of the memory.
SWEPT = {
    "chacha.toml": ["clock", "mark"],
    "noise.toml": ["clock", "mark"],
    "luck/four.toml": ["clock", "mark"],
    "properties/consensus.toml": ["clock", "round", "value", "sure", "decided"],
    "properties/vote.toml": ["clock", "round", "value"],
}
SWEEPS, KEYS = 10, 5
# Wrong texts about the built-in clock, with the line that refuses each.
WRONG = [
    ("", "Expected line 1 column 1"),
    ("# nothing\n", "Expected line 2 column 1"),
    ("never p.clock == 0\n", "Expected line 1 column 1"),
    ("always\n", "Expected line 1 column 7"),
    ("eventually p.clock == 0\n", "Expected line 1 column 12"),
    ("within p.clock == 0\n", "Expected line 1 column 8"),
    ("within 1000001 p.clock == 0\n", "OutOfRange line 1 column 8"),
    ("always p.clock == 4294967296\n", "OutOfRange line 1 column 19"),
    ("always p.tick == 0\n", "UnknownName line 1 column 10"),
    ("always p.before.me == 0\n", "UnknownName line 1 column 17"),
    ("always r.clock == 0\n", "UnknownName line 1 column 8"),
    ("always clock == 0\n", "NotCovered line 1 column 8"),
    ("always (count j: mail[j] == 0) == 0\n", "NotCovered line 1 column 9"),
    ("always p.clock == $\n", "BadCharacter line 1 column 19"),
    ("always p.clock == q.clock == 0\n", "Expected line 1 column 27"),
    ("always (p.clock == 0\n", "Expected line 2 column 1"),
    ("always p.clock 0\n", "Expected line 1 column 16"),
    ("always p.clock if q.clock\n", "Expected line 1 column 26"),
    ("always " + "(" * 200 + "1" + ")" * 200 + "\n", "TooDeep line 1 column"),
    ("always 1\n" * 33, "TooLong line 33 column 1"),
    ("always 1" + " " * 16400 + "== 1\n", "TooLong line 1 column"),
]
# Likewise texts with lines that tools/all_sizes.py reads otherwise.
WRONG_ASSUMPTIONS = [
    ("assume n > 3 * f\n", "Expected line 2 column 1"),
    ("assume\nalways 1\n", "Expected line 1 column 7"),
    ("assume p.clock > 1\nalways 1\n", "Expected line 1 column 8"),
    ("always 1\nassume n > f and q.clock == 0\n", "Expected line 2 column 18"),
    ("assume m > 1\nalways 1\n", "UnknownName line 1 column 8"),
    ("assume n / 2 > f\nalways 1\n", "NotCovered line 1 column 10"),
    ("assume n % 2 == 0\nalways 1\n", "NotCovered line 1 column 10"),
    ("assume n if f else 1\nalways 1\n", "NotCovered line 1 column 10"),
    ("assume n > 4294967296\nalways 1\n", "OutOfRange line 1 column 12"),
    ("assume n > $\nalways 1\n", "BadCharacter line 1 column 12"),
    ("assume n > 1 f\nalways 1\n", "Expected line 1 column 14"),
    ("assume (n > 1\nalways 1\n", "Expected line 2 column 1"),
    ("set A: p.clock == 0\nalways 1\n", "Expected line 1 column 1"),
    ("always 1\nstep any -> any\n", "Expected line 2 column 1"),
    # An error comes before an assumption that isn't met.
    ("assume n < 4\nalways p.tick == 0\n", "UnknownName line 2 column 10"),
    ("assume 1\n" * 40 + "always 1\n" * 33, "TooLong line 73 column 1"),
]
# Assumptions that a scenario with four nodes, f = 1 and M = 8 meets, and ones that it doesn't, with the place.
MET = ["n > 3 * f", "not f == 0 and (n == 4 or 0)", "n - 5 < 0", "M == 8", "none > n * M", "1"]
UNMET = [
    ("assume n < 4\nalways 1\n", 1, 8),
    ("always 1\n  assume   (n >= 1\n  and f != 1)\nassume n < f\n", 2, 12),
    ("assume n == 4\nwithin 3 p.clock\nassume 4 - n\nassume f > 1\n", 3, 8),
    ("assume n - 5 >= 0\nalways 1\n", 1, 8),
    ("assume none * 2 < none\nalways 1\n", 1, 8),
]
COMMANDS = [["run"], ["run", "--json", "--check"], ["sweep", "--keys", "1..2"]]
OPERATIONS = {
    "+": lambda a, b: (a + b) % LIMIT,
    "-": lambda a, b: (a - b) % LIMIT,
    "*": lambda a, b: a * b % LIMIT,
    "/": lambda a, b: a // b if b else 0,
    "%": lambda a, b: a % b if b else a,
    "==": lambda a, b: int(a == b),
    "!=": lambda a, b: int(a != b),
    "<": lambda a, b: int(a < b),
    "<=": lambda a, b: int(a <= b),
    ">": lambda a, b: int(a > b),
    ">=": lambda a, b: int(a >= b),
    "and": lambda a, b: int(a != 0 and b != 0),
    "or": lambda a, b: int(a != 0 or b != 0),
}


# ---- drawn terms: a text, a function of a pair of nodes, and whether it looks back


def leaf(draw, words, sizes):
    kind = draw.randrange(8)
    if kind == 0:
        number = draw.choice([0, 1, 2, 3, 7, NONE])
        return ("none" if number == NONE and draw.random() < 0.5 else str(number)), (lambda pair: number), False
    if kind == 1:
        name = draw.choice("nfM")
        return name, (lambda pair: sizes[name]), False
    side = draw.randrange(2)
    if kind == 2:
        return "pq"[side] + ".me", (lambda pair: pair[side][0]), False
    word = draw.randrange(len(words))
    if kind < 6:
        return f"{'pq'[side]}.{words[word]}", (lambda pair: pair[side][1][word]), False
    return f"{'pq'[side]}.before.{words[word]}", (lambda pair: pair[side][2][word]), True


def term(draw, words, sizes, depth):
    if depth == 0 or draw.random() < 0.15:
        return leaf(draw, words, sizes)
    if draw.random() < 0.1:
        text, value, back = term(draw, words, sizes, depth - 1)
        return f"(not {text})", (lambda pair: int(value(pair) == 0)), back
    if draw.random() < 0.1:
        parts = [term(draw, words, sizes, depth - 1) for _part in range(3)]
        (one, first, _), (test, holds, _), (two, other, _) = parts
        value = lambda pair: first(pair) if holds(pair) else other(pair)
        return f"({one} if {test} else {two})", value, any(part[2] for part in parts)
    sign = draw.choice(list(OPERATIONS))
    left, right = (term(draw, words, sizes, depth - 1) for _side in range(2))
    value = lambda pair: OPERATIONS[sign](left[1](pair), right[1](pair))
    return f"({left[0]} {sign} {right[0]})", value, left[2] or right[2]


def form(draw):
    kind = draw.randrange(3)
    if kind == 2:
        pulses = draw.randrange(12)
        return f"within {pulses}", pulses
    return ["always", "eventually always"][kind], 0


# ---- properties of a file of examples: no `and`, `or` or `not` of theirs is counted with


class Number(int):
    """A number of 32 bits."""

    def __add__(self, other):
        return Number((int(self) + int(other)) % LIMIT)

    def __sub__(self, other):
        return Number((int(self) - int(other)) % LIMIT)

    def __mod__(self, other):
        return Number(int(self) % int(other) if int(other) else int(self))


def read(line, words, sizes):
    head, first, text = re.fullmatch(r"(always|eventually always|within (\d+)) (.*)", line).groups()
    code = re.sub(r"([pq])\.(before\.)?(\w+)", lambda it: f"at({it[1]!r}, {bool(it[2])}, {it[3]!r})", text)

    def value(pair):
        def at(side, before, name):
            node = pair["pq".index(side)]
            return Number(node[0] if name == "me" else node[2 if before else 1][words.index(name)])

        fixed = {name: Number(sizes[name]) for name in "nfM"}
        return int(eval(code, {"at": at, "none": Number(NONE), **fixed}))  # the examples are ours

    return f"{head} {text}", head, int(first or 0), value, ".before." in text


# ---- verdicts


def words_of(image, count):
    memory = bytes.fromhex(image)
    return [int.from_bytes(memory[4 * k : 4 * k + 4].ljust(4, b"\0"), "little") for k in range(count)]


def judged(pulses, at, words, back):
    """The nodes of which a property speaks in a pulse, each with its memory after it and before it."""
    now = pulses[at]
    was = pulses[at - 1] if at else None
    nodes = []
    for node, settled in enumerate(now["settled"]):
        if settled and (not back or was is not None and was["settled"][node]):
            before = words_of(was["memory"][node], len(words)) if was else [0] * len(words)
            nodes.append((node, words_of(now["memory"][node], len(words)), before))
    return nodes


def verdict(nodes, value):
    if not nodes:
        return None
    return next(((p[0], q[0]) for p in nodes for q in nodes if value((p, q)) == 0), True)


def answer_of(head, first, verdicts):
    counted = [(pulse, said) for pulse, said in verdicts if pulse > first and said is not None]
    wrong = [(pulse, said) for pulse, said in counted if said is not True]
    if not counted:
        return "no pulse was judged", True
    if not wrong:
        if head == "eventually always":
            return f"holds from pulse {counted[0][0]} on", True
        return f"holds in {len(counted)} pulses", True
    pulse, (one, other) = wrong[-1]
    if head != "eventually always":
        last = f"last in pulse {pulse} by nodes {one} and {other}"
        return f"violated in {len(wrong)} of {len(counted)} pulses, {last}", False
    later = [it for it, _said in counted if it > pulse]
    if later:
        return f"holds from pulse {later[0]} on", True
    return f"violated in the last judged pulse, {pulse}, by nodes {one} and {other}", False


def told_of(head, first, verdicts):
    """The answer as members of JSON."""
    counted = [(pulse, said) for pulse, said in verdicts if pulse > first and said is not None]
    wrong = [(pulse, said) for pulse, said in counted if said is not True]
    told = {"judged": len(counted), "violated": len(wrong), "answer": "violated" if wrong else "holds"}
    if wrong:
        told |= {"last": wrong[-1][0], "nodes": list(wrong[-1][1])}
    later = [pulse for pulse, _said in counted if not wrong or pulse > wrong[-1][0]]
    if head == "eventually always" and later:
        told |= {"answer": "holds", "from": later[0]}
    return told if counted else {**told, "answer": "none"}


def expected(report, pulses, words, properties):
    """The text of `run --claims`, its lines of JSON, and whether no property is violated."""
    said = [
        [(it["pulse"], verdict(judged(pulses, at, words, back), value)) for at, it in enumerate(pulses)]
        for _line, _text, _head, _first, value, back in properties
    ]
    text, told, holds = report, [], True
    for at, pulse in enumerate(pulses):
        shown = [{None: "none", True: "yes"}.get(one[at][1], "no") for one in said]
        text += f"pulse {pulse['pulse']} claims {' '.join(shown)}\n"
        told.append({"pulse": pulse["pulse"], "claims": shown})
    for (line, shown, head, first, _value, _back), verdicts in zip(properties, said):
        answered, fine = answer_of(head.split(" ")[0] if "within" in head else head, first, verdicts)
        text += f"line {line}: {shown}\n  {answered}\n"
        told.append({"line": line, "claim": shown, **told_of(head, first, verdicts)})
        holds = holds and fine
    lines = "".join(json.dumps(it, sort_keys=True, separators=(",", ":")) + "\n" for it in told)
    return text, lines, holds


# ---- trials


def run_of(program, scenario):
    """The report of a scenario, its pulses, and its sizes."""
    given = (TOP / "examples" / scenario).read_bytes()
    report = answer(program, ["run"], given).out.decode()
    frame, *lines, _last = map(json.loads, answer(program, ["run", "--json"], given).out.decode().splitlines())
    return given, report, lines, {"n": frame["nodes"], "f": frame["faults"], "M": frame["modulus"]}


def tried(program, name, given, text, wanted):
    """The differences between what the program says of a text of properties and what is wanted."""
    report, lines, holds = wanted
    found = []
    with tempfile.NamedTemporaryFile("w", suffix=".claims") as file:
        file.write(text)
        file.flush()
        for words in (["--workers", "1"], ["--workers", "4", "--check"], ["--json", "--check"]):
            shown = lines if "--json" in words else report
            got = without_note(answer(program, ["run", "--claims", file.name, *words], given))
            status = 3 if "--check" in words and not holds else 0
            if (got.status, got.out.decode(), got.err) != (status, shown, b""):
                where = first_difference(got.out.decode(), shown)
                found.append(f"{name} {' '.join(words)}: {got.status} {got.err!r}\n{text}{where}")
    return found


def first_difference(got, wanted):
    for one, other in zip(got.splitlines(), wanted.splitlines()):
        if one != other:
            return f"  got    {one}\n  wanted {other}"
    return f"  got {len(got)} bytes, wanted {len(wanted)}"


def example(program, name):
    scenario, status = EXAMPLES[name]
    given, report, pulses, sizes = run_of(program, scenario)
    text = (TOP / "examples/properties" / f"{name}.claims").read_text()
    words = SCENARIOS.get(scenario) or ["clock", *re.findall(r"\w+", (re.findall(r"^state (.*)$", given.decode(), re.M) or [""])[0])]
    lines = [(at, it) for at, it in enumerate(text.splitlines(), 1) if it and not it.startswith(("#", "assume"))]
    properties = [(at, *read(line, words, sizes)) for at, line in lines]
    wanted = expected(report, pulses, words, properties)
    found = tried(program, name, given, text, wanted)
    return found + ([f"{name}: --check isn't {status}"] if (0 if wanted[-1] else 3) != status else [])


def drawn(program, seed):
    draw = random.Random(f"{SEED} {seed}")
    scenario = draw.choice(list(SCENARIOS))
    given, report, pulses, sizes = run_of(program, scenario)
    words, properties, text = SCENARIOS[scenario], [], ""
    for line in range(1, LINES + 1):
        if draw.random() < 0.2:
            text += f"assume {assumption(draw, sizes, True)}\n"
            continue
        head, first = form(draw)
        shown, value, back = term(draw, words, sizes, draw.randrange(5))
        properties.append((line, f"{head} {shown}", head, first, value, back))
        text += f"{head} {shown}\n"
    if not properties:
        return []
    wanted = expected(report, pulses, words, properties)
    return tried(program, f"{scenario} seed {seed}", given, text, wanted) + unmet(program, draw, given, text, sizes)


def assumption(draw, sizes, is_met):
    """A term about the sizes that they meet, or that they don't."""
    while True:
        shown, value = size_test(draw, sizes, draw.randrange(3))
        if (value != 0) == is_met:
            return shown


def size_test(draw, sizes, depth):
    """A term of sizes, as text and as a whole number."""
    if depth == 0:
        (left, one), (right, other) = size_sum(draw, sizes), size_sum(draw, sizes)
        sign = draw.choice(["==", "!=", "<", "<=", ">", ">="])
        return f"{left} {sign} {right}", OPERATIONS[sign](one, other)
    if draw.random() < 0.2:
        shown, value = size_test(draw, sizes, depth - 1)
        return f"not ({shown})", int(value == 0)
    sign = draw.choice(["and", "or"])
    (left, one), (right, other) = (size_test(draw, sizes, depth - 1) for _side in range(2))
    return f"({left} {sign} {right})", OPERATIONS[sign](one, other)


def size_sum(draw, sizes):
    """A sum of sizes with constant factors, in whole numbers: it may be below 0."""
    shown, value = "", 0
    for part in range(draw.randint(1, 3)):
        sign = draw.choice("+-") if part else "+"
        factor, name = draw.randrange(8), draw.choice(["n", "f", "M", "none", ""])
        number = {**sizes, "none": NONE, "": 1}[name]
        shown += f" {sign} " * bool(part) + (f"{factor} * {name}" if name else f"{factor}")
        value += factor * number * (1 if sign == "+" else -1)
    return shown, value


def unmet(program, draw, given, text, sizes):
    """The text with a line that the scenario doesn't meet, which refuses it, and a second one, which is after it."""
    lines = text.splitlines()
    at = draw.randrange(len(lines) + 1)
    indent = " " * draw.randrange(3)
    lines[at:at] = [f"{indent}assume {assumption(draw, sizes, False)}"]
    lines += [f"assume {assumption(draw, sizes, False)}"] * draw.randrange(2)
    return unassumed(program, given, "\n".join(lines), sizes, at + 1, len(indent) + 8)


def unassumed(program, given, text, sizes, line, column, commands=COMMANDS):
    """The differences of the refusal of a text whose assumption at this place isn't met."""
    numbers = ", ".join(f"{name} = {number}" for name, number in sizes.items())
    note = f"note: line {line}, column {column} of the claims: the scenario has {numbers}\n"
    wanted = 2, f"refused claims NotAssumed line {line} column {column}\n", note
    found = []
    with tempfile.NamedTemporaryFile("w", suffix=".claims") as file:
        file.write(text)
        file.flush()
        for words in commands:
            got = answer(program, [*words, "--claims", file.name], given)
            if (got.status, got.out.decode(), got.err.decode()) != wanted:
                found.append(f"{' '.join(words)} {text!r}: {got}, wanted {wanted}")
    return found


def assumed(program, case):
    """A fixed text with assumptions that four clocks don't meet, or that they meet before and after 32 properties."""
    given, report, pulses, sizes = run_of(program, "four_clocks.toml")
    if isinstance(case, tuple):
        return unassumed(program, given, case[0], sizes, *case[1:])
    words, line = SCENARIOS["four_clocks.toml"], "always p.clock == q.clock"
    properties = [(at, *read(line, words, sizes)) for at in range(2, 34)]
    text = f"assume {case}\n" + f"{line}\n" * 32 + f"assume {case}\n"
    return tried(program, case, given, text, expected(report, pulses, words, properties))


def unexplored(program, case):
    """A fixed text with an assumption that a bench to explore doesn't meet."""
    given = (TOP / "examples/explore/vote.toml").read_bytes()
    return unassumed(program, given, case[0], {"n": 4, "f": 1, "M": 2}, *case[1:], [["explore"], ["explore", "--json"]])


def cell_of(answered):
    """The cell of an answer, as docs/PROPERTIES.md has it."""
    found = re.match(r"holds from pulse (\d+)|violated in (\d+) of|(holds) in", answered)
    return "" if not found else "0" if found[3] else found[1] or found[2]


def row_of(program, given, file, key):
    """The row of a key, by a run of the scenario with it."""
    text, count = re.subn(rb"(?m)^key = \d+$", b"key = %d" % key, given)
    if count != 1:
        raise SystemExit("check_properties: a scenario to be swept has one line with its key")
    answers = re.findall(r"^line \d+: .*\n  (.*)$", answer(program, ["run", "--claims", file], text).out.decode(), re.M)
    return ",".join([str(key), *map(cell_of, answers)])


def swept(program, seed):
    draw = random.Random(f"{SEED} sweep {seed}")
    scenario, words = list(SWEPT.items())[seed % len(SWEPT)]
    given = (TOP / "examples" / scenario).read_bytes()
    names, text = ["key"], "# drawn\n"
    for line in range(2, LINES + 2):
        head, _first = form(draw)
        text += f"{head} {term(draw, words, {}, draw.randrange(4))[0]}\n"
        names.append(f"{'since' if 'eventually' in head else 'violated'}_{line}")
    first = draw.randrange(1000)
    with tempfile.NamedTemporaryFile("w", suffix=".claims") as file:
        file.write(text)
        file.flush()
        rows = [",".join(names), *(row_of(program, given, file.name, key) for key in range(first, first + KEYS))]
        asked = ["sweep", "--keys", f"{first}..{first + KEYS - 1}", "--claims", file.name]
        found = []
        for workers in ("1", "3"):
            got = without_note(answer(program, [*asked, "--workers", workers], given))
            wanted = "".join(f"{row}\n" for row in rows)
            if (got.status, got.out.decode(), got.err) != (0, wanted, b""):
                said = first_difference(got.out.decode(), wanted)
                found.append(f"sweep of {scenario} seed {seed}: {got.status} {got.err!r}\n{text}{said}")
    return found


def refused(program, case):
    text, wanted = case
    given = (TOP / "examples/four_clocks.toml").read_bytes()
    with tempfile.NamedTemporaryFile("w", suffix=".claims") as file:
        file.write(text)
        file.flush()
        for asked in (["run"], ["sweep", "--keys", "1..2"]):
            got = answer(program, [*asked, "--claims", file.name], given)
            line = got.out.decode()
            if got.status != 2 or not line.startswith(f"refused claims {wanted}") or b"note: line " not in got.err:
                return [f"{asked[0]} {text[:60]!r}: {got.status} {line!r} {got.err!r}, wanted {wanted}"]
    return []


def main():
    program = named_program()
    trials = [(example, name) for name in EXAMPLES]
    trials += [(drawn, seed) for seed in range(DRAWN)]
    trials += [(swept, seed) for seed in range(SWEEPS)]
    trials += [(refused, case) for case in WRONG + WRONG_ASSUMPTIONS]
    trials += [(assumed, case) for case in MET + UNMET] + [(unexplored, case) for case in UNMET]
    found = on_all_processors(lambda trial: trial[0](program, trial[1]), trials)
    counts = {"examples": len(EXAMPLES), "drawn files": DRAWN, "sweeps": SWEEPS}
    counts |= {"assumptions": len(MET) + len(UNMET), "refusals": len(WRONG) + len(WRONG_ASSUMPTIONS)}
    return tell("check_properties", counts, found)


if __name__ == "__main__":
    sys.exit(main())
