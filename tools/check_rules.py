#!/usr/bin/env python3
"""Compiles rules, runs them, and compares with a second implementation of their meaning: tools/check_rules.py [PROGRAM]
       check_rules.py --drawn NUMBER [PROGRAM]

Rules are those of examples/rules/, one of 2,048 lines and drawn ones. Each that compiles is verified, and run by `exec`
in drawn cases: the memory that it leaves and what it sends must be those of tools/rule_meaning.py. Texts with drawn
faults must be refused with the same error at the same place, or mean the same. Each rule of examples/rules/ compiles for
16 nodes, and all but two for 64. The text that crates/clock_rule proves is that of clock.rule. --drawn draws so many
rules; the gate tries fewer. PROGRAM is as for check_rows.py.
"""
import argparse
import random
import sys

sys.dont_write_bytecode = True
from built_program import TOP, answer, named_program, on_all_processors, tell
from rule_meaning import pulse
from rule_text import MAX_FRAMES, MAX_LOOKUPS, Reader, Refused

SEED, DRAWN, FAULTY, CASES = 9669, 300, 400, 3
NODES = (1, 4, 7)
PIECES = ["$", "x", "9" * 12, " ", "\n", "\t", *"( ) : , if else count least sorted mail table [ ] none = == to".split()]
OPERATORS = ["+", "-", "*", "/", "%", "==", "!=", "<", "<=", ">", ">=", "and", "or"]


def loops_in(names):
    """The names of nodes: those of loops, and of count, least and sorted."""
    return [it for it in names if it[0] in "ij"]


class Drawing:
    """Draws rules: two words of memory, tables, any number of lets, and loops that are at most one inside another."""

    def __init__(self, dice):
        self.dice, self.tables, self.lookups = dice, [], 0

    def number(self, names):
        leaves = ["0", "1", "2", "3", "4294967295", "n", "f", "M", "me", "coin", "none", "clock", "mark", *names]
        return self.dice.choice(leaves)

    def lookup(self, names):
        self.lookups += 1
        return f"{self.dice.choice(self.tables)}[{self.number(names)}]"

    def table(self, name):
        """A table of one cell or more, in runs of equal ones, on one line or several."""
        cells = []
        for _ in range(self.dice.choice([1, 2, 3, 9, 40])):
            cells += [self.dice.choice(["0", "1", "2", "4294967295", "none"])] * self.dice.choice([1, 1, 2, 5])
        return f"table {name} = [{self.dice.choice([', ', ',', ',' + chr(10)]).join(cells)}]\n"

    def term(self, names, depth):
        if self.tables and self.lookups < MAX_LOOKUPS and self.dice.random() < 0.1:
            return self.lookup(names)
        kind = self.dice.randrange(8) if depth else 0
        inner = lambda more=(): self.term([*names, *more], depth - 1)
        if kind < 2:
            return self.number(names)
        if kind == 2:
            return f"mail[{inner()}]"
        if kind == 3:
            return f"({inner()} if {inner()} else {inner()})"
        if kind == 4:
            name = f"i{depth}"
            word = self.dice.choice(["count", "least", f"sorted[{self.place(names)}]"])
            return f"({word} {name}: {inner([name])})"
        if kind == 5:
            return f"(not {inner()})"
        return f"({inner()} {self.dice.choice(OPERATORS)} {inner()})"

    def receiver(self, names):
        """Any term, or a constant: a number, the node of a loop, or computed of constants."""
        constants = ["0", "1", "3", "4294967295", "n", "n - 1", "(f + 1) % n", "2 * f - n", "(M > 7)"]
        return self.term(names, 1) if self.dice.random() < 0.5 else self.dice.choice([*constants, *loops_in(names)])

    def place(self, names):
        """A constant, which may be past the last node. Now and then it is another term, which is no place."""
        if self.dice.random() < 0.02:
            return self.term(names, 1)
        constants = ["0", "1", "2", "f", "n - 1", "(n - f) / 2", "n - f - 1", "f * (n > 3)", "n", "n + f", "f - 1", "none"]
        return self.dice.choice([*constants, *loops_in(names)])

    def statement(self, names, targets, indent, depth):
        front, term = "    " * indent, self.term(names, 2)
        kind = self.dice.randrange(6 if depth else 4)
        if kind == 0:
            return f"{front}{self.dice.choice(targets)} = {term}\n"
        if kind == 1:
            chosen = self.dice.sample(targets, self.dice.randint(2, len(targets)))
            terms = [term, *(self.term(names, 1) for _ in chosen[1:])]
            return f"{front}{', '.join(chosen)} = {', '.join(terms)}\n"
        if kind == 2:
            return f"{front}send {term}\n"
        if kind == 3:
            return f"{front}send {self.term(names, 1)} to {self.receiver(names)}\n"
        inner = lambda more=(): self.statement([*names, *more], targets, indent + 1, depth - 1)
        if kind == 4:
            return f"{front}if {term}:\n{inner()}{front}else:\n{inner()}"
        return f"{front}for j{indent}:\n{inner([f'j{indent}'])}"

    def rule(self):
        lets = [f"x{it}" for it in range(self.dice.choice([0, 1, 1, 2, 2, 3, 4, 5, 8, 40]))]
        self.tables, self.lookups = [f"t{it}" for it in range(self.dice.choice([0, 0, 1, 2]))], 0
        text = "".join(map(self.table, self.tables)) + "state mark\n"
        for number, name in enumerate(lets):
            text += f"let {name} = {self.term(lets[:number], 1 if number % 3 else 2)}\n"
        targets = ["clock", "mark", *lets]
        return text + "".join(self.statement(lets, targets, 0, 2) for _ in range(self.dice.randint(1, 4)))


# The sizes at which each rule of examples/rules/ compiles, and those at which some are too long (docs/RULES.md, "Limits of
# the compiler").
SIZES, MOST_NODES, TOO_LONG = (4, 7, 10, 16), 64, ("king", "middle")
# As many lines as a rule may have. One node is room enough for their code.
LONGEST = "for j:\n    clock = j + 1\n" * 1024


def samples():
    return [*(it.read_text(encoding="utf-8") for it in sorted(TOP.glob("examples/rules/*.rule"))), LONGEST]


def proved_text_faults():
    """Whether the text of which laws speak isn't the example."""
    example, source = TOP / "examples/rules/clock.rule", TOP / "crates/clock_rule/src/text.rt"
    is_same = f'b"{example.read_text(encoding="utf-8")}"' in source.read_text(encoding="utf-8")
    return [] if is_same else [f"{source}: its text isn't that of {example}"]


def sizes_of(nodes):
    return argparse.Namespace(nodes=nodes, faults=(nodes - 1) // 3, modulus=8, memory=16, id=0, coin=0)


def options_of(sizes):
    return [f"--{name}={getattr(sizes, name)}" for name in ("nodes", "memory", "faults", "modulus")]


def drawn_case(dice, sizes):
    """A node's number, coin, messages and memory."""
    number = lambda: dice.choice([0, 1, 2, 3, 7, 8, 4294967294, dice.randrange(2**32)])
    mail = [None if dice.random() < 0.2 else number() for _ in range(sizes.nodes)]
    memory = b"".join(number().to_bytes(4, "little") for _ in range(sizes.memory // 4))
    sizes.id, sizes.coin = dice.randrange(sizes.nodes), dice.randrange(2)
    return mail, memory


def listed(mail):
    return ",".join("-" if it is None else str(it) for it in mail)


def case_fault(program, image, text, sizes, case):
    mail, memory = case
    shape = options_of(sizes)
    words = ["exec", *shape[:2], f"--id={sizes.id}", f"--coin={sizes.coin}", f"--mail={listed(mail)}"]
    got = answer(program, [*words, f"--contents={memory.hex()}", "--show"], image).out.decode().split("\n")[1:3]
    left, sent = pulse(text.encode(), sizes, memory, mail)
    wanted = [f"memory {left.hex()}", f"sent {listed(sent)}"]
    return [] if got == wanted else [f"{words[1:]}: {got} in place of {wanted}:\n{text}"]


def size_faults(program, row):
    """Whether a rule of examples/rules/ doesn't compile where it should, or compiles where it shouldn't."""
    (path,) = row
    for nodes in (*SIZES, MOST_NODES):
        got = answer(program, ["compile", *options_of(sizes_of(nodes))], path.read_bytes())
        is_long = nodes == MOST_NODES and path.stem in TOO_LONG
        if got.out != b"refused rule TooLong\n" if is_long else got.status:
            yield f"{path.name} at {nodes} nodes: status {got.status}, {got.out[:80]}"


def refusal_of(text):
    """The line that rejects a text, by the second reader; None if it is a rule."""
    try:
        Reader(text.encode()).rule()
    except Refused as why:
        return f"{why}\n".encode()
    return None


def rule_faults(program, row):
    """What is wrong of a rule: its compilation, its verdict, its runs. One with no place of `sorted` is rejected."""
    text, seed = row
    dice = random.Random(seed)
    if refusal_of(text):
        yield from text_fault(program, (text,))
        return
    for nodes in NODES:
        sizes = sizes_of(nodes)
        got = answer(program, ["compile", *options_of(sizes)], text.encode())
        if got.out in (b"refused rule NoRoom\n", b"refused rule TooLong\n"):
            continue
        verdict = answer(program, ["verify", f"--nodes={nodes}", f"--memory={sizes.memory}"], got.out).out
        if got.status or not verdict.startswith(b"accepted "):
            yield f"{nodes} nodes: status {got.status}, {verdict[:80]}:\n{text}"
            continue
        for _ in range(CASES):
            yield from case_fault(program, got.out, text, sizes, drawn_case(dice, sizes))


def spoiled(dice, text):
    """The text with a piece put in, or with some bytes taken out."""
    at = dice.randrange(len(text) + 1)
    if dice.random() < 0.5:
        return text[:at] + dice.choice(PIECES) + text[at:]
    return text[:at] + text[at + dice.randint(1, 3) :]


def text_fault(program, row):
    """Whether a text is refused by the same error, or taken as well."""
    (text,) = row
    got, wanted = answer(program, ["compile", "--memory=256"], text.encode()), refusal_of(text)
    is_same = got.out == wanted if wanted else not got.out.startswith(b"refused rule ") or b" line " not in got.out
    return [] if is_same else [f"{got.out[:80]} in place of {wanted}:\n{text}"]


def drawn_rules():
    """How many rules are drawn: those of the gate, or as many as the command line says."""
    if sys.argv[1:2] != ["--drawn"]:
        return DRAWN
    if not sys.argv[2:] or not sys.argv[2].isdecimal():
        sys.exit(__doc__)
    drawn = int(sys.argv[2])
    del sys.argv[1:3]
    return drawn


def main():
    drawn = drawn_rules()
    program, dice = named_program(), random.Random(SEED)
    sys.setrecursionlimit(MAX_FRAMES)
    rules = [*samples(), *(Drawing(dice).rule() for _ in range(drawn))]
    texts = [spoiled(dice, dice.choice(rules)) for _ in range(FAULTY)]
    numbered = [(text, number) for number, text in enumerate(rules)]
    found = proved_text_faults()
    found += on_all_processors(lambda row: list(rule_faults(program, row)), numbered)
    found += on_all_processors(lambda row: text_fault(program, row), [(text,) for text in texts])
    paths = [(it,) for it in sorted(TOP.glob("examples/rules/*.rule"))]
    found += on_all_processors(lambda row: list(size_faults(program, row)), paths)
    return tell("check_rules", {"rules": len(rules), "texts with faults": len(texts)}, found)


if __name__ == "__main__":
    sys.exit(main())
