#!/usr/bin/env python3
"""Does what a rule means in one pulse, by docs/RULES.md: tools/rule_meaning.py [OPTION..] [FILE]

Prints the memory that the rule leaves, and the messages that it sends, as `clockbed exec --show` does. It is written
from the page, apart from the compiler. A text that is no rule is refused by its first error, with line and column.

  --nodes N --faults F --modulus M --memory BYTES   sizes [defaults: 4, 1, 8, 16]
  --id NODE --coin BIT --mail LIST --contents HEX   the case, as of `clockbed exec` [defaults: 0, 0, none, zeros]
"""
import argparse
import dataclasses
import sys

sys.dont_write_bytecode = True
import rule_text as tree
from rule_text import LIMIT, MAX_FRAMES, NONE, Reader, Refused

OPERATIONS = {
    "==": lambda a, b: int(a == b),
    "!=": lambda a, b: int(a != b),
    "<": lambda a, b: int(a < b),
    "<=": lambda a, b: int(a <= b),
    ">": lambda a, b: int(a > b),
    ">=": lambda a, b: int(a >= b),
    "and": lambda a, b: int(a != 0 and b != 0),
    "or": lambda a, b: int(a != 0 or b != 0),
    "+": lambda a, b: (a + b) % LIMIT,
    "-": lambda a, b: (a - b) % LIMIT,
    "*": lambda a, b: (a * b) % LIMIT,
    "/": lambda a, b: a // b if b else 0,
    "%": lambda a, b: a % b if b else a,
}


@dataclasses.dataclass
class State:
    """What the statements so far have made, and what the node holds and hears."""

    sizes: argparse.Namespace
    memory: bytearray
    mail: list
    sent: list
    lets: dict = dataclasses.field(default_factory=dict)
    nodes: dict = dataclasses.field(default_factory=dict)

    def fixed(self, name):
        sizes = self.sizes
        values = {"n": sizes.nodes, "f": sizes.faults, "M": sizes.modulus, "me": sizes.id, "coin": sizes.coin}
        return values.get(name, NONE)

    def received(self, node):
        found = self.mail[node] if node < self.sizes.nodes else None
        return NONE if found is None else found

    def word(self, word):
        return int.from_bytes(self.memory[4 * word : 4 * word + 4], "little")

    def set(self, target, value):
        if target.kind == "word":
            self.memory[4 * target.word : 4 * target.word + 4] = value.to_bytes(4, "little")
        else:
            self.lets[target.text] = value

    def send(self, node, value):
        if node < self.sizes.nodes:
            self.sent[node] = value

    def send_all(self, value):
        self.sent = [value] * self.sizes.nodes


# ---- terms, each a function of a state


def number(term):
    return lambda state: term.value


def given(term):
    return lambda state: state.fixed(term.name)


def named(term):
    if term.kind == "word":
        return lambda state: state.word(term.word)
    return lambda state: (state.nodes if term.kind == "node" else state.lets)[term.text]


def mail(term):
    sender = value_of(term.sender)
    return lambda state: state.received(sender(state))


def count(term):
    test = value_of(term.test)

    def value(state):
        found = 0
        for node in range(state.sizes.nodes):
            state.nodes[term.node] = node
            found += test(state) != 0
        return found

    return value


def least(term):
    test = value_of(term.test)

    def value(state):
        found = NONE
        for node in range(state.sizes.nodes):
            state.nodes[term.node] = node
            if test(state):
                found = min(found, state.received(node))
        return found

    return value


def ranked(term):
    at, item = value_of(term.at), value_of(term.item)

    def value(state):
        place, found = at(state), []
        for node in range(state.sizes.nodes):
            state.nodes[term.node] = node
            found.append(item(state))
        return sorted(found)[place] if place < len(found) else NONE

    return value


def lookup(term):
    index = value_of(term.index)

    def value(state):
        place = index(state)
        return term.cells[place] if place < len(term.cells) else NONE

    return value


def inverse(term):
    inner = value_of(term.inner)
    return lambda state: int(inner(state) == 0)


def binary(term):
    left, right, join = value_of(term.left), value_of(term.right), OPERATIONS[term.sign]
    return lambda state: join(left(state), right(state))


def choice(term):
    test, then, other = value_of(term.test), value_of(term.then), value_of(term.other)
    return lambda state: then(state) if test(state) else other(state)


TERMS = {
    tree.Number: number, tree.Given: given, tree.Name: named, tree.Mail: mail, tree.Count: count,
    tree.Least: least, tree.Sorted: ranked, tree.Lookup: lookup, tree.Inverse: inverse, tree.Binary: binary,
    tree.Choice: choice,
}


def value_of(term):
    return TERMS[type(term)](term)


# ---- statements, each a function that changes a state


def let(statement):
    term = value_of(statement.term)
    return lambda state: state.lets.__setitem__(statement.name, term(state))


def assignment(statement):
    terms = [value_of(it) for it in statement.terms]

    def act(state):
        for target, value in zip(statement.targets, [term(state) for term in terms]):
            state.set(target, value)

    return act


def send(statement):
    term = value_of(statement.term)
    if statement.receiver is None:
        return lambda state: state.send_all(term(state))
    receiver = value_of(statement.receiver)
    return lambda state: state.send(receiver(state), term(state))


def cases(statement):
    tried = [(value_of(test), block(body)) for test, body in statement.cases]

    def act(state):
        for test, body in tried:
            if test(state):
                body(state)
                return

    return act


def loop(statement):
    body = block(statement.body)

    def act(state):
        for node in range(state.sizes.nodes):
            state.nodes[statement.node] = node
            body(state)

    return act


STATEMENTS = {
    tree.Let: let, tree.Assignment: assignment, tree.Send: send, tree.Cases: cases, tree.Loop: loop,
}


def block(statements):
    made = [STATEMENTS[type(it)](it) for it in statements]
    return lambda state: [act(state) for act in made]


def action_of(rule):
    """What a rule does in one pulse: a function that changes a state."""
    return block(rule.body)


def pulse(text, sizes, memory, mail):
    """The memory that a rule leaves, and what it sends to each node."""
    rule = Reader(text).rule()
    if 4 * len(rule.words) > len(memory) and len(rule.words) > 1:
        sys.exit("refused rule NoRoom")
    state = State(sizes, bytearray(memory), mail, [None] * sizes.nodes)
    action_of(rule)(state)
    return bytes(state.memory), state.sent


def options_of(words):
    parser = argparse.ArgumentParser(description=__doc__, formatter_class=argparse.RawDescriptionHelpFormatter)
    for name, default in [("nodes", 4), ("faults", 1), ("modulus", 8), ("memory", 16), ("id", 0), ("coin", 0)]:
        parser.add_argument(f"--{name}", type=int, default=default)
    parser.add_argument("--mail", default="")
    parser.add_argument("--contents", default="")
    parser.add_argument("file", nargs="?", type=argparse.FileType("rb"), default=sys.stdin.buffer)
    return parser.parse_args(words)


def main(words):
    options = options_of(words)
    sys.setrecursionlimit(MAX_FRAMES)
    mail = [None if it == "-" else int(it) for it in options.mail.split(",") if it] or [None] * options.nodes
    if len(mail) != options.nodes:
        sys.exit("rule_meaning: --mail needs a number or - for each node")
    memory = bytes.fromhex(options.contents).ljust(options.memory, b"\0")
    try:
        memory, sent = pulse(options.file.read(), options, memory, mail)
    except Refused as why:
        print(why)
        return 2
    print("memory", memory.hex())
    print("sent", ",".join("-" if it is None else str(it) for it in sent))
    return 0


if __name__ == "__main__":
    sys.exit(main(sys.argv[1:]))
