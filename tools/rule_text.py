"""Reads a rule as a tree, by docs/RULES.md: rule_meaning.py, all_sizes.py and others use it.

It is written from the page, apart from the compiler. A text that is no rule is refused by its first error, with line
and column.
"""
import dataclasses
import itertools
import re

WORDS = "state let if elif else for count send to and or not mail n f M me coin none clock table sorted".split()
TOKEN = re.compile(rb"(?P<number>[0-9]+)|(?P<name>[A-Za-z_][A-Za-z0-9_]*)|(?P<sign>==|!=|<=|>=|[-+*/%<>=,:()\[\]])")
NONE, LIMIT = 2**32 - 1, 2**32
MAX_LETTERS, MAX_PARTS, MAX_NAMES, MAX_LINES, MAX_TOKENS = 32, 200, 200, 2048, 1000
MAX_CELLS, MAX_LOOKUPS = 1024, 64
# A table with so many cells: the four tokens before them, each with a comma or the bracket after it.
MAX_TABLE_TOKENS = 4 + 2 * MAX_CELLS
# Frames of a reader that is as deep as a rule may be.
MAX_FRAMES = 20_000
FIXED = ("n", "f", "M", "me", "coin", "none")
DEEPER = {"(": 1, "[": 1, ")": -1, "]": -1}
KINDS = {"end": "the end of the line", "in": "a deeper line", "name": "a name"}
COMPARISONS, PRODUCTS = ("==", "!=", "<", "<=", ">", ">="), ("*", "/", "%")


class Refused(Exception):
    """An error of a text: its name, its line and its column."""

    def __init__(self, name, place, why=""):
        super().__init__(f"refused rule {name} line {place[0]} column {place[1]}")
        self.name, self.place, self.why = name, place, why


# ---- trees. The kind of a name is "word" (of the memory), "let" or "node"; a place is a line and a column.


@dataclasses.dataclass(frozen=True)
class Number:
    value: int


@dataclasses.dataclass(frozen=True)
class Given:
    name: str  # one of FIXED
    place: tuple


@dataclasses.dataclass(frozen=True)
class Name:
    text: str
    kind: str
    word: int  # its place in the memory, if it is a word
    place: tuple


@dataclasses.dataclass(frozen=True)
class Mail:
    sender: object
    place: tuple


@dataclasses.dataclass(frozen=True)
class Count:
    node: str
    test: object
    place: tuple


@dataclasses.dataclass(frozen=True)
class Least:
    node: str
    test: object
    place: tuple


@dataclasses.dataclass(frozen=True)
class Sorted:
    """The number at a place, from 0 on, among those of an item at all nodes in rising order; `none` past the last."""

    node: str
    at: object  # a constant
    item: object
    place: tuple


@dataclasses.dataclass(frozen=True)
class Lookup:
    """A cell of a table; `none` past its end."""

    cells: tuple
    index: object
    place: tuple

    def runs(self):
        """The first place and the number of each run of equal cells. The last one is past the end, too."""
        found, place = [], 0
        for value, run in itertools.groupby((*self.cells, NONE)):
            found.append((place, value))
            place += len(list(run))
        return found

    def choices(self):
        """The choices as which the compiler reads the lookup: a search by halves for the run of the index."""
        return self.choices_of(self.runs())

    def choices_of(self, runs):
        if len(runs) == 1:
            return Number(runs[0][1])
        half = len(runs) // 2
        test = Binary("<", self.index, Number(runs[half][0]), self.place)
        return Choice(test, self.choices_of(runs[:half]), self.choices_of(runs[half:]), self.place)


@dataclasses.dataclass(frozen=True)
class Inverse:
    inner: object
    place: tuple


@dataclasses.dataclass(frozen=True)
class Binary:
    sign: str  # of arithmetic or of a comparison, "and" or "or"
    left: object
    right: object
    place: tuple


@dataclasses.dataclass(frozen=True)
class Choice:
    """A term: `then` if the test holds, otherwise `other`."""

    test: object
    then: object
    other: object
    place: tuple


@dataclasses.dataclass(frozen=True)
class Let:
    name: str
    term: object


@dataclasses.dataclass(frozen=True)
class Assignment:
    targets: list  # of Name
    terms: list


@dataclasses.dataclass(frozen=True)
class Send:
    term: object
    receiver: object  # None: to all nodes
    place: tuple


@dataclasses.dataclass(frozen=True)
class Cases:
    """A statement: does the first block whose test holds. The test of `else` is 1."""

    cases: list


@dataclasses.dataclass(frozen=True)
class Loop:
    node: str
    body: list
    place: tuple


@dataclasses.dataclass(frozen=True)
class Rule:
    words: list  # their names, in the order of the memory
    body: list


def is_constant(term):
    """Whether a term is a number, a size, the node of a loop, or computed of constants."""
    if isinstance(term, Lookup):
        return len(term.runs()) == 1  # the compiler reads it as a number
    if isinstance(term, Binary):
        return term.sign not in ("and", "or") and is_constant(term.left) and is_constant(term.right)
    if isinstance(term, Given):
        return term.name not in ("me", "coin")
    return isinstance(term, Number) or isinstance(term, Name) and term.kind == "node"


def parts_of(tree):
    """A tree and all that is in it."""
    if isinstance(tree, (list, tuple)):
        for part in tree:
            yield from parts_of(part)
    elif dataclasses.is_dataclass(tree):
        yield tree
        yield from parts_of([getattr(tree, it.name) for it in dataclasses.fields(tree)])


@dataclasses.dataclass
class Token:
    kind: str  # number, name, word, sign, end, in, out, stop, stray, or fault: no token, for the error of that name
    text: str
    place: tuple


def tokens_of(text, pattern, has_blocks):
    """The tokens of a text, up to the first fault: the reader refuses it when it comes there."""
    try:
        yield from sound_tokens(text, pattern, has_blocks)
    except Refused as why:
        yield Token("fault", why.name, why.place)


def sound_tokens(text, pattern, has_blocks):
    """The tokens of a text, line by line. `in` and `out` are those of blocks; `end` is where a line has ended.

    Without blocks a line begins in any column, and has ended after its blanks and its comment.
    """
    columns, depth, lines, count, ended = [], 0, 0, 0, (1, 1)
    most, lookups, before = MAX_TOKENS, 0, ""
    for number, line in enumerate(text.split(b"\n"), 1):
        code = line.split(b"#")[0]
        column = len(code) - len(code.lstrip(b" "))
        found = list(tokens_in(code, column, number, pattern))
        if found and depth == 0:
            place = found[0].place
            if lines:
                yield Token("end", "end of line", ended)
            if has_blocks and code[column : column + 1] in b"\t\r":
                raise Refused("BadIndent", place)
            if lines == MAX_LINES:
                raise Refused("TooLong", place)
            if has_blocks:
                yield from indented(columns, column, place, not lines)
            lines, count = lines + 1, 0
            most = MAX_TABLE_TOKENS if is_word(found[0], "table") else MAX_TOKENS
        for token in found:
            if token.kind == "fault":
                raise Refused(token.text, token.place)
            lookups += token.text == "[" and before == "name"
            if count == most or lookups > MAX_LOOKUPS:
                raise Refused("TooLong", token.place)
            before = token.kind
            depth, count = max(depth + DEEPER.get(token.text, 0), 0), count + 1
            ended = number, token.place[1] + len(token.text)
            yield token
        if found and not has_blocks:
            ended = number, len(line) + 1
    last = ended if has_blocks else (number, len(line) + 1)
    if lines:
        yield Token("end", *(("end of text", last) if depth else ("end of line", ended)))
    yield from (Token("out", "end of block", ended) for _ in columns[1:])
    yield Token("stop", "end of text", last)


def indented(columns, column, place, is_first):
    """The blocks that a line begins or ends."""
    if is_first:
        columns[:] = [column]
    elif column > columns[-1]:
        columns.append(column)
        yield Token("in", "deeper line", place)
    while column < columns[-1]:
        columns.pop()
        if not columns or column > columns[-1]:
            yield Token("stray", "line of no block's column", place)
            columns.append(column)
        yield Token("out", "end of block", place)


def tokens_in(code, at, number, pattern):
    """The tokens of a line, up to the first fault."""
    try:
        while at < len(code):
            if code[at : at + 1] in b" \t\r":
                at += 1
                continue
            token, at = token_at(code, at, (number, at + 1), pattern)
            yield token
    except Refused as why:
        yield Token("fault", why.name, why.place)


def token_at(code, at, place, pattern):
    found = pattern.match(code, at)
    if not found:
        raise Refused("BadCharacter", place)
    kind, text = found.lastgroup, found[0].decode()
    if kind == "number" and int(text) >= LIMIT or kind == "name" and len(text) > MAX_LETTERS:
        raise Refused("OutOfRange", place)
    if kind == "name" and code[at - 1 : at].isdigit():
        raise Refused("BadCharacter", place)
    return Token("word" if text in WORDS else kind, text, place), found.end()


def unexpected(token, wanted=""):
    """The error of a token where another one has to be."""
    names = {"fault": token.text, "in": "BadIndent", "stray": "BadIndent"}
    found = token.text if token.kind in ("end", "in", "out", "stop") else f'"{token.text}"'
    return Refused(names.get(token.kind, "Expected"), token.place, f"expected {wanted}, found {found}")


def is_word(token, text):
    return token.kind == "word" and token.text == text


class Reader:
    """Reads a rule as a tree."""

    PATTERN = TOKEN
    # Whether deeper lines are blocks.
    HAS_BLOCKS = True

    def __init__(self, text):
        self.tokens, self.now = tokens_of(text, self.PATTERN, self.HAS_BLOCKS), None
        self.parts, self.blocks = 0, 0
        self.after = next(self.tokens)
        self.names = {"clock": ("word", 0)}
        self.next()

    def next(self):
        before, self.now = self.now, self.after
        self.after = next(self.tokens, self.now)  # the last token stays
        return before

    def at(self, *texts):
        return self.now.kind in ("word", "sign") and self.now.text in texts

    def expect(self, text):
        if not self.at(text):
            raise unexpected(self.now, f'"{text}"')
        return self.next()

    def expect_kind(self, kind):
        if self.now.kind != kind:
            raise unexpected(self.now, KINDS[kind])
        return self.next()

    def within(self, read):
        """Reads a part that is inside another one."""
        self.parts += 1
        if self.parts > MAX_PARTS:
            raise Refused("TooDeep", self.now.place)
        found = read()
        self.parts -= 1
        return found

    # ---- names

    def new_name(self):
        token = self.next()
        if token.kind != "name":
            raise unexpected(token, "a new name")
        if token.text in self.names:
            raise Refused("NameTwice", token.place, f"{token.text} has a meaning already")
        if len(self.names) > MAX_NAMES:
            raise Refused("TooDeep", token.place)
        return token.text

    def in_scope(self, name, meaning, read):
        self.names[name] = meaning
        found = read()
        del self.names[name]
        return found

    # ---- statements

    def rule(self):
        words = ["clock"]
        while self.at("state", "table"):
            if self.next().text == "table":
                self.table()
            else:
                self.state(words)
            self.expect_kind("end")
        return Rule(words, self.statements_to("stop"))

    def state(self, words):
        while True:
            name = self.new_name()
            self.names[name] = "word", len(words)
            words.append(name)
            if not self.at(","):
                break
            self.next()

    def table(self):
        name = self.new_name()
        self.expect("=")
        self.expect("[")
        cells = [self.cell()]
        while self.at(","):
            self.next()
            cells.append(self.cell())
        self.expect("]")
        self.names[name] = "table", tuple(cells)

    def cell(self):
        token = self.next()
        if token.kind == "number":
            return int(token.text)
        if is_word(token, "none"):
            return NONE
        raise unexpected(token, 'a number or "none"')

    def statements_to(self, kind):
        """The statements of a block."""
        made, names = [], list(self.names)
        while self.now.kind != kind:
            made.append(self.statement())
        for name in [it for it in self.names if it not in names]:
            del self.names[name]
        return made

    def statement(self):
        if self.at("for"):
            return self.loop()
        if self.at("if"):
            return self.choice()
        found = self.simple()
        self.expect_kind("end")
        return found

    def block(self):
        self.expect(":")
        if self.now.kind != "end":
            names = list(self.names)
            found = self.simple()
            self.expect_kind("end")
            for name in [it for it in self.names if it not in names]:
                del self.names[name]
            return [found]
        end = self.next()
        if self.now.kind == "fault" and self.now.text in ("BadIndent", "TooLong"):
            raise unexpected(self.now)
        if self.now.kind != "in":
            raise Refused("Expected", end.place, f"expected {KINDS['in']}, found {end.text}")
        self.next()
        self.blocks += 1
        if self.blocks > MAX_PARTS:
            raise Refused("TooDeep", self.now.place)
        found = self.statements_to("out")
        self.blocks -= 1
        self.next()
        return found

    def loop(self):
        place = self.next().place
        name = self.new_name()
        return Loop(name, self.in_scope(name, ("node", None), self.block), place)

    def choice(self):
        cases = []
        while True:
            self.next()
            test = self.term()
            cases.append((test, self.block()))
            if not self.at("elif"):
                break
        if self.at("else"):
            self.next()
            cases.append((Number(1), self.block()))
        return Cases(cases)

    def simple(self):
        if self.at("let"):
            self.next()
            name = self.new_name()
            self.expect("=")
            term = self.term()
            self.names[name] = "let", None
            return Let(name, term)
        if self.at("send"):
            return self.send(self.next().place)
        return self.assignment()

    def send(self, place):
        term = self.term()
        if not self.at("to"):
            return Send(term, None, place)
        self.next()
        return Send(term, self.term(), place)

    def assignment(self):
        targets = [self.target([])]
        while self.at(","):
            self.next()
            targets.append(self.target(targets))
        self.expect("=")
        terms = [self.term()]
        for _ in targets[1:]:
            self.expect(",")
            terms.append(self.term())

        return Assignment(targets, terms)

    def target(self, before):
        token = self.next()
        if token.kind == "word" and token.text in FIXED:
            raise Refused("NotAssignable", token.place, f"{token.text} can't be set")
        if token.kind != "name" and not is_word(token, "clock"):
            raise unexpected(token, "a name")
        meaning = self.names.get(token.text)
        if meaning is None:
            raise Refused("UnknownName", token.place, f"unknown name {token.text}")
        if meaning[0] in ("node", "table"):
            raise Refused("NotAssignable", token.place, f"{token.text} can't be set")
        if token.text in [it.text for it in before]:
            raise Refused("NameTwice", token.place, f"{token.text} is set twice")
        return Name(token.text, *meaning, token.place)

    # ---- terms

    def term(self):
        return self.within(self.any_term)

    def any_term(self):
        if self.at("count"):
            return self.aggregate(Count)
        if self.is_least():
            return self.aggregate(Least)
        if self.at("sorted"):
            return self.sorted()
        return self.choosing()

    def choosing(self):
        first = self.either()
        if not self.at("if"):
            return first
        place = self.next().place
        test = self.either()
        self.expect("else")
        return Choice(test, first, self.term(), place)

    def is_least(self):
        """Whether `least` is a word here: it isn't reserved, and is one if a name follows."""
        return self.now.kind == self.after.kind == "name" and self.now.text == "least"

    def aggregate(self, kind):
        place = self.next().place
        name = self.new_name()
        self.expect(":")
        return kind(name, self.in_scope(name, ("node", None), self.term), place)

    def sorted(self):
        place = self.next().place
        self.expect("[")
        begins = self.now.place
        at = self.term()
        if not is_constant(at):
            raise Refused("Expected", begins, "expected a constant, such as f or n - 1")
        self.expect("]")
        name = self.new_name()
        self.expect(":")
        return Sorted(name, at, self.in_scope(name, ("node", None), self.term), place)

    def chain(self, part, signs):
        """Parts with signs between them, from the left."""
        made = part()
        while self.at(*signs):
            sign = self.next()
            made = Binary(sign.text, made, part(), sign.place)
        return made

    def either(self):
        return self.chain(self.both, ["or"])

    def both(self):
        return self.chain(self.inverse, ["and"])

    def inverse(self):
        if not self.at("not"):
            return self.compare()
        place = self.next().place
        return Inverse(self.within(self.inverse), place)

    def compare(self):
        left = self.sum()
        if not self.at(*COMPARISONS):
            return left
        sign = self.next()
        return Binary(sign.text, left, self.sum(), sign.place)

    def sum(self):
        return self.chain(self.product, ["+", "-"])

    def product(self):
        return self.chain(self.atom, PRODUCTS)

    def atom(self):
        token = self.next()
        if token.kind == "number":
            return Number(int(token.text))
        if token.kind == "name" or is_word(token, "clock"):
            return self.named(token)
        if token.kind == "word" and token.text in FIXED:
            return Given(token.text, token.place)
        if is_word(token, "mail"):
            self.expect("[")
            sender = self.term()
            self.expect("]")
            return Mail(sender, token.place)
        if token.kind == "sign" and token.text == "(":
            inner = self.term()
            self.expect(")")
            return inner
        raise unexpected(token, "a term, such as a number or a name")

    def named(self, token):
        meaning = self.names.get(token.text)
        if meaning is None:
            raise Refused("UnknownName", token.place, f"unknown name {token.text}")
        if meaning[0] == "table":
            return self.lookup(meaning[1], token.place)
        return Name(token.text, *meaning, token.place)

    def lookup(self, cells, place):
        self.expect("[")
        index = self.index()
        self.expect("]")
        return Lookup(cells, index, place)

    def index(self):
        """One word, so that each step of a search by halves can have it."""
        token = self.now
        is_given = token.kind == "word" and token.text in (*FIXED, "clock")
        is_table = token.kind == "name" and self.names.get(token.text, ("",))[0] == "table"
        if is_table or not (is_given or token.kind in ("number", "name")):
            raise unexpected(token, "a number, a name or a word such as me")
        return self.atom()
