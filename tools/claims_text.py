"""Reads claims about all sizes of a rule (docs/ALL_SIZES.md), and says what they mean; all_sizes.py uses it."""
import dataclasses
import difflib
import re

from rule_text import (
    FIXED, LIMIT, MAX_LETTERS, NONE, TOKEN, Binary, Choice, Given, Inverse, Name, Number, Reader, Refused, unexpected,
)
from symbolic import KNOWN, WHOLE, Terms, all_of

SIZES = ("n", "f", "M")
ANY, SENT, BEFORE = "any", "sent", "before"
MAX_SHOWN, MAX_WITHIN = 120, 1_000_000
NODES = {"p": ("node", None), "q": ("node", None)}
# The forms of properties by their first words.
ALWAYS, EVENTUALLY, WITHIN = "always", "eventually", "within"
FORMS = (ALWAYS, EVENTUALLY, WITHIN)
# Words of rules' terms that properties don't have. Other words of rules are no names there.
NOT_OF_PROPERTIES = ("mail", "me", "coin", "clock", "count", "least", "sorted")
CONNECTIVES = ("if", "else", "or", "and", "not")


class ClaimsRefused(Refused):
    """An error of claims: as that of a rule."""

    def __str__(self):
        return super().__str__().replace("refused rule", "refused claims", 1)


@dataclasses.dataclass(frozen=True)
class Field:
    """A word of node p or q, or what it sent to all: p.clock, q.sent."""

    node: str
    word: str


@dataclasses.dataclass(frozen=True)
class OfRun:
    """What properties have of node p or q beside its words: p.me, p.before.clock."""

    node: str
    word: str
    place: tuple


@dataclasses.dataclass(frozen=True)
class Set:
    parameters: list
    term: object


@dataclasses.dataclass(frozen=True)
class Use:
    """A set with the numbers of its parameters. That of a property has no name."""

    name: str
    terms: list
    place: tuple
    own: Set = None


@dataclasses.dataclass(frozen=True)
class Step:
    """A step, or a property: the step from any state to where its term holds."""

    text: str
    line: int
    before: Use
    after: Use
    condition: object  # None without an `if`
    is_correct: bool  # nodes whose messages are read by number are correct
    coin: object  # None: any coins
    free: tuple  # names that are any numbers
    form: str = None  # the first word of a property
    uncovered: tuple = None  # the place of the first part of a property that no claim has


@dataclasses.dataclass(frozen=True)
class Claims:
    assumptions: list
    sets: dict
    steps: list

    def set_of(self, use):
        return use.own or self.sets[use.name]


class ClaimReader(Reader):
    """Reads claims; terms are those of rules, with words of p and q, and without counts and messages. `kind` is the
    first word of the line."""

    PATTERN = re.compile(TOKEN.pattern.replace(b"(?P<sign>", rb"(?P<sign>->|\.|"))
    HAS_BLOCKS = False

    def __init__(self, text, words):
        self.words, self.text, self.kind, self.free = [*words, SENT], text, None, None
        super().__init__(text)
        self.names = dict(NODES)

    def claims(self):
        if SENT in self.words[:-1]:
            raise Refused("NameTwice", self.now.place, "p.sent is what p sent: rename the rule's word sent")
        found = Claims([], {}, [])
        readers = {"assume": self.assumption, "set": self.set, "step": self.step, **dict.fromkeys(FORMS, self.property)}
        while self.now.kind != "stop":
            token = self.next()
            if token.kind != "name" or token.text not in readers:
                raise unexpected(token, alternatives(readers))
            self.kind = token.text
            readers[token.text](found, token)
            if self.now.kind != "end":
                raise unexpected(self.now, "an operator or the end of the line")
            self.next()
        if not found.steps:
            raise Refused("Expected", self.now.place, "no step and no property: expected a line such as step any -> Agree")
        for step in found.steps:
            check_use(step.before, found.sets)
            check_use(step.after, found.sets)
        return found

    def is_least(self):
        return False

    def assumption(self, found, _token):
        found.assumptions.append(self.term())

    def set(self, found, _token):
        token = self.expect_kind("name")
        if token.text in (ANY, *found.sets):
            raise Refused("NameTwice", token.place, f"{token.text} has a meaning already")
        parameters = []
        if self.at("["):
            parameters = self.listed(self.parameter)
        self.expect(":")
        found.sets[token.text] = Set(parameters, self.term())
        self.names = dict(NODES)

    def parameter(self):
        name = self.new_name()
        self.names[name] = "parameter", None
        return name

    def listed(self, read):
        self.next()
        found = [read()]
        while self.at(","):
            self.next()
            found.append(read())
        self.expect("]")
        return found

    def step(self, found, token):
        self.free = []
        before = self.use()
        self.expect("->")
        after = self.use()
        condition = self.clause(self.at("if"))
        is_correct = self.now.kind == "name" and self.now.text == "correct"
        if is_correct:
            self.next()
        coin = self.clause(self.at("coin"))
        text = self.text_from(token).removeprefix("step ")
        found.steps.append(Step(text, token.place[0], before, after, condition, is_correct, coin, tuple(self.free)))
        self.free = None

    def property(self, found, token):
        if BEFORE in self.words:
            raise Refused("NameTwice", token.place, "p.before has p's words before the pulse: rename the rule's word before")
        if token.text == EVENTUALLY:
            self.expect_name(ALWAYS)
        elif token.text == WITHIN:
            self.pulses()
        term = self.term()
        first, after = Use(ANY, [], token.place), Use("", [], token.place, Set([], term))
        outside = min(uncovered(term), default=None)
        text = self.text_from(token)
        found.steps.append(Step(text, token.place[0], first, after, None, False, None, (), token.text, outside))

    def pulses(self):
        token = self.next()
        if token.kind != "number":
            raise unexpected(token, "a number of pulses")
        if int(token.text) > MAX_WITHIN:
            raise Refused("OutOfRange", token.place)

    def clause(self, is_there):
        """The term after a word, if the word is there."""
        if not is_there:
            return None
        self.next()
        return self.term()

    def use(self):
        token = self.expect_kind("name")
        terms = self.listed(self.term) if self.at("[") else []
        return Use(token.text, terms, token.place)

    def text_from(self, token):
        """The line of claims that begins with a token and ends here, without comments."""
        lines = self.text.decode(errors="replace").split("\n")[token.place[0] - 1 : self.now.place[0]]
        return " ".join(word for it in lines for word in it.split("#")[0].split())

    def expect_name(self, *names):
        """A name, or one of these names."""
        token = self.next()
        if token.kind not in ("name", "word") or names and token.text not in names:
            raise unexpected(token, alternatives(names) if names else "a name")
        return token

    # ---- terms

    def any_term(self):
        if self.kind in FORMS:
            return self.choosing()
        if self.at("count"):
            raise Refused("Expected", self.now.place, "a count isn't part of claims: they have p.clock, p.sent")
        if self.at("sorted"):
            raise Refused("Expected", self.now.place, "sorted isn't part of claims: they have p.clock, p.sent")
        return super().any_term()

    def atom(self):
        if self.kind in FORMS:
            self.check_word()
        elif self.at("mail", "me", "coin", "clock"):
            raise Refused("Expected", self.now.place, f'"{self.now.text}" isn\'t part of claims: write p.clock, p.sent')
        return super().atom()

    def check_word(self):
        """Refuses a word of rules that properties don't have."""
        token = self.now
        if token.kind in ("name", "word") and token.text in NOT_OF_PROPERTIES:
            raise Refused("NotCovered", token.place, f"{quoted(token.text)} isn't part of properties: write p.clock, p.me")
        if token.kind == "word" and token.text not in (*FIXED, *CONNECTIVES):
            raise unknown(token, self.known())

    def known(self):
        return [*SIZES, *self.names, *(f"p.{it}" for it in self.words)]

    def named(self, token):
        if self.kind in FORMS:
            return self.property_name(token)
        if token.text in NODES and self.at("."):
            return self.field(token)
        if token.text in self.names and token.text not in NODES:
            return Name(token.text, "parameter", None, token.place)
        if token.text in NODES:
            raise Refused("Expected", token.place, f"write a word of the node, such as {token.text}.clock")
        if self.free is None:
            raise unknown(token, self.known())
        if token.text not in self.free:
            self.free.append(token.text)
        return Name(token.text, "free", None, token.place)

    def field(self, token):
        if self.kind != "set":
            raise Refused("Expected", token.place, "only sets and properties speak of p and q")
        self.next()
        return Field(token.text, self.word_in(self.words).text)

    def word_in(self, words):
        word = self.expect_name()
        if word.text not in words:
            raise unknown(word, words)
        return word

    def property_name(self, token):
        """A word of a node after the pulse or before it, or its number."""
        if token.text not in NODES:
            raise unknown(token, self.known())
        self.expect(".")
        words = self.words[:-1]
        word = self.word_in([*words, "me", BEFORE]).text
        if word in words:
            return Field(token.text, word)
        if word == BEFORE:
            self.expect(".")
            word = f"{BEFORE}.{self.word_in(words).text}"
        return OfRun(token.text, word, token.place)


def quoted(word):
    return f'"{word}"'


def alternatives(words):
    *others, last = map(quoted, words)
    return f"{', '.join(others)} or {last}" if others else last


def uncovered(term, is_side=False):
    """The places of the parts of a property's term that may be another number in claims, where numbers are whole."""
    if isinstance(term, (Number, Given, Field)):
        return
    is_test = isinstance(term, Inverse) or isinstance(term, Binary) and term.sign in (*KNOWN, "and", "or")
    if is_side or not is_test:
        yield term.place
    if isinstance(term, Inverse):
        yield from uncovered(term.inner)
    if isinstance(term, Binary):
        yield from uncovered(term.left, term.sign in KNOWN)
        yield from uncovered(term.right, term.sign in KNOWN)
    if isinstance(term, Choice):
        yield from uncovered(term.then)


def unknown(token, known):
    near = difflib.get_close_matches(token.text, known, 1)
    hint = f"; did you mean {near[0]}?" if near else ""
    return Refused("UnknownName", token.place, f"unknown name {token.text}{hint}")


def check_use(use, sets):
    if use.own or use.name == ANY and not use.terms:
        return
    if use.name not in sets:
        near = difflib.get_close_matches(use.name, [ANY, *sets], 1)
        hint = f"; did you mean {near[0]}?" if near else ""
        raise Refused("UnknownName", use.place, f"unknown set {use.name}{hint}")
    wanted = sets[use.name].parameters
    if len(wanted) != len(use.terms):
        has = f"{use.name}[{', '.join(wanted)}]" if wanted else f"{use.name} without brackets"
        raise Refused("Expected", use.place, f"the set is {has}")


def read_claims(text, words):
    """The claims of a text about a rule with these words. Raises ClaimsRefused."""
    try:
        return ClaimReader(text, words).claims()
    except Refused as why:
        raise ClaimsRefused(why.name, why.place, why.why) from None


WHY = {
    "BadCharacter": "no token begins with this byte, or a letter follows a number",
    "BadIndent": "lines of one block begin in one column",
    "OutOfRange": f"a number is at most {LIMIT - 1}, that of within at most {MAX_WITHIN}, and a name has at most "
    f"{MAX_LETTERS} letters",
    "TooDeep": "too many parts in one another, or too many names",
    "TooLong": "the line or the text has too many tokens",
}


def note_of(why, text):
    """Where an error is, and how to fix it: a line as the program's notes."""
    line, column = why.place
    code = text.decode(errors="replace").split("\n")[line - 1].split("#")[0].strip()
    shown = f"{code[:MAX_SHOWN]}; " if code else ""
    return f"note: line {line}, column {column}: {shown}{WHY.get(why.name) or why.why}"


# ---- meaning


class ClaimTerms(Terms):
    """Terms of claims, in whole numbers. `names` has a number for n, f, M, and each parameter, free name and field."""

    def __init__(self, names):
        self.names = names

    def given(self, term):
        return NONE if term.name == "none" else self.names[term.name]

    def name(self, term):
        return self.names[term.text]

    def leaf(self, term):
        return self.names[f"{term.node}.{term.word}"] if isinstance(term, Field) else super().leaf(term)

    def arithmetic(self, term, left, right):
        return WHOLE[term.sign](left, right)


def is_in(claims, use, names, p, q):
    """The condition that the states p and q are in a set; a state has a number for each word and for `sent`."""
    if use.name == ANY:
        return True
    found, terms = claims.set_of(use), ClaimTerms(names)
    inner = {it: names[it] for it in SIZES} | dict(zip(found.parameters, map(terms.value, use.terms)))
    inner |= {f"p.{word}": it for word, it in p.items()} | {f"q.{word}": it for word, it in q.items()}
    return ClaimTerms(inner).holds(found.term)


def are_in(claims, use, names, one, other):
    """The condition that two states are in a set in both orders."""
    return all_of(is_in(claims, use, names, one, other), is_in(claims, use, names, other, one))


def admits(claims, step, names):
    """The condition of `assume` and the step's `if`."""
    terms = ClaimTerms(names)
    conditions = [terms.holds(it) for it in claims.assumptions]
    return all_of(*conditions, terms.holds(step.condition) if step.condition is not None else True)
