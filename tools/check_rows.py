#!/usr/bin/env python3
"""Tries the rows of rows/*.txt on the built program (rows/README.md has their form).

usage: check_rows.py [PROGRAM [FILE[:SECTION]..]]

PROGRAM is the built `clockbed`; without it CLOCKBED_PROGRAM, or else the one of this checkout. Of a named FILE, as
rows/sweep.txt, only its rows are tried, and of a SECTION those below the comment `#### SECTION`. It prints each row that
differs, named by its file and line, and how many of each file were compared.
"""
import dataclasses
import re
import shlex
import sys

sys.dont_write_bytecode = True
from built_program import TOP, Answer, answer, named_program, on_all_processors, tell

MARK = re.compile(r"(====|----)(?: (.*))?\n")
COMMENT = "#### "
REPEATED = re.compile(r"^\\ (\d+) times: (.*\n)", re.M)
NO_LAST_LF = "\n\\ no LF at the end\n"
ANY = b"..."
MAX_SHOWN = 400


@dataclasses.dataclass
class Part:
    """A mark's place, its word, what stands behind it, the section that it is in, and the lines below."""

    place: str
    word: str
    rest: str
    section: str = ""
    text: str = ""

    def lines(self):
        """All lines, of which the first can stand behind the mark."""
        return (f"{self.rest}\n" if self.rest else "") + self.text


@dataclasses.dataclass
class Case:
    """Command lines, each with its place and section, that read the same and have one answer."""

    form: str = "text"
    given: str = ""
    lines: list = dataclasses.field(default_factory=list)
    wanted: Answer = dataclasses.field(default_factory=lambda: Answer(0, b"", b""))
    is_answered: bool = False


def part_of(place, mark, section):
    if mark[1] == "====":
        return Part(place, "asks", mark[2] or "", section)
    word, _, rest = (mark[2] or "").partition(" ")
    return Part(place, word, rest, section)


def parts_of(path):
    """The parts of a file, each without the empty lines at its end."""
    parts, section = [], ""
    for number, line in enumerate(path.read_text(encoding="utf-8").splitlines(keepends=True), 1):
        mark = MARK.fullmatch(line)
        if mark:
            parts.append(part_of(f"rows/{path.name}:{number}", mark, section))
        elif line.startswith(COMMENT):
            section = line.removeprefix(COMMENT).strip()
        elif parts:
            parts[-1].text += line
    for part in parts:
        text = part.text.rstrip("\n")
        part.text = f"{text}\n" if text else ""
    return parts


def spelled(text):
    """The bytes of a text, each repeated line as often as it says."""
    return REPEATED.sub(lambda it: it[2] * int(it[1]), text).removesuffix(NO_LAST_LF).encode()


def hexadecimal(text):
    return bytes.fromhex(spelled(text).decode())


def add_words(cases, part):
    """A further command line: of the last case, where that has no answer yet, or else of a new one."""
    if not cases or cases[-1].is_answered:
        before = cases[-1] if cases and part.word == "and" else Case()
        cases.append(Case(before.form, before.given))
    case = cases[-1]
    case.lines.append((part.place, part.section, shlex.split(part.rest, comments=True)))
    if part.word == "asks" and not case.given:
        case.given = part.text
    elif part.word == "asks" or part.text:
        sys.exit(f"{part.place}: the row above has no answer, or the input stands there")


def add_part(case, part):
    """What a case reads, or a part of its answer."""
    if part.word in ("image", "bytes"):
        rest = part.rest.replace("; ", "\n")
        case.form, case.given = part.word, dataclasses.replace(part, rest=rest).lines()
        return
    case.is_answered = True
    if part.word == "prints":
        case.wanted.out = spelled(part.lines())
    elif part.word == "gives":
        case.wanted.out = hexadecimal(part.lines())
    elif part.word == "says":
        case.wanted.err = spelled(part.lines())
    elif part.word == "status":
        case.wanted.status = int(part.rest)
    else:
        sys.exit(f"{part.place}: {part.word!r} is no part of a row")


def cases_of(path):
    cases = []
    for part in parts_of(path):
        if part.word in ("asks", "and"):
            add_words(cases, part)
        else:
            add_part(cases[-1], part)
    if not all(case.is_answered for case in cases):
        sys.exit(f"rows/{path.name}: the last row has no answer")
    return cases


def given_to(program, case):
    """The bytes that a case reads."""
    if case.form == "bytes":
        return hexadecimal(case.given)
    if case.form == "text":
        return spelled(case.given)
    made = answer(program, ["asm"], spelled(case.given))
    if made.status:
        sys.exit(f"{case.lines[0][0]}: the text has no image: {shown(made)}")
    return made.out


def fits(wanted, got):
    """Whether the bytes are those that are wanted, any for each "..."."""
    parts = (re.escape(part) for part in wanted.split(ANY))
    return re.fullmatch(b".*".join(parts), got, re.DOTALL) is not None


def is_wanted(wanted, got):
    return got.status == wanted.status and fits(wanted.out, got.out) and fits(wanted.err, got.err)


def shown(it):
    return f"status {it.status}, output {it.out[:MAX_SHOWN]!r}, errors {it.err[:MAX_SHOWN]!r}"


def rows_of(path, wanted=""):
    """The rows of a file, or of its wanted section."""
    lines = [(case, *line) for case in cases_of(path) for line in case.lines]
    return [(path.stem, case, place, words) for case, place, section, words in lines if wanted in ("", section)]


def named_rows(name):
    """The rows of FILE or FILE:SECTION."""
    file, _, section = name.partition(":")
    rows = rows_of(TOP / file, section)
    if not rows:
        sys.exit(f"{name}: there are no such rows")
    return rows


def main():
    program = named_program()
    every = [str(path.relative_to(TOP)) for path in sorted((TOP / "rows").glob("*.txt"))]
    rows = [row for name in sys.argv[2:] or every for row in named_rows(name)]

    def differences(row):
        _, case, place, words = row
        got = answer(program, words, given_to(program, case))
        if is_wanted(case.wanted, got):
            return []
        return [f"{place}: {shlex.join(words)}: {shown(got)} in place of {shown(case.wanted)}"]

    counts = {stem: sum(row[0] == stem for row in rows) for stem in dict.fromkeys(row[0] for row in rows)}
    return tell("check_rows", counts, on_all_processors(differences, rows))


if __name__ == "__main__":
    sys.exit(main())
