#!/usr/bin/env python3
"""Draws 200 edits of valid scenarios, rules and texts, and applies what the notes suggest: check_slips.py [PROGRAM]

The inputs are those of examples/. Each edit is a slip as beginners make them, as a word with two letters swapped, a
missing comma or a word of another language, after which the program rejects the text. The note has to name a line, and
a column or the unknown key. A line with a mark below the note has to be the one that the note names, and the mark has
to be at its column. If the note suggests a fix, this is applied at the place, up to four times; at least half of all
slips have to be accepted then. The draw is by a fixed seed. PROGRAM is as for check_rows.py; with `--all` after it the
notes are printed that lead to no accepted text.
"""
import dataclasses
import random
import re
import sys

sys.dont_write_bytecode = True
from built_program import TOP, answer, named_program, on_all_processors

SEED = 7
COUNT = {"scenario": 80, "rule": 60, "text": 60}
WORDS = {"scenario": ["run"], "rule": ["compile"], "text": ["asm"]}
ROUNDS = 4
MAX_TRIES = 5_000
# Half as many again are drawn, since some are no error.
SPARE = 2
NOTE = re.compile(r"note: (?:line (\d+)(?:, column (\d+))?: )?(.*)\n(?:(.*)\n([ \t]*)\^\n)?")
TEXT_LINE = re.compile(r"line (\d+) of the text: ")
COLUMN = re.compile(r"; column (\d+): ")
WRITTEN = re.compile(r'write "(.+?)" in place of "(.+?)"(?=$|[,;])')
QUOTED = re.compile(r'a word is in quotes: "(\w+)"')
MEANT = re.compile(r'did you mean "?(\w+)"?\?')
UNKNOWN = re.compile(r"unknown (?:key|name) (\w+)|has the name (\w+); did")
HEAD = re.compile(r'in place of "(\[\w+\])", above each entry')
MISSING = re.compile(r"(\w+) is missing, and (\w+) is no key")


def swapped(found, draw):
    """The word with two neighbouring letters that differ in each other's place."""
    word = found[0]
    places = [i for i in range(len(word) - 1) if word[i] != word[i + 1]]
    if not places:
        return word
    i = draw.choice(places)
    return word[:i] + word[i + 1] + word[i] + word[i + 2 :]


def swapped_last(found, draw):
    """The same of the last word that is found."""
    return found[1] + swapped([found[2]], draw)


def shortened(found, draw):
    """The word without one of its letters."""
    i = draw.randrange(len(found[0]))
    return found[0][:i] + found[0][i + 1 :]


def to(text):
    return lambda found, draw: found.expand(text)


KEY = r"(?m)^[a-z]{4,}(?= =)"
SLIPS = {
    "scenario": [
        (KEY, swapped),
        (KEY, shortened),
        (r'(?m)(?<= = ")[a-z]{3,}(?="$)', swapped),
        (r"(?m)^(\w+) =(?= [\d\"])", to(r"\1:")),
        (r'(?m)^(\w+ = )"([a-z]+)"$', to(r"\1\2")),
        (r"(?m)^\[\[(\w+)\]\]", to(r"[\1]")),
        (r"(?m)(?<=^\[\[)\w+", swapped),
        (r"(?m)^(nodes|faults|modulus|memory|pulses) = (\d+)$", to(r"\1 = 99999")),
        (r"(?m)^(nodes|modulus|memory) = (\d+)$", to(r"\1 = \2.5")),
        (r"(?m)^(nodes|modulus|memory) = (\d+)$", to(r'\1 = "\2"')),
    ],
    "rule": [
        (r"(?m)(?<=^)(?:else|elif|state|send|let|if|for|clock)\b", swapped),
        (r"(?m)^([^#\n]* )(clock|coin|none|count|else|and)\b", swapped_last),
        (r"\belif\b", to("else if")),
        (r"\band\b", to("&&")),
        (r"\bor\b", to("||")),
        (r"\bnot ", to("!")),
        (r"!=", to("<>")),
        (r"\bmail\[(\w+)\]", to(r"mail(\1)")),
        (r"(?m)^( *)let (?=\w+ =)", to(r"\1")),
        (r"(?m)^( *)let\b", to(r"\1var")),
        (r"(?m)^( *(?:let )?\w+) = ", to(r"\1 := ")),
        (r"(?m)^( *(?:let )?\w+) = ", to(r"\1 == ")),
        (r"\bif (.*?) == ", to(r"if \1 = ")),
        (r"# ", to("// ")),
        (r"\bnone\b", to("-1")),
        (r"\bn\b", to("N")),
        (r"% M\b", to("% m")),
        (r"\bfor (\w+):", to(r"for \1 in range(n):")),
        (r"(?<= )([01])(?=[:,\s])", lambda found, draw: "true" if found[1] == "1" else "false"),
    ],
    "text": [
        (r"(?m)(?<=^)( *)(\w+)(64|32)(?= )", to(r"\1\2")),
        (r"(?<=[ \n])[a-z]{2,}(?:64|32)?(?= )", swapped),
        (r", (?=r\d|\d)", to(" ")),
        (r"\[(r\d+)\+0\]", to(r"[\1]")),
        (r"\[(r\d+[+-]\d+)\]", to(r"[ \1 ]")),
        (r"\[(r\d+[+-]\d+)\]", to(r"(\1)")),
        (r"\br(\d+)\b", to(r"R\1")),
        (r"\br(\d+)\b", to(r"%r\1")),
        (r"\bexit\b", to("ret")),
        (r"\bexit\b", to("EXIT")),
        (r"\bexit\b", to("exit 0")),
        (r"\bja ", to("jmp ")),
        (r"(?<=call )[a-z]{4}\b", shortened),
        (r"(?m)^( *\w+ .*[^;])$", to(r"\1;")),
    ],
}


@dataclasses.dataclass
class Slip:
    """A rejected text, and how it came about."""

    kind: str
    name: str
    text: str


@dataclasses.dataclass
class Told:
    """What came of a slip."""

    slip: Slip
    note: str
    has_line: bool
    has_column: bool
    has_fix: bool
    is_accepted: bool
    has_mark: bool = False
    is_mark_wrong: bool = False

    def has_place(self):
        """Whether the note names a line and a column, or the very key on the line."""
        return self.has_line and (self.has_column or "unknown key" in self.note)


def named_texts(program):
    """Valid inputs of examples/, by kind, each with its name: scenarios are those with a report."""
    examples = TOP / "examples"
    reports = [it for it in sorted(examples.glob("*.report")) if not it.read_bytes().startswith(b"refused")]
    paths = {
        "scenario": [it.with_suffix(".toml") for it in reports],
        "rule": sorted((examples / "rules").glob("*.rule")),
        "text": [examples / "seven.s"],
    }
    found = {kind: [(it.name, it.read_text(encoding="utf-8")) for it in some] for kind, some in paths.items()}
    for name, text in found["scenario"]:
        inner = re.findall(r'(?ms)^(?:program = "asm"\ntext|clock) = \'\'\'\n(.*?)\'\'\'', text)
        found["text"] += [(f"{name}:{number}", it) for number, it in enumerate(inner)]
    for path in sorted(examples.rglob("*.bpf")):
        found["text"].append((path.name, answer(program, ["dis"], path.read_bytes()).out.decode()))
    return found


def slipped(kind, source, draw):
    """The text of a source with one slip, or none if the drawn slip has no place in it."""
    name, text = source
    pattern, change = draw.choice(SLIPS[kind])
    places = list(re.finditer(pattern, text))
    if not places:
        return None
    found = draw.choice(places)
    changed = text[: found.start()] + change(found, draw) + text[found.end() :]
    return Slip(kind, name, changed) if changed != text else None


def drawn(kind, count, texts):
    """So many different texts of this kind, each with one slip."""
    draw, different = random.Random(SEED), {}
    for _ in range(MAX_TRIES):
        slip = slipped(kind, draw.choice(texts), draw)
        if slip and len(different) < count:
            different[slip.text] = slip
    return list(different.values())


def place_of(slip, note):
    """The line and the column that a note names, each from 1 on or none, and what it says."""
    found = NOTE.fullmatch(note)
    if not found:
        return None, None, ""
    line, column, words = found.groups()[:3]
    behind = COLUMN.search(words)
    column = column or (behind and behind[1])
    if not line and TEXT_LINE.match(words):
        line = TEXT_LINE.match(words)[1]
    return line and int(line), column and int(column), words


def mark_of(slip, note):
    """Whether a note has a marked line, and whether that isn't the line that it names, or the mark is at another column.

    A long line is shown in part, and isn't compared."""
    found, (line, column, _) = NOTE.fullmatch(note), place_of(slip, note)
    if not found or found[4] is None:
        return False, False
    shown_line, padding, lines = found[4], found[5], slip.text.split("\n")
    if shown_line.startswith("..") or shown_line.endswith(".."):
        return True, False
    is_there = bool(line) and line <= len(lines) and lines[line - 1].rstrip() == shown_line
    return True, not is_there or bool(column) and len(padding) != column - 1


def with_first(line, wrong, right, near):
    """The line with one text in place of another: where that covers the column, or else at its first place."""
    places = [found.start() for found in re.finditer(re.escape(wrong), line)]
    if not places:
        return None
    covering = [start for start in places if start <= near - 1 < start + len(wrong)]
    start = (covering or places)[0]
    return line[:start] + right + line[start + len(wrong) :]


def fixed_line(line, column, words):
    """The line with the fix of a note, or none if it suggests none."""
    written, quoted, meant = WRITTEN.search(words), QUOTED.search(words), MEANT.search(words)
    if written:
        return with_first(line, written[2], written[1], column or 1)
    if quoted:
        return with_first(line, quoted[1], f'"{quoted[1]}"', column or 1)
    if '"==" compares' in words:
        return with_first(line, "=", "==", column or 1)
    if not meant:
        return None
    unknown = UNKNOWN.search(words)
    if unknown:
        return with_first(line, next(filter(None, unknown.groups())), meant[1], column or 1)
    rest = re.match(r"\W*(?:call )?\W*(\w+)", line[(column or 1) - 1 :])
    return line[: (column or 1) - 1] + line[(column or 1) - 1 :].replace(rest[1], meant[1], 1) if rest else None


def with_heads(lines, head):
    """The lines with two brackets round a head in place of one, wherever it stands alone."""
    return [line.replace(head, f"[{head}]", 1) if line.split("#")[0].strip() == head else line for line in lines]


def with_key(lines, first, wrong, right):
    """The lines with one key in place of another, the first below this line."""
    for i in range(first, len(lines)):
        if re.match(rf"\s*{wrong}\s*=", lines[i]):
            return [*lines[:i], lines[i].replace(wrong, right, 1), *lines[i + 1 :]]
    return None


def fixed_lines(lines, line, column, words):
    """The lines with the fix of a note, or none if it suggests none."""
    head, missing = HEAD.search(words), MISSING.search(words)
    if head:
        return with_heads(lines, head[1])
    if missing:
        return with_key(lines, line, missing[2], missing[1])
    changed = fixed_line(lines[line - 1], column, words)
    return None if changed is None else [*lines[: line - 1], changed, *lines[line:]]


def fixed(slip, note):
    """The text with the fix of a note, or none."""
    line, column, words = place_of(slip, note)
    lines = slip.text.split("\n")
    if not line or line > len(lines):
        return None
    changed = fixed_lines(lines, line, column, words)
    return None if changed is None else "\n".join(changed)


def told(program, slip):
    """The first note on a slip, and whether the fixes lead to an accepted text: nothing if the slip is accepted."""
    got = answer(program, WORDS[slip.kind], slip.text.encode())
    if got.status == 0:
        return []
    line, column, _ = place_of(slip, got.err.decode())
    has_mark, is_wrong = mark_of(slip, got.err.decode())
    result = Told(slip, got.err.decode(), bool(line), bool(column), False, False, has_mark, is_wrong)
    for _ in range(ROUNDS):
        text = fixed(slip, got.err.decode())
        if text is None:
            break
        slip = dataclasses.replace(slip, text=text)
        got = answer(program, WORDS[slip.kind], text.encode())
        result = dataclasses.replace(result, has_fix=True, is_accepted=got.status == 0)
        if result.is_accepted:
            break
    return [result]


def shown(kind, some):
    return (
        f"check_slips: {kind}: {len(some)} slips, {sum(it.has_line for it in some)} with a line, "
        f"{sum(it.has_column for it in some)} with a column, {sum(it.has_mark for it in some)} marked, {sum(it.has_fix for it in some)} with a fix, "
        f"{sum(it.is_accepted for it in some)} accepted after it"
    )


def main():
    program, results = named_program(), []
    texts = named_texts(program)
    for kind, count in COUNT.items():
        slips = drawn(kind, count + count // SPARE, texts[kind])
        some = on_all_processors(lambda slip: told(program, slip), slips)[:count]
        print(shown(kind, some), flush=True)
        results += some
    if "--all" in sys.argv:
        for it in results:
            if not (it.has_place() and it.is_accepted):
                print(f"{it.slip.name}: {it.note.strip()}")
    bad = [it for it in results if not it.has_place() or it.is_mark_wrong]
    for it in bad:
        print(f"{it.slip.name}: no line, no column or a wrong mark: {it.note.strip()}")
    accepted = sum(it.is_accepted for it in results)
    return 1 if bad or len(results) < sum(COUNT.values()) or 2 * accepted < len(results) else 0


if __name__ == "__main__":
    sys.exit(main())
