#!/usr/bin/env python3
"""Counts in every page the words, the turns of phrase to avoid, and the sentences over 25 words.

    tools/check_style.py              a row for each page
    tools/check_style.py PAGE ..      a row for each of these pages, then each find with its line
    tools/check_style.py --limit      fails if a page has more than one turn in 1,000 words

TURNS and LEFT_OUT are the turns, with what to write instead. Blocks of code, links' targets, headings and the heads of
tables don't count. A span of code, a quotation and a page's name are one word each. A table cell and a list item each
end a sentence.
"""
import re
import sys

from built_program import TOP

PAGES = [*sorted(TOP.glob("*.md")), *sorted(TOP.glob("*/*.md"))]
MAX_WORDS = 25
MAX_TURNS = 1.0

# turns of phrase: how they read, and the plain way; ^ is the beginning of a sentence
TURNS = {
    r"^Of\b": "name the subject first",
    r"^Who\b": "name the actor",
    r"^Where\b": "if (a condition), when (a time)",
    r"^What (?:is|are)\b[^?:,]*\b(?:is|are)\b": "name the subject",
    r"\bso many\b": "the number",
    r"\bthat (?:is|are) none\b": "invalid, or no",
    r"\b(?<!nothing )(?<!anything )(?<!something )(?<!everything )(?<!nobody )(?<!all )else\b": "otherwise",
    r"\bbehind\b": "after",
    r"\bstands?\b": "is",
    r"\b(?:go|goes|going|went) by\b": "uses",
    r"\b(?:come|comes|came|coming) to\b": "results in, reaches",
    r"\bmend(?:s|ed|ing)?\b": "fix",
    r"\bwant of\b": "lack of, out of",
    r"\black(?:s|ing|ed)?\b(?! of)": "is missing",
}

# words that another one replaces; the gallery may say the first of them
LIAR = r"\bliars?\b|\b(?:node|nodes|who|that) (?:lie|lies)\b"
GALLERY = "docs/GALLERY.md"
LEFT_OUT = {
    LIAR: "Byzantine node, adversary",
    r"\bmails?\b": "message",
    r"\bcontradict\w*": "violates agreement",
    r"\b(?:come|comes|came) together\b|\bin(?:to)? step\b": "stabilise, synchronised",
    r"\bscenario that shows it\b": "counterexample",
    r"\b(?:keep|keeps|kept) to (?:a|the|one|its) rule\b": "correct node",
    r"\bluck\b": "local coin",
    r"\bways? on\b": "successor",
    r"\boutcomes?\b": "transfer function",
    r"\bkept pointers?\b": "spilled pointer",
    r"\ba beginning of\b": "prefix",
    r"\bnever (?:go|goes) back\b": "monotonic reads",
    r"\btakes? just\b": "soundness and completeness",
    r"\bholds? where it returns\b": "partial correctness",
    r"\bplanted mistakes?\b": "seeded bug",
    r"\bto be believed\b": "assumption",
    r"\b(?:many|two|eight) hands\b": "threads",
    r"\bbeds?\b": "bench",
}

HIDDEN = re.compile(r"^```.*?^```$|<!--.*?-->|^ {4,}\S[^\n]*$|^#+ [^\n]*$|^\|[^\n]*\n\|[-| ]+\|$", re.M | re.S)
CODE = re.compile(r'`[^`]*`|"[^"]*"|\b[A-Z_]+\.md\b')
LINK = re.compile(r"\]\([^)]*\)")
UNIT_BEGINS = re.compile(r"^\s*(?:[-*] |\d+\. )")
SENTENCE_ENDS = re.compile(r"(?<=[.!?])[*)]*\s+")
WORD = re.compile(r"[^\W_](?:[\w'’.,-]*\w)?")


def blanked(found):
    return "\n" * found[0].count("\n")


def prose_of(page):
    """The lines of a page, with code, comments, headings and links' targets taken out."""
    text = HIDDEN.sub(blanked, page.read_text(encoding="utf-8"))
    return LINK.sub("]", CODE.sub(lambda it: "code" + blanked(it), text)).split("\n")


def units_of(lines):
    """Paragraphs, list items and table cells, each with its first line's number."""
    unit, began = "", 0
    for number, line in enumerate(lines, 1):
        if not line.strip() or line.startswith("|") or UNIT_BEGINS.match(line):
            yield began, unit
            unit = ""
        if line.startswith("|"):
            for cell in line.strip("|").split("|"):
                yield number, cell
        elif line.strip():
            began = began if unit else number
            unit = f"{unit} {UNIT_BEGINS.sub('', line).strip()}"
    yield began, unit


def sentences_of(page):
    for number, unit in units_of(prose_of(page)):
        for sentence in SENTENCE_ENDS.split(unit.strip()):
            plain = sentence.replace("**", "").lstrip("*[(\" ")
            if WORD.search(plain):
                yield number, plain


def turns_in(name, sentence):
    for turn, instead in [*TURNS.items(), *LEFT_OUT.items()]:
        if turn is LIAR and name == GALLERY:
            continue
        for found in re.finditer(turn, sentence, 0 if turn.startswith("^") else re.I):
            yield found[0], instead


class Page:
    """What is counted of a page: words, turns with their lines, and long sentences."""

    def __init__(self, path):
        self.name = str(path.relative_to(TOP))
        self.words, self.turns, self.long = 0, [], []
        for number, sentence in sentences_of(path):
            words = len(WORD.findall(sentence))
            self.words += words
            self.turns += [(number, turn, instead) for turn, instead in turns_in(self.name, sentence)]
            if words > MAX_WORDS:
                self.long.append((number, words, sentence))

    def rate(self):
        return 1000 * len(self.turns) / max(self.words, 1)

    def row(self):
        return f"{self.name:24} {self.words:6} {self.rate():7.1f} {len(self.long):5}"

    def finds(self):
        for number, turn, instead in self.turns:
            yield f"{self.name}:{number}: {turn}: {instead}"
        for number, words, sentence in self.long:
            yield f"{self.name}:{number}: {words} words: {sentence[:60]}.."


def main():
    words = sys.argv[1:]
    named = [(TOP / it).resolve() for it in words if it != "--limit"]
    pages = [Page(it) for it in named or PAGES]
    print(f"{'page':24} {'words':>6} {'per1000':>7} {'long':>5}")
    for page in pages:
        print(page.row())
        for find in page.finds() if named else []:
            print(f"  {find}")
    if "--limit" not in words:
        return 0
    over = [it.name for it in pages if it.rate() > MAX_TURNS]
    for name in over:
        print(f"check_style: {name} has more than {MAX_TURNS:g} turn in 1,000 words")
    return 1 if over or not pages else 0


if __name__ == "__main__":
    sys.exit(main())
