#!/usr/bin/env python3
"""Holds the built program against answers that this repository's code didn't make (vectors/README.md).

usage: check_vectors.py [PROGRAM]

PROGRAM is the built `clockbed`; without it CLOCKBED_PROGRAM, or else the one of this checkout. The program's commands
are given each vector, and what they print is compared, with the status. It prints each vector that differs, named by
its file and line, and how many of each file were tried.
"""
import csv
import sys

sys.dont_write_bytecode = True
from built_program import TOP, Answer, answer, named_program, on_all_processors, tell, without_note

NOTHING_LEFT = f"\nmemory {'00' * 16}\nsent -,-,-,-\n".encode()
NO_LAST_LF = "\n\\ no LF at the end\n"


class Asked:
    """The program, asked for one vector, and where it differs."""

    def __init__(self, program):
        self.program = program
        self.differences = []

    def answer(self, words, given):
        return answer(self.program, words.split(), given)

    def differ(self, words, got, wanted):
        self.differences.append(f"{words}: {got} in place of {wanted}")

    def wants(self, words, given, out, status=0):
        """Asks that the command gives these bytes and this status."""
        wanted = Answer(status, out, b"")
        got = without_note(self.answer(words, given))
        if got != wanted:
            self.differ(words, got, wanted)

    def wants_line(self, words, given, line):
        """Asks for the line and its status."""
        self.wants(words, given, f"{line}\n".encode(), 2 if line.startswith("refused") else 0)


def listing(text):
    """The canonical text of instructions that " ; " parts."""
    return "".join(f"{line}\n" for line in text.split(" ; ")).encode()


def check_encoding(asked, row):
    """A text and its image, both ways."""
    text, image = listing(row["text"]), bytes.fromhex(row["hex"])
    asked.wants("asm", text, image)
    asked.wants("dis", image, text)


def check_result(asked, row):
    """A program, both ways, and its r0. Outside machines tell no steps. No program writes memory or sends."""
    check_encoding(asked, row)
    got = asked.answer("exec --show", bytes.fromhex(row["hex"]))
    start = f"r0 {row['r0']} steps "
    if got.status or got.err or not got.out.startswith(start.encode()) or not got.out.endswith(NOTHING_LEFT):
        asked.differ("exec --show", got, start)


def check_field(asked, row):
    """An image, which reads as a text or is refused at a slot."""
    image, expected = bytes.fromhex(row["hex"]), row["expected"]
    reads = expected.removeprefix("reads: ")
    if reads != expected:
        check_encoding(asked, {"text": reads, "hex": row["hex"]})
        return
    name, slot = expected.split()
    for words in ("dis", "exec", "verify"):
        asked.wants_line(words, image, f"refused image {name} slot {slot}")


def check_kept(asked, entry):
    """A program with what was said of it without kept pointers, and the lines of `verify` and `exec`."""
    head, rest = entry.split("\n", 1)
    text, rest = rest.split("---- without kept pointers\n")
    before, rest = rest.split("---- verify\n")
    verdict, end = (part.strip() for part in rest.split("---- exec\n"))
    _, nodes, _, memory = head.split()
    options = f"--nodes {nodes} --memory {memory}"
    image = asked.answer("asm", text.encode()).out
    asked.wants("dis", image, text.encode())
    asked.wants_line(f"verify {options}", image, verdict)
    asked.wants_line(f"exec {options}", image, end)
    if before.startswith("accepted") and before.strip() != verdict:
        asked.differ("verify without kept pointers", before.strip(), verdict)


def check_scenario(asked, entry):
    """A scenario and what `run` prints of it."""
    text, wanted = entry.split("---- prints\n")
    given = text.removesuffix(NO_LAST_LF).encode()
    status = 2 if wanted.startswith("refused") else 0
    for workers in (1, 2):
        asked.wants(f"run --workers {workers}", given, wanted.encode(), status)


def rows_of(path):
    """The rows of a table, with the number of each one's line."""
    with path.open(encoding="utf-8", newline="") as it:
        yield from enumerate(csv.DictReader(it, delimiter="\t", quoting=csv.QUOTE_NONE), 2)


def entries_of(path):
    """The entries of a text, each of which begins with "==== ", with the number of each one's line."""
    line = 1
    for entry in path.read_text(encoding="utf-8").split("==== ")[1:]:
        yield line, entry
        line += entry.count("\n")


def scenarios_of(path):
    for line, entry in entries_of(path):
        yield line, entry.removeprefix("scenario\n")


FILES = [
    ("encodings.tsv", rows_of, check_encoding),
    ("results.tsv", rows_of, check_result),
    ("fields.tsv", rows_of, check_field),
    ("kept.txt", entries_of, check_kept),
    ("scenarios.txt", scenarios_of, check_scenario),
]


def main():
    program = named_program()
    vectors = [
        (name, line, check, vector)
        for name, reader, check in FILES
        for line, vector in reader(TOP / "vectors" / name)
    ]

    def differences(one):
        name, line, check, vector = one
        asked = Asked(program)
        check(asked, vector)
        return [f"vectors/{name}:{line}: {difference}" for difference in asked.differences]

    counts = {name: sum(one[0] == name for one in vectors) for name, _, _ in FILES}
    return tell("check_vectors", counts, on_all_processors(differences, vectors))


if __name__ == "__main__":
    sys.exit(main())
