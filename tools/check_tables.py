#!/usr/bin/env python3
"""Tries the tables of rows/ on the built program: texts of the assembler and of scenarios, programs and images.

usage: check_tables.py [PROGRAM]

In each text ";" parts lines. texts.tsv has texts with their images in hexadecimal, or the refusal and its line;
canonical.tsv texts that `dis` gives back; programs.tsv programs with the words of a command and what it prints, where
"; " parts lines; images.tsv images with the refusal, or `reads`; refused.tsv texts of scenarios, or what stands behind
the keys at the top, with the refusal, or `taken`. A refusal may be followed by a note, of which notes.txt has rows.
PROGRAM is as for check_rows.py.
"""
import csv
import sys

sys.dont_write_bytecode = True
from built_program import NOTE, TOP, Answer, answer, named_program, on_all_processors, tell

TOP_KEYS = b'nodes = 4\nfaults = 1\nmodulus = 8\nmemory = 8\npulses = 10\ncoins = "ones"\n'
BEFORE = {"nothing": b"", "top": TOP_KEYS, "version 3": b"version = 3\n" + TOP_KEYS, "version 4": b"version = 4\n" + TOP_KEYS}
LISTED_NODES = 64
MAX_SLOTS = 2048
STACK_BYTES = 512
REFUSED = 2
LISTED = """version = 2
nodes = {nodes}
faults = 0
modulus = 65536
memory = 8
pulses = 1
coins = "ones"
load = [{{pulse = 1, nodes = [0], program = "clock"}}, {{pulse = 1, nodes = [0], program = "echo"}}, \
{{pulse = 1, nodes = [0], program = "say", values = {values}}}]
"""


def lines_of(text):
    return text.replace(";", "\n").encode()


def instructions_of(text):
    return text.replace("; ", "\n").encode() + b"\n"


def note_in(got):
    """The note of an answer, if its standard error is one."""
    return got.err if NOTE.fullmatch(got.err) else b""


def text_answers(program, cells):
    got = answer(program, ["asm"], lines_of(cells["text"]))
    name, _, line = cells["answer"].partition(" ")
    if line:
        return got, Answer(REFUSED, f"refused text {name} line {line}\n".encode(), note_in(got))
    return got, Answer(0, bytes.fromhex(name), b"")


def canonical_answers(program, cells):
    text = lines_of(cells["text"]) + b"\n"
    return answer(program, ["dis"], answer(program, ["asm"], text).out), Answer(0, text, b"")


def program_answers(program, cells):
    """What a command prints of a program, by its image. A refusal has a note."""
    got = answer(program, cells["words"].split(), answer(program, ["asm"], instructions_of(cells["text"])).out)
    status = REFUSED if cells["answer"].startswith("refused") else 0
    return got, Answer(status, instructions_of(cells["answer"]), note_in(got))


def image_answers(program, cells):
    """The refusal of an image, or an image whose text has this image."""
    image = bytes.fromhex(cells["image"])
    got = answer(program, ["dis"], image)
    if cells["answer"] == "reads":
        return answer(program, ["asm"], got.out), Answer(0, image, b"")
    return got, Answer(REFUSED, f"refused image {cells['answer']}\n".encode(), b"")


def scenario_answers(program, cells):
    got = answer(program, ["run"], BEFORE[cells["after"]] + lines_of(cells["text"]))
    if cells["answer"] == "taken":
        return got, Answer(0, got.out, b"")
    return got, Answer(REFUSED, f"refused scenario {cells['answer']}\n".encode(), note_in(got))


def listed_answers(program, cells):
    """The listings for so many nodes are accepted."""
    text = LISTED.format(nodes=cells["nodes"], values=[2**32 - 1] * cells["nodes"])
    got = answer(program, ["run"], text.encode())
    return got, Answer(0, got.out, b"")


def labelled_answers(program, cells):
    """A jump over so many labels."""
    labels = "".join(f"l{number}:\n" for number in range(cells["labels"]))
    got = answer(program, ["asm"], f"ja l{cells['labels'] - 1}\n{labels}exit\n".encode())
    return got, Answer(0, bytes.fromhex("05000000000000009500000000000000"), b"")


def spilled(offset):
    """A pointer to memory that is stored in this double word of the stack, loaded again and used."""
    text = f"stxdw [r10{offset}], r1; ldxdw r3, [r10{offset}]; ldxb r0, [r3+5]; exit"
    return {"words": "exec --contents 000102030405", "text": text, "answer": "r0 5 steps 4"}


def longest_program():
    text = "mov64 r0, 0; " * (MAX_SLOTS - 1) + "exit"
    return {"words": "verify", "text": text, "answer": f"accepted slots {MAX_SLOTS} announced {MAX_SLOTS}"}


def jump_of_each_slot():
    """A jump from each slot to the last, where all these edges meet."""
    jumps = "".join(f"jset r2, r0, +{MAX_SLOTS - 2 - slot}; " for slot in range(1, MAX_SLOTS - 1))
    return {**longest_program(), "text": f"mov64 r0, 0; {jumps}exit"}


def rows_of(name):
    """The rows of a table, each with where it stands."""
    with (TOP / "rows" / name).open(encoding="utf-8", newline="") as it:
        for line, cells in enumerate(csv.DictReader(it, delimiter="\t", quoting=csv.QUOTE_NONE), 2):
            yield f"rows/{name}:{line}", cells


TABLES = {
    "texts": (text_answers, rows_of("texts.tsv")),
    "canonical": (canonical_answers, rows_of("canonical.tsv")),
    "programs": (program_answers, rows_of("programs.tsv")),
    "double words": (program_answers, [(f"r10{it}", spilled(it)) for it in range(-STACK_BYTES, 0, 8)]),
    "longest": (program_answers, [("moves", longest_program()), ("jumps", jump_of_each_slot())]),
    "images": (image_answers, rows_of("images.tsv")),
    "refused": (scenario_answers, rows_of("refused.tsv")),
    "listings": (listed_answers, [(f"{nodes} nodes", {"nodes": nodes}) for nodes in range(1, LISTED_NODES + 1)]),
    "labels": (labelled_answers, [("20,000 labels", {"labels": 20_000})]),
}


def main():
    program = named_program()
    rows = [(name, place, cells) for name, (_, table) in TABLES.items() for place, cells in table]

    def differences(one):
        name, place, cells = one
        got, wanted = TABLES[name][0](program, cells)
        return [] if got == wanted else [f"{place}: {got} in place of {wanted}"]

    counts = {name: sum(one[0] == name for one in rows) for name in TABLES}
    return tell("check_tables", counts, on_all_processors(differences, rows))


if __name__ == "__main__":
    sys.exit(main())
