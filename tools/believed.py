#!/usr/bin/env python3
"""Counts what has to be believed: all lines of specs/, and the definitions that some names reach.

    tools/believed.py [--list] [NAME ..]

A NAME that several crates define is written CRATE.NAME. With --list it prints each definition that they reach, with its file and line. With no names, those of the clauses `headline` and `replays` (theorem 1 of docs/THEOREMS.md), and once more with that of
the clause `accepted`. A definition is a paragraph of a file of specs/, with its comment; specs/inner/ is cited by proofs
and private contracts alone, and counted apart.
"""

import re
import sys
from pathlib import Path

ROOT = Path(__file__).resolve().parent.parent
HEADLINE = ["IsWhole", "node_at", "Accepted", "End", "Replays"]
ACCEPTED = [*HEADLINE, "StagesAccepted"]
NAME = re.compile(r"^(?:(?:abbrev|unfoldable|pub|record|data) )*([^\s:({\[]+)\s*[:({]")
IMPORT = re.compile(r"use (Rattle\.[\w.]+)\.\{(.*)\}")
WORD = re.compile(r"[^\s(){}\[\],;.]+")


def is_apart(path):
    """Whether proofs and private contracts alone cite the file."""
    return "inner" in path.parts or path.name == "inner.antt"


def paragraphs(text):
    """The paragraphs of a file, as lists of lines."""
    return [it.split("\n") for it in re.split(r"\n\s*\n", text.strip("\n")) if it.strip()]


class Module:
    """The definitions of one file, by name, and where the names that it imports come from."""

    def __init__(self, text):
        self.imports, self.definitions = {}, {}
        for lines in paragraphs(text):
            code = [it for it in lines if not it.startswith(("--", "use "))]
            for it in lines:
                found = IMPORT.match(it)
                for name in found.group(2).split(",") if found else []:
                    of, _, here = name.strip().partition(" as ")
                    self.imports[here or of] = (found.group(1), of)
            names = [it.group(1) for it in map(NAME.match, code) if it]
            for name in dict.fromkeys(names):
                self.definitions[name] = (names[0], lines)


def modules():
    """The files that public contracts reach, by their names in `use` lines."""
    read = {}
    for path in sorted(ROOT.glob("crates/*/specs/**/*.antt")):
        if not is_apart(path) and path.name != "Lib.antt":
            crate, *inside = path.relative_to(ROOT / "crates").with_suffix("").parts
            read[".".join(["Rattle", crate, *inside])] = Module(path.read_text(encoding="utf-8"))
    return read


def defined(read, name):
    """Where a name is defined, as (module, name): NAME in all crates, CRATE.NAME in one of them."""
    crate, _, bare = name.rpartition(".")
    within = f"Rattle.{crate}." if crate else ""
    return [(it, bare) for it in read if it.startswith(within) and bare in read[it].definitions]


def reached(read, names):
    """Each definition that these names reach: its file, its name and its lines."""
    found, open_ones = {}, [it for name in names for it in defined(read, name)]
    while open_ones:
        module, name = open_ones.pop()
        if module not in read or name not in read[module].definitions:
            continue
        name, lines = read[module].definitions[name]
        if (module, name) in found:
            continue
        found[module, name] = lines
        code = "\n".join(it for it in lines if not it.startswith("--"))
        for word in set(WORD.findall(code)):
            open_ones.append(read[module].imports.get(word, (module, word)))
    return found


def believed_lines():
    """The lines of all definitions: those that public contracts reach, and those apart."""
    files = list(ROOT.glob("crates/*/specs/**/*.antt"))
    count = lambda some: sum(len(it.read_text(encoding="utf-8").splitlines()) for it in some)
    return count(it for it in files if not is_apart(it)), count(it for it in files if is_apart(it))


def reached_lines(names):
    """How many definitions these names reach, and their lines."""
    found = reached(modules(), names)
    return len(found), sum(map(len, found.values()))


def places(names):
    """File, line and name of each definition that these names reach, in the order of the files."""
    for (module, name), lines in sorted(reached(modules(), names).items()):
        crate, *inside = module.split(".")[1:]
        path = ROOT.joinpath("crates", crate, *inside).with_suffix(".antt")
        line = path.read_text(encoding="utf-8").split("\n".join(lines))[0].count("\n") + 1
        yield f"{path.relative_to(ROOT)}:{line}: {name}"


def main():
    words = sys.argv[1:]
    names = [it for it in words if it != "--list"]
    print("{} lines, and {} apart".format(*believed_lines()))
    for some in [names] if names else [HEADLINE, ACCEPTED]:
        print("{} definitions, {} lines: {}".format(*reached_lines(some), " ".join(some)))
    if "--list" in words:
        print(*places(names or ACCEPTED), sep="\n")


if __name__ == "__main__":
    main()
