#!/usr/bin/env python3
"""Looks for ways round the prover in crates/: tools/check_trust.py

No source, definition or proof of the repository may have `unsafe`, `assume`, an axiom or a postulate, in code: comments
and texts in quotes don't count. None may name the axioms of the logic's library, declare a C function, or be C itself
(crates/trials/wrong has a library that is preloaded, and no part of a program). docs/TRUST.md says what that leaves.
"""
import re
import sys
import pathlib

TOP = pathlib.Path(__file__).resolve().parent.parent
WAYS = re.compile(
    r"\b(?:unsafe|assume\w*|axiom|postulate|admit\w*|sorry|trusted|extern|no_mangle|transmute|Prim\.Axiom)\b"
)
SKIPPED = {
    ".rt": re.compile(r'//[^\n]*|/\*.*?\*/|b?"(?:\\.|[^"\\])*"|b?\'(?:\\.|[^\'\\\n])\'', re.S),
    ".antt": re.compile(r'--[^\n]*|\{-.*?-\}|"(?:\\.|[^"\\])*"', re.S),
}
LINKED_C = (".c", ".h", ".o", ".a", ".s", ".S")
NO_PART = "crates/trials/wrong"


def blank(found):
    """The lines of what is skipped, with nothing on them."""
    return "\n" * found[0].count("\n")


def sources():
    for path in sorted((TOP / "crates").rglob("*")):
        if path.is_file() and "out" not in path.relative_to(TOP).parts:
            yield path


def faults_of(path):
    name = str(path.relative_to(TOP))
    if path.suffix in LINKED_C and not name.startswith(NO_PART):
        yield f"{name}: C, or what is made of it"
    if path.suffix in SKIPPED:
        code = SKIPPED[path.suffix].sub(blank, path.read_text(encoding="utf-8"))
        for found in WAYS.finditer(code):
            yield f"{name}:{code.count(chr(10), 0, found.start()) + 1}: {found[0]}"


def main():
    read = list(sources())
    found = [it for path in read for it in faults_of(path)]
    for it in found:
        print(it)
    count = sum(it.suffix in SKIPPED for it in read)
    print(f"check_trust: {count} sources, definitions and proofs: {len(found)} ways round the prover")
    return 1 if found or not count else 0


if __name__ == "__main__":
    sys.exit(main())
