#!/usr/bin/env python3
"""Compares the example at the head of each library with the test that runs it, to the letter.

    tools/check_examples.py           compares them, and looks up the calls that each head names
    tools/check_examples.py --write   copies the examples from the tests into the heads

The head of crates/NAME/src/lib.rt says what the crate is for, names its most used calls in list items, and has an
example between fences. The test is NAME_example.rt of a crate in TEST_CRATES. The example is its `use` lines, but
Fail's, the functions that it calls, and its body, but the last line. Heads of programs and of crates for tests say only
what the crate is for.
"""
import re
import sys

from built_program import TOP

TEST_CRATES = ["example_tests", "bench_example_tests", "command_example_tests"]

LAWS = "has laws alone, which a proof cites: there is no call to run"

# crates whose heads have no example, with the reason
WITHOUT_EXAMPLE = {
    "clock_steps": LAWS,
    "quorums": LAWS,
    "rule_grammar": LAWS,
    "rule_paths": LAWS,
    "rule_steps": LAWS,
    "sized_benches": LAWS,
    "bench_names": "its search takes a bench whose programs are known as symmetric; tools/check_renaming.py tries it",
    "claim_commands": "its only call takes the options of `prove`; tools/check_prove.py tries it",
    "exploration_json": "its only call takes 25 fields; rows/explore.txt has its lines",
}

FENCE = "//! ```"
TEST = re.compile(r"(?P<uses>.*?)#\[test\]\nfn \w+\(rt: HostRuntime\) -> Result<\(\), Fail> \{\n(?P<body>.*)^\}\n", re.S | re.M)
CALL = re.compile(r"^//! - ((?:`[\w:]+`(?:,? and |, )?)+)", re.M)


def example_of(test):
    """The lines of a test that its library shows."""
    found = TEST.fullmatch(test.read_text(encoding="utf-8"))
    if not found:
        raise SystemExit(f"{test.relative_to(TOP)}: not `use` lines and one test")
    before = found["uses"].strip().split("\n")
    calls = any(it.startswith("fn ") for it in before)
    uses = [it for it in before if calls or it != "use std::test::Fail;"]
    body = [it.removeprefix("    ") for it in found["body"].rstrip("\n").split("\n")]
    if body[-1] != "Ok(())":
        raise SystemExit(f"{test.relative_to(TOP)}: its last line isn't Ok(())")
    return [*uses, *[""] * bool(uses), *body[:-1]]


def head_of(source):
    lines = source.split("\n")
    return lines[: next(at for at, it in enumerate(lines) if not it.startswith("//!"))]


def fences_in(head):
    return [at for at, it in enumerate(head) if it == FENCE]


def shown_in(head):
    """The lines of the example in a head, or none."""
    fences = fences_in(head)
    return [it.removeprefix("//!").removeprefix(" ") for it in head[fences[0] + 1 : fences[1]]] if len(fences) == 2 else None


def has_item(crate, path):
    """Whether some file of the crate defines the last name of a path."""
    name = path.split("::")[-1]
    item = re.compile(rf"\b(?:fn|struct|enum|trait|const|mod|type) {name}\b|\bpub use [^;]*\b{name}\b")
    return any(item.search(it.read_text(encoding="utf-8")) for it in (crate / "src").rglob("*.rt"))


def faults_of(crate, test):
    """What is wrong with the head of a crate."""
    library = crate / "src" / "lib.rt"
    root = library if library.exists() else crate / "src" / "main.rt"
    head = head_of(root.read_text(encoding="utf-8"))
    if not head or len(head[0]) < len("//! A word"):
        yield "doesn't begin with what it is for"
    if root != library or crate.name.endswith("_tests"):
        return
    calls = [it for found in CALL.findall("\n".join(head)) for it in re.findall(r"`([\w:]+)`", found)]
    if not calls:
        yield "names no call"
    for call in calls:
        if not has_item(crate, call):
            yield f"names {call}, which the crate doesn't define"
    shown = shown_in(head)
    if crate.name in WITHOUT_EXAMPLE:
        if shown or test:
            yield "has an example, and is in WITHOUT_EXAMPLE"
    elif not test:
        yield "has no test of its example"
    elif shown != example_of(test):
        yield f"shows another example than {test.relative_to(TOP)}"


def write(crate, test):
    """Copies the example of a test into the head of its library."""
    library = crate / "src" / "lib.rt"
    source = library.read_text(encoding="utf-8")
    head = head_of(source)
    rest = source.split("\n")[len(head) :]
    fences = fences_in(head)
    kept = head[: fences[0]] if fences else [*head, "//!"]
    example = [f"//! {it}".rstrip() for it in example_of(test)]
    library.write_text("\n".join([*kept, FENCE, *example, FENCE, *rest]), encoding="utf-8")


def main():
    tests = {it.stem.removesuffix("_example"): it for name in TEST_CRATES for it in TOP.glob(f"crates/{name}/src/tests/*.rt")}
    crates = sorted(it.parent for it in TOP.glob("crates/*/src"))
    if sys.argv[1:] == ["--write"]:
        for crate in crates:
            if crate.name in tests:
                write(crate, tests[crate.name])
    faults = [f"{crate.name}: {fault}" for crate in crates for fault in faults_of(crate, tests.get(crate.name))]
    faults += [f"{name}: no such crate" for name in tests if not (TOP / "crates" / name).exists()]
    print(*faults, f"check_examples: {len(tests)} examples, {len(crates)} crates, {len(faults)} faults", sep="\n")
    return 1 if faults else 0


if __name__ == "__main__":
    sys.exit(main())
