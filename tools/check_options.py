#!/usr/bin/env python3
"""Tries each option that the help names, at its ends, past them and at its default: tools/check_options.py [PROGRAM]

The options and their ranges are read from the help. A number of the range is taken, and one below or above it is refused
with status 1. The default is what the option has where it is missing. Each option changes an answer: it has a row below
with an input for which a value of it makes a difference. An option without a row is a fault, and so is a row without an
option.
"""
import re
import sys

sys.dont_write_bytecode = True
from built_program import TOP, answer, named_program, tell

COMMAND = re.compile(r"^  ([a-z]+) +\S", re.M)
OPTION = re.compile(r"^ {6}--([a-z]+)(?: <([^>]+)>)? +(.*)$", re.M)
RANGE = re.compile(r"\[(\d+)\.\.(?:=(\d+))?(?:, multiple of \d+)?; (?:default: (\w+)|required)")
MANY = 2**32


def text(name):
    return (TOP / name).read_bytes()


IMAGE = text("examples/seven.bpf")
PARTED, AGREED, SEEDED = text("examples/splitter_of_three.toml"), text("examples/four_clocks.toml"), text("examples/chacha.toml")
THREE = text("examples/explore/three_nodes.toml")
COUNTING = b"""version = 4
nodes = 4
faults = 1
modulus = 2
memory = 8
pulses = 10
coins = "zeros"
rule = "clock = (clock + 1) % M"
load = [{pulse = 1, nodes = [0, 1, 2, 3], program = "clock"}]
"""
OWN = b"mov64 r0, 7\nexit\n"
RULE = text("examples/rules/clock.rule")
RULE_FILE, CLAIMS_FILE, PROPERTIES_FILE = (
    str(TOP / "examples" / it) for it in ("rules/clock.rule", "claims/clock.claims", "properties/clock.claims")
)
CERTIFICATES = text("examples/certificates/clock.txt")
WORDS = b"state a, b, c, d\nd = clock\nsend d\n"
LOOP = bytes.fromhex("0500ffff00000000")
HEARS = "mov64 r6, r1; {}; stxw [r6+0], r0; mov64 r0, 0; exit"

# By command and option: the words before it, the input, and a value (None for a flag) that makes a difference.
ROWS = {
    ("exec", "nodes"): (["--mail", "1"], None, "1"),
    ("exec", "memory"): (["--show"], IMAGE, "24"),
    ("exec", "text"): ([], OWN, None),
    ("exec", "fuel"): ([], LOOP, "5"),
    ("exec", "id"): (["--nodes", "64", "--show"], HEARS.format("call id"), "63"),
    ("exec", "mail"): (["--show"], HEARS.format("mov64 r1, 1; call recv"), "1,2,3,4"),
    ("exec", "coin"): (["--show"], HEARS.format("call coin"), "1"),
    ("exec", "contents"): (["--show"], IMAGE, "0102"),
    ("exec", "show"): ([], IMAGE, None),
    ("exec", "trace"): ([], IMAGE, None),
    ("asm", "list"): ([], OWN, None),
    ("compile", "nodes"): ([], RULE, "5"),
    ("compile", "memory"): ([], WORDS, "24"),
    ("compile", "faults"): (["--nodes", "64"], RULE, "2"),
    ("compile", "modulus"): ([], RULE, "9"),
    ("compile", "list"): ([], RULE, None),
    ("compile", "c"): ([], RULE, None),
    ("dis", "list"): ([], IMAGE, None),
    ("dis", "clock"): ([], IMAGE, None),
    ("dis", "nodes"): (["--clock", "--faults", "0"], IMAGE, "5"),
    ("dis", "faults"): (["--clock", "--nodes", "64"], IMAGE, "2"),
    ("dis", "modulus"): (["--clock"], IMAGE, "9"),
    ("dis", "node"): ([], AGREED, "3:0"),
    ("verify", "nodes"): ([], "mov64 r1, 7; call recv; exit", "8"),
    ("verify", "memory"): ([], "ldxb r0, [r1+16]; exit", "24"),
    ("verify", "text"): ([], OWN, None),
    ("verify", "explain"): ([], IMAGE, None),
    ("verify", "all"): (["--explain"], IMAGE, None),
    ("run", "workers"): ([], AGREED, "same 8"),
    ("run", "check"): ([], PARTED, None),
    ("run", "json"): ([], AGREED, None),
    ("run", "from"): (["--json"], AGREED, "3"),
    ("run", "until"): (["--json"], AGREED, "3"),
    ("run", "trace"): ([], AGREED, "3:0"),
    ("run", "claims"): ([], AGREED, PROPERTIES_FILE),
    ("stress", "loaders"): ([], b"", "1"),
    ("stress", "loads"): ([], b"", "3"),
    ("stress", "pulses"): ([], b"", "3"),
    ("stress", "workers"): ([], b"", "same 8"),
    ("sweep", "keys"): ([], SEEDED, "3..4"),
    ("sweep", "workers"): (["--keys", "1..3"], SEEDED, "same 3"),
    ("sweep", "claims"): (["--keys", "3..4"], SEEDED, PROPERTIES_FILE),
    ("explore", "mail"): ([], THREE, "0"),
    ("explore", "start"): (["--bytes", "0"], THREE, "any"),
    ("explore", "bytes"): (["--start", "any"], THREE, "0"),
    ("explore", "cells"): (["--start", "any"], THREE, "0=0"),
    ("explore", "said"): (["--start", "any", "--bytes", "0"], THREE, "0"),
    ("explore", "ask"): ([], THREE, "stabilisation"),
    ("explore", "states"): ([], THREE, "2"),
    ("explore", "depth"): ([], THREE, "2"),
    ("explore", "odds"): (["--ask", "stabilisation"], THREE, "2"),
    ("explore", "json"): ([], THREE, None),
    ("explore", "claims"): ([], THREE, PROPERTIES_FILE),
    ("explore", "images"): (["--start", "any"], THREE, "0500000000000000"),
    ("explore", "memory"): (["--ask", "stabilisation", "--start", "any", "--cells", "0=0,1,4..6=0,1"], COUNTING, "1"),
    ("explore", "reach"): (["--ask", "stabilisation", "--odds", "8"], THREE, "1/2"),
    ("explore", "graph"): (["--ask", "stabilisation"], THREE, "tra"),
    ("prove", "rule"): (["--claims", CLAIMS_FILE], CERTIFICATES, RULE_FILE),
    ("prove", "claims"): (["--rule", RULE_FILE], CERTIFICATES, CLAIMS_FILE),
}


def commands_of(program):
    """The commands that the help names, without `help` itself."""
    return [name for name in COMMAND.findall(answer(program, ["--help"], b"").out.decode()) if name != "help"]


def options_of(program, command):
    """By name: the range of the option, if it has one."""
    told = answer(program, [command, "--help"], b"").out.decode()
    return {name: RANGE.search(words) for name, _, words in OPTION.findall(told) if name != "help"}


class Tried:
    """The program with the answers that were wrong."""

    def __init__(self, program):
        self.program, self.count, self.found = program, 0, []

    def ask(self, words, given):
        got = answer(self.program, words, given)
        return got.status, got.out

    def must(self, holds, what):
        self.count += 1
        if not holds:
            self.found.append(what)

    def image(self, given):
        """The bytes of an input: those of an image where it is the text of one."""
        return answer(self.program, ["asm"], given.replace("; ", "\n").encode()).out if isinstance(given, str) else given


def try_difference(tried, command, name, row):
    words, given, value = row
    given = tried.image(given) if given is not None else IMAGE
    is_same = value is not None and value.startswith("same ")
    more = [f"--{name}"] if value is None else [f"--{name}", value.removeprefix("same ")]
    without, with_it = tried.ask([command, *words], given), tried.ask([command, *words, *more], given)
    what = f"{command} --{name}"
    tried.must(with_it[0] != 1, f"{what} {value}: status 1")
    tried.must((without == with_it) == is_same, f"{what} {value}: {without} without it, and {with_it} with it")


def try_range(tried, command, name, row, found):
    least, most, default = int(found[1]), int(found[2] or MANY - 1), found[3]
    words, given, _ = row
    given = tried.image(given) if given is not None else IMAGE
    words = ["--nodes", "64"] if (command, name) == ("exec", "id") else [it for it in words if (command, name) != ("exec", "nodes")]
    words = [] if (command, name) == ("exec", "nodes") else words
    span = (lambda it: f"{it}..{it}") if name == "keys" else str
    for value in {least, *([most] if found[2] else [])}:
        tried.must(tried.ask([command, *words, f"--{name}={span(value)}"], given)[0] != 1, f"{command} --{name} {value} is refused")
    for value in (least - 1, *([most + 1] if found[2] else [])):
        tried.must(tried.ask([command, *words, f"--{name}={span(value)}"], given)[0] == 1, f"{command} --{name} {value} is taken")
    if default and default.isdigit():
        same = tried.ask([command, *words], given) == tried.ask([command, *words, f"--{name}={default}"], given)
        tried.must(same, f"{command}: the default of --{name} isn't {default}")


def main():
    tried = Tried(named_program())
    options = {(command, name): found for command in commands_of(tried.program) for name, found in options_of(tried.program, command).items()}
    for key in options.keys() ^ ROWS.keys():
        tried.must(False, f"{' --'.join(key)}: {'has no row' if key in options else 'is no option'}")
    for (command, name), found in options.items():
        row = ROWS.get((command, name))
        if row:
            try_difference(tried, command, name, row)
        if row and found:
            try_range(tried, command, name, row, found)
    return tell("check_options", {"options": len(options), "answers": tried.count}, tried.found)


if __name__ == "__main__":
    sys.exit(main())
