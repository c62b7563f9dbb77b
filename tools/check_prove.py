#!/usr/bin/env python3
"""Tries `clockbed prove` on the certificates of examples/certificates/: check_prove.py [PROGRAM]

Each step of their claims that has a certificate must be proved, and each other one not, with the status for that. A step
that a small bench refutes must not be proved, whatever its certificate is: the certificates are changed word by word, and
those of other steps are given to it. Nor must a step be proved if the state of its certificate doesn't begin it. A
certificate that ends early, or has a wrong word, must be refused with the number of the word, and claims with an error
with line and column. Of a rule outside the fragment it must be said why. Properties must be proved in each form, or not
be covered. The certificates of an example are checked within a bound on time. If z3 is installed, a certificate that
tools/all_sizes.py writes must prove its step. PROGRAM is as for check_rows.py.
"""
import pathlib
import random
import re
import shutil
import subprocess
import sys
import tempfile
import time

sys.dont_write_bytecode = True
from built_program import TOP, answer, named_program, on_all_processors, tell

SEED, CHANGES, SECONDS = 9669, 120, 0.5
HOLDS, NONE = "holds for all n, f, M; it begins at n = 4, f = 1, M = ", "not proved: no certificate"
UNBEGUN = "not proved: the state of the certificate doesn't begin it"
UNCOVERED_PROPERTY = "not proved: the property isn't covered"
UNJUDGED = "not proved: the certificate can't be judged: the rule "
# A step that a certificate proves of `clock = 0`, and rules of which none is judged, with the reason.
ZERO_CLAIM = "set Zero: p.clock == 0\nstep any -> Zero\n"
ZERO_CERTIFICATE = "step 2\nbegins 2 1 2 free 0 sent 0 words 1 0\nuses 0\nrefute split 0 sum 1 0 1 sum 1 0 1\n"
OUTSIDE = [
    ("for j: clock = 0\nsend clock\n", "has a loop"),
    ("let x = least j: mail[j] < M\nclock = 0\nsend clock\n", "has a least message"),
    ("let x = sorted[f] j: mail[j]\nclock = 0\nsend clock\n", "sorts numbers"),
    ("clock = 0\nsend clock to 1\n", "sends to one node"),
]
# The steps that have a certificate, with the M at which each begins, and those that have none.
EXAMPLES = {
    "clock": ({6: 2, 10: 2, 11: 2, 19: 2, 20: 3, 21: 2, 22: 2}, []),
    "two_coins": ({7: 2, 8: 2, 13: 2, 16: 2, 17: 2}, [6]),
    "agreement": ({3: 2}, []),
}
# The rule, the claims and the certificates of an example, if they aren't those of its name.
FILES = {"agreement": ("rules/clock.rule", "properties/agreement.claims", "certificates/agreement.txt")}
# Wrong rules and claims: what is changed, and the lines whose steps are then refuted by a small bench.
WRONG = [
    ("clock", "n > 3 * f", "n > 2 * f", [6]),
    ("clock", "n > 3 * f", "n >= 3 * f", [6]),
    ("clock", "support < n - f:", "support < n - f - 1:", [6]),
    ("clock", "support < n - f:", "support < f + 1:", [6]),
    ("clock", "support < n - f:", "support < n - f + 1:", [10]),
    ("clock", "elif mark != 0:", "elif 1 == 0:", [10]),
    ("two_coins", "n > 3 * f", "n >= 3 * f", [7]),
    ("two_coins", "zeros >= n - f", "zeros >= n - f - 1", [7]),
    ("agreement", "n > 3 * f", "n >= 3 * f", [3]),
    ("agreement", "assume n > 3 * f", "", [3]),
    ("agreement", "support < n - f:", "support < n - f - 1:", [3]),
    ("agreement", "always p.clock == 0 or q.clock == 0 or p.clock == q.clock", "always p.clock == q.clock", [3]),
    ("agreement", "p.clock == q.clock", "p.clock != q.clock", [3]),
]
# Lines in place of the property of `agreement` that its certificate proves as well.
ALIKE = [
    "eventually always p.clock == 0 or q.clock == 0 or p.clock == q.clock",
    "within 0 p.clock == 0 or q.clock == 0 or p.clock == q.clock",
    "within 1000000 p.clock == 0 or q.clock == 0 or p.clock == q.clock",
    "  always ((p.clock == 0 or\n\n  (q.clock == 0)) or (p.clock) == q.clock)  # the same",
]
# Lines in its place that aren't covered.
UNCOVERED = [
    "always p.clock <= q.clock + 1",
    "always p.clock == 0 or q.clock == 0 or p.clock == q.clock or 1 == 1 + 0",
    "always p.clock == 0 or q.clock == 0 or p.before.clock == q.clock",
    "eventually always p.me == q.me",
    "within 2 (1 if p.clock else 0)",
    "always p.mark == (q.clock != 0)",
    "always p.mark == (not q.clock)",
    "always p.clock - 1",
]
# Steps of the clock that no state begins, or not the one of the certificate of line 11: Common[M - 1] -> Common[0].
IMPOSSIBLE = [
    ("step Common[M - 1] ->", "step Common[M] ->"),
    ("set Common[c]: p.clock == c", "set Common[c]: p.clock != p.clock"),
    ("assume n > 3 * f", "assume n > 3 * f and n < f"),
    ("assume n > 3 * f", "assume n > 3 * f and n > 4"),
    ("step Common[M - 1] -> Common[0]", "step Common[M - 1] -> Common[0] if M < 2"),
    ("step Common[M - 1] -> Common[0]", "step Common[M - 1] -> Common[0] coin 2"),
]
# Assumptions of `agreement` that the state of its certificate doesn't meet.
UNMET = ["n > 3 * f and n > 4", "n > 3 * f and M != 2", "n > 3 * f and f == 0"]
# The state of that certificate, and states that don't begin the step.
BEGUN_11 = "begins 4 1 2 free 0 sent 1 words 2 1 1"
STATES = [
    "begins 4 1 2 free 0 sent 1 words 2 0 1",
    "begins 4 1 2 free 0 sent 0 words 2 1 1",
    "begins 4 1 2 free 0 sent 1 words 1 1",
    "begins 3 1 2 free 0 sent 1 words 2 1 1",
    "begins 4 4 2 free 0 sent 1 words 2 1 1",
    "begins 0 0 2 free 0 sent 1 words 2 1 1",
    "begins 4 1 1 free 0 sent 0 words 2 0 1",
    "begins 4 1 3 free 0 sent 1 words 2 1 1",
]
# Claims with an error, and the error.
FAULTY = [
    ("asume n > f", "Expected line 1 column 1"),
    ("set A: p.clok == 1\nstep any -> A", "UnknownName line 1 column 10"),
    ("set A: p == 1\nstep any -> A", "Expected line 1 column 10"),
    ("set A: me\nstep any -> A", "Expected line 1 column 8"),
    ("set As: 1\nstep As -> A", "UnknownName line 2 column 12"),
    ("set A: 1\nset A: 2", "NameTwice line 2 column 5"),
    ("assume n $", "BadCharacter line 1 column 10"),
    ("assume n", "Expected line 1 column 9"),
    ("set A: p.clock / 2 == 0\nstep any -> A", "NotCovered line 1 column 16"),
    ("set A: p.clock * q.clock == 0\nstep any -> A", "NotCovered line 1 column 16"),
    ("set A: p.clock == 4294967296\nstep any -> A", "OutOfRange line 1 column 19"),
    ("set A: p.clock == 0\nstep any -> A correct", "NotCovered line 2 column 15"),
    ("set A: 600 * p.clock + 3401 * n > 0\nstep any -> A", "OutOfRange line 1 column 33"),
    ("set A: " + "1 and " * 4000 + "1\nstep any -> A", "TooLong line 1 column 16388"),
    ("assume 1\n" * 4000, "TooLong line 1821 column 8"),
    ("assume n > f\nalways p.clok == 0", "UnknownName line 2 column 10"),
    ("always p.sent == 0", "UnknownName line 1 column 10"),
    ("always p.before.sent == 0", "UnknownName line 1 column 17"),
    ("always c == p.clock", "UnknownName line 1 column 8"),
    ("always p == 0", "Expected line 1 column 10"),
    ("always p.clock ==", "Expected line 1 column 18"),
    ("eventually p.clock", "Expected line 1 column 12"),
    ("within p.clock", "Expected line 1 column 8"),
    ("within 1000001 p.clock", "OutOfRange line 1 column 8"),
    ("always mail[0] == 0", "NotCovered line 1 column 8"),
    ("always p.clock == q.clock and clock", "NotCovered line 1 column 31"),
    ("step any -> any\nalways (count j: mail[j] == 0) > f", "NotCovered line 2 column 9"),
    ("assume p.clock > 1\nalways p.clock", "Expected line 1 column 8"),
    ("assume n / 2 > f\nalways p.clock", "NotCovered line 1 column 10"),
]
# A rule with a word that properties have for something else, claims, and the error.
TAKEN = ("state before\nclock = 0\nsend clock\n", "assume n > f\n\n  within 4 p.clock == 0", "NameTwice line 3 column 3")
# Claims that are as long and as deep as they may be.
LONGEST = [
    "set A: " + "1 and " * 2700 + "1\nstep any -> A",
    "set A: " + "1 or " * 3200 + "1\nstep any -> A",
    "assume 1\n" * 1800 + "step any -> any",
    "set A: 4000 * n >= 0\nstep any -> A",
    "always " + "1 and " * 2700 + "1",
    "within 7 " + "p.clock or " * 1400 + "1",
]
# Certificates with an error, and the error.
BEGUN = "step 6 begins 4 1 2 free 0 sent 0 words 2 0 0"
BAD = [
    ("step", "End"),
    ("step 6 uses 0", "Word 3"),
    ("stop 6", "Word 1"),
    ("step six uses 0", "Word 2"),
    ("step 6 begins 4 1 2 free 1 sent 0 words 0", "Word 9"),
    ("step 6 begins 4 1 4294967296 free 0", "Word 6"),
    ("step 6 begins 4 1 2 free 0 sent 0 words 3 0 0 uses", "Word 15"),
    (f"{BEGUN} uses 0", "End"),
    (f"{BEGUN} uses 1 one r 0 yes", "Word 18"),
    (f"{BEGUN} uses 0 follow refute sum 0 refute add", "Word 22"),
    (f"{BEGUN} uses 0 " + "follow " * 501, "TooDeep word 516"),
    (f"{BEGUN} uses 0 refute " + "open 0 " * 300, "TooDeep word 617"),
]
# Plans that are as deep as they may be: they prove nothing.
DEEPEST = [
    "refute " + "open 0 " * 299 + "sum 0",
    "refute " + "cut le 1 1 1 0 le 1 1 -1 1 " * 299 + "sum 0 " * 300,
    "follow " * 499 + "refute " + "cut le 1 1 1 0 le 1 1 -1 1 " * 299 + "sum 0 " * 300 + "refute sum 0 " * 499,
]


class Example:
    """A rule with claims and certificates, or with an edit of one of them."""

    def __init__(self, name, old="", new=""):
        paths = FILES.get(name, (f"rules/{name}.rule", f"claims/{name}.claims", f"certificates/{name}.txt"))
        self.rule, self.claims, self.certificates = (
            (TOP / "examples" / it).read_text(encoding="utf-8") for it in paths
        )
        if old:
            if old not in self.rule + self.claims:
                raise ValueError(f"{name} has no {old!r}")
            self.rule, self.claims = self.rule.replace(old, new), self.claims.replace(old, new)


def proved(program, room, example):
    """What the program answers."""
    for name, text in (("rule", example.rule), ("claims", example.claims)):
        (room / name).write_text(text, encoding="utf-8")
    words = ["prove", "--rule", str(room / "rule"), "--claims", str(room / "claims")]
    return answer(program, words, example.certificates.encode())


def lines_of(told):
    """The answer of each line."""
    return {int(line): said for line, said in re.findall(r"line (\d+): [^\n]*\n  ([^\n]*)\n", told.out.decode())}


def in_a_room(asked):
    """A function that gives each question a folder of its own."""

    def faults(item):
        with tempfile.TemporaryDirectory() as room:
            return list(asked(pathlib.Path(room), item))

    return faults


def example_faults(program):
    def faults(room, name):
        with_one, without = EXAMPLES[name]
        began = time.monotonic()
        told = proved(program, room, Example(name))
        took = time.monotonic() - began
        wanted = {line: f"{HOLDS}{modulus}" for line, modulus in with_one.items()} | dict.fromkeys(without, NONE)
        if lines_of(told) != wanted or told.status != (4 if without else 0) or told.err:
            yield f"{name}: {told}"
        if took > SECONDS:
            yield f"{name}: its certificates took {took:.2f} s of {SECONDS} s"

    return in_a_room(faults)


def wrong_faults(program):
    """A wrong step isn't proved by the right one's certificate."""

    def faults(room, item):
        name, old, new, lines = item
        told = proved(program, room, Example(name, old, new))
        answers = lines_of(told)
        if told.status != 4 or any(answers.get(line, HOLDS).startswith(HOLDS) for line in lines):
            yield f"{name} with {new!r}: {told}"

    return in_a_room(faults)


def begun_faults(program):
    """A step isn't proved if no state begins it, or not that of its certificate."""

    def faults(room, item):
        old, new = item
        example = Example("clock")
        example.claims = example.claims.replace(old, new)
        example.certificates = example.certificates.replace(old, new)
        told = proved(program, room, example)
        if (told.status, lines_of(told).get(11)) != (4, UNBEGUN):
            yield f"clock with {new!r}: {told}"

    return in_a_room(faults)


def property_faults(program):
    """A property of the same term is proved by the certificate, in each form, and others aren't covered."""

    def faults(room, item):
        old, new, wanted = item
        example = Example("agreement")
        example.claims = example.claims.replace(old, new)
        told = proved(program, room, example)
        if lines_of(told) != {3: wanted} or told.status != (0 if wanted.startswith(HOLDS) else 4) or told.err:
            yield f"{example.claims}: {told}"

    return in_a_room(faults)


def property_trials():
    """Edits of `agreement`, and the answer to its property then."""
    line = Example("agreement").claims.splitlines()[2]
    for new in ALIKE:
        yield line, new, f"{HOLDS}2"
    for new in UNCOVERED:
        yield line, new, UNCOVERED_PROPERTY
    for new in UNMET:
        yield "n > 3 * f", new, UNBEGUN


def changed(certificates, drawn):
    """A certificate with a word changed, left out or said twice."""
    words = certificates.split()
    place = drawn.randrange(len(words))
    kind = drawn.randrange(3)
    if kind == 0:
        words[place] = drawn.choice(words)
    elif kind == 1:
        del words[place]
    else:
        words.insert(place, words[place])
    return " ".join(words)


def change_faults(program):
    """A refuted step isn't proved by a changed certificate of another one."""

    def faults(room, number):
        drawn = random.Random(f"{SEED} {number}")
        example = Example("two_coins")
        parts = re.split(r"(?m)^step \d+\n", example.certificates)[1:]
        example.certificates = f"step 6\n{changed(drawn.choice(parts), drawn)}"
        told = proved(program, room, example)
        if told.status not in (2, 4) or lines_of(told).get(6, "").startswith(HOLDS):
            yield f"changed certificate {number}: {told}"

    return in_a_room(faults)


def depth_faults(program):
    """Texts at the limits are read, and the program goes on."""

    def faults(room, item):
        kind, text = item
        example = Example("clock")
        if kind == "claims":
            example.claims, example.certificates = text, ""
        else:
            example.certificates = f"{BEGUN} uses 0 {text}"
        told = proved(program, room, example)
        if told.status != 4 or told.err:
            yield f"{text[:60]!r}: {told}"[:400]

    return in_a_room(faults)


def refused_faults(program):
    def faults(room, item):
        kind, text, error, *rule = item
        example = Example("clock")
        example.rule = rule[0] if rule else example.rule
        if kind == "claims":
            example.claims = text
        else:
            example.certificates = text
        told = proved(program, room, example)
        if (told.status, told.out.decode()) != (2, f"refused {kind} {error}\n"):
            yield f"{text[:60]!r}: {told}"

    return in_a_room(faults)


def outside_faults(program):
    """Why no certificate of a rule is judged. Of the rule without that part it is."""

    def faults(room, item):
        rule, reason = item
        example = Example("clock")
        example.rule, example.claims, example.certificates = rule, ZERO_CLAIM, ZERO_CERTIFICATE
        told = proved(program, room, example)
        if told.status != 4 or lines_of(told).get(2) != f"{UNJUDGED}{reason}":
            yield f"{rule!r}: {told}"
        example.rule = "clock = 0\nsend clock\n"
        if not lines_of(proved(program, room, example)).get(2, "").startswith("holds for all n, f, M"):
            yield f"{ZERO_CLAIM!r} isn't proved"

    return in_a_room(faults)


def written_faults(program):
    """The certificate that the tool writes of one step or property of the clock."""

    def faults(room, item):
        name, line = item
        example = Example(name)
        (room / "written_of").write_text(example.claims, encoding="utf-8")
        names = [str(TOP / "examples/rules/clock.rule"), str(room / "written_of")]
        words = [sys.executable, str(TOP / "tools/all_sizes.py"), *names, "--seconds", "300", "--line", str(line)]
        subprocess.run([*words, "--certificate", str(room / "written")], capture_output=True, check=False)
        example.certificates = (room / "written").read_text(encoding="utf-8")
        told = proved(program, room, example)
        if lines_of(told).get(line) != f"{HOLDS}{EXAMPLES[name][0][line]}":
            yield f"line {line}, as all_sizes.py writes it: {told}"

    return in_a_room(faults)


def main():
    program = named_program()
    refused = [("claims", *it) for it in FAULTY] + [("certificate", *it) for it in BAD]
    refused.append(("claims", *TAKEN[1:], TAKEN[0]))
    properties = list(property_trials())
    found = on_all_processors(example_faults(program), EXAMPLES)
    found += on_all_processors(wrong_faults(program), WRONG)
    unbegun = [*IMPOSSIBLE, *((BEGUN_11, it) for it in STATES)]
    found += on_all_processors(begun_faults(program), unbegun)
    found += on_all_processors(property_faults(program), properties)
    found += on_all_processors(change_faults(program), range(CHANGES))
    found += on_all_processors(refused_faults(program), refused)
    found += on_all_processors(outside_faults(program), OUTSIDE)
    deep = [("claims", it) for it in LONGEST] + [("certificate", it) for it in DEEPEST]
    found += on_all_processors(depth_faults(program), deep)
    counts = {"examples": len(EXAMPLES), "wrong steps": len(WRONG), "no beginnings": len(unbegun), "changes": CHANGES}
    counts |= {"properties": len(properties)}
    counts |= {"refusals": len(refused), "outside": len(OUTSIDE), "at limits": len(deep)}
    if shutil.which("z3"):
        written = [("clock", 11), ("agreement", 3)]
        found += on_all_processors(written_faults(program), written)
        counts["written"] = len(written)
    return tell("check_prove", counts, found)


if __name__ == "__main__":
    sys.exit(main())
