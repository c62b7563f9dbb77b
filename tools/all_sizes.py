#!/usr/bin/env python3
"""Decides claims about a rule for all n, f and M by z3: tools/all_sizes.py [OPTIONS] RULE CLAIMS

RULE is a clock as a rule (docs/RULES.md). CLAIMS has its steps: what all correct nodes are before a pulse, and what
they are after it, whatever at most f Byzantine nodes send (docs/ALL_SIZES.md). A property (docs/PROPERTIES.md) is a step
from any state to where its term holds. Each step gets one answer:

  holds for all n, f, M (by z3)   with the sizes of a bench on which the step begins
  refuted                         with the first n, f and M on which it fails, from small ones up
  not decided                     with the reason

If RULE has holes, as in `support < ?quorum`, the claims are decided for each choice of terms for them.

Status 0: all steps hold, with holes for some choice. 2: an error of the command line, the rule or the claims. 3: a step
is refuted, with holes for each choice. 4: a step isn't decided, or z3 isn't installed.
"""
import argparse
import dataclasses
import pathlib
import sys

sys.dont_write_bytecode = True
from certificates import NotFound, certificate_of
from claims_text import ALWAYS, note_of, read_claims
from quorum_formula import OutsideCounts, verdict
from rule_text import MAX_FRAMES, Reader, Refused
from sketches import holes_of, sketches
from small_benches import beginning, refutation, scenario_of
from step_formulas import NotCovered, step_of
from symbolic import SAT, UNSAT, NoSolver, Solver

HOLDS, REFUTED, UNDECIDED = "holds for all n, f, M (by z3)", "refuted", "not decided"
STATUS = {HOLDS: 0, REFUTED: 3, UNDECIDED: 4}
ERROR, NO_SOLVER = 2, 4
OUTSIDE = "line {}, column {} of the claims: a property for all sizes compares words, sizes and numbers alone"


@dataclasses.dataclass
class Answer:
    """An answer to a step, with the case in which it begins or fails, or the reason why it isn't decided."""

    kind: str
    case: object = None
    reason: str = ""

    def sizes(self):
        return ", ".join(f"{name} = {it}" for name, it in self.case.names.items())

    def __str__(self):
        if self.kind == UNDECIDED:
            return f"{self.kind}: {self.reason}"
        begins = "; it begins" if self.kind == HOLDS else ""
        return f"{self.kind}{begins} at {self.sizes()}{self.reason}"


def answer(solver, rule, claims, step, most):
    """The answer to a step; `most` is the greatest number of nodes of a bench that is tried."""
    if step.uncovered:
        return Answer(UNDECIDED, reason=OUTSIDE.format(*step.uncovered))
    try:
        begun = beginning(solver, rule, claims, step, most)
        if begun is None:
            missing = "sizes meet 'assume'" if step.form else "state meets its left side and 'if'"
            return Answer(UNDECIDED, reason=f"no {missing} on a bench of up to {most} nodes")
        return of_form(step, decided(solver, rule, claims, step, most) or Answer(HOLDS, begun))
    except OutsideCounts as why:
        return Answer(UNDECIDED, reason=str(why))


def of_form(step, found):
    """The answer to a step or a property: `eventually always` and `within` allow that the term fails after a pulse."""
    if found.kind != REFUTED or step.form in (None, ALWAYS):
        return found
    where = f"its term fails after a pulse at {found.sizes()}, which refutes only always"
    return Answer(UNDECIDED, reason=f"{where}{found.reason}")


def decided(solver, rule, claims, step, most):
    """The answer to a step that begins on some bench, or None if it holds for all sizes."""
    try:
        told, reason = verdict(solver, rule, claims, step), ""
    except OutsideCounts as why:
        told, reason = None, str(why)
    if told == UNSAT:
        return None
    case, undecided = refutation(solver, rule, claims, step, most)
    if case:
        smaller = f"; z3 didn't decide {undecided} smaller cases in {solver.seconds} s each" if undecided else ""
        return Answer(REFUTED, case, smaller)
    if told == SAT:
        reason = "the laws of quorums aren't enough"
    reason = reason or f"z3 took {solver.seconds} s for a formula"
    none = "z3 decided no" if undecided else "no"
    return Answer(UNDECIDED, reason=f"{reason}; {none} refutation on a bench of up to {most} nodes")


# ---- the command line


def parsed(words):
    about, more = __doc__.split("\n\n", 1)
    parser = argparse.ArgumentParser(
        usage=about.split(": ", 1)[1], description=about.split(": ")[0] + ".", epilog=more,
        formatter_class=argparse.RawDescriptionHelpFormatter,
    )
    parser.add_argument("rule", type=pathlib.Path, metavar="RULE")
    parser.add_argument("claims", type=pathlib.Path, metavar="CLAIMS")
    parser.add_argument(
        "--scenario", type=pathlib.Path,
        help="file for the first refuted step as a scenario; with holes a folder for those of all choices",
    )
    parser.add_argument(
        "--certificate", type=pathlib.Path, metavar="FILE",
        help="file for certificates of the steps that hold, which `clockbed prove` checks; not with holes",
    )
    parser.add_argument(
        "--hole", type=hole_of, action="append", default=[], dest="holes", metavar="NAME=TERM,..",
        help="terms to try for ?NAME in the rule [default: sums of n, f and 1]",
    )
    parser.add_argument("--line", type=int, help="decide the step or property in this line of the claims alone")
    parser.add_argument("--nodes", type=int, default=5, help="the most nodes of a refutation [default: 5]")
    parser.add_argument("--seconds", type=int, default=20, help="time limit of a formula [default: 20]")
    options = parser.parse_args(words)
    options.holes = dict(options.holes)
    for name, least, most in (("nodes", 1, 64), ("seconds", 1, 86400)):
        if not least <= getattr(options, name) <= most:
            parser.error(f"--{name} {getattr(options, name)} is outside {least}..{most}")
    return options


def end(note):
    """Ends with a note on standard error."""
    print(note, file=sys.stderr)
    sys.exit(ERROR)


def read(path):
    try:
        return path.read_bytes()
    except OSError as why:
        end(f"all_sizes.py: {path}: {why.strerror}")


def understood(text, reader):
    """What a reader makes of a text. An error ends the program with a note."""
    try:
        return reader(text)
    except Refused as why:
        print(why, flush=True)
        end(note_of(why, text))


def rule_of(text):
    return understood(text, lambda text: Reader(text).rule())


def hole_of(word):
    name, equals, terms = word.partition("=")
    if not name or not equals or not terms:
        raise argparse.ArgumentTypeError(f"{word} isn't as quorum=n - f,n - 2 * f")
    return name, [it.strip() for it in terms.split(",")]


def chosen_steps(options, claims):
    steps = [it for it in claims.steps if options.line in (None, it.line)]
    if not steps:
        lines = ", ".join(str(it.line) for it in claims.steps)
        end(f"all_sizes.py: --line {options.line} has no step and no property; these are in the lines {lines}")
    return steps


def certificate_text(rule, claims, step, case):
    """The certificate of a step that holds and begins in this case, or nothing and a note why there is none."""
    try:
        return f"step {step.line}\n{certificate_of(rule, step_of(claims, step, rule.words), case)}"
    except (NotCovered, NotFound) as why:
        print(f"all_sizes.py: line {step.line}: no certificate: {why}", file=sys.stderr)
        return ""


def write(path, text):
    try:
        path.write_text(text, encoding="utf-8")
    except OSError as why:
        end(f"all_sizes.py: {path}: {why.strerror}")


def write_scenario(path, text, rule, claims, step_and_case):
    write(path, scenario_of(text, rule, claims, *step_and_case))


def make_folder(path):
    try:
        path.mkdir(parents=True, exist_ok=True)
    except OSError as why:
        end(f"all_sizes.py: {path}: {why.strerror}")


def decide(solver, options, text, rule, claims):
    """Decides and prints each step. Gives the status."""
    answers = {}
    for step in chosen_steps(options, claims):
        answers[step.line] = answer(solver, rule, claims, step, options.nodes)
        print(f"line {step.line}: {step.text}\n  {answers[step.line]}", flush=True)
        refuted = [it for it in answers.values() if it.kind == REFUTED]
        if options.scenario and refuted == [answers[step.line]]:
            write_scenario(options.scenario, text, rule, claims, (step, refuted[0].case))
    if options.certificate:
        holding = [it for it in chosen_steps(options, claims) if answers[it.line].kind == HOLDS]
        texts = (certificate_text(rule, claims, it, answers[it.line].case) for it in holding)
        write(options.certificate, "".join(texts))
    status = status_of(answers.values())
    if options.scenario and status != STATUS[REFUTED]:
        print(f"all_sizes.py: no step is refuted, so {options.scenario} isn't written", file=sys.stderr)
    return status


def status_of(answers):
    kinds = [it.kind for it in answers]
    return next((STATUS[it] for it in (REFUTED, UNDECIDED) if it in kinds), 0)


def decide_sketches(solver, options, text, claims):
    """Decides and prints each choice of terms for the holes of a rule. Gives the status."""
    steps, kinds = chosen_steps(options, claims), []
    if options.scenario:
        make_folder(options.scenario)
    for number, (terms, whole) in enumerate(sketches(text, options.holes), 1):
        rule = rule_of(whole)
        step, found = first_that_fails(solver, rule, claims, steps, options.nodes)
        kinds.append(found.kind if found else HOLDS)
        shown = ", ".join(f"?{name} = {term}" for name, term in terms.items())
        every = f"all {len(steps)} steps hold" if len(steps) > 1 else f"line {steps[0].line} holds"
        print(f"{shown}: {f'line {step.line} {found}' if found else every}", flush=True)
        if options.scenario and kinds[-1] == REFUTED:
            write_scenario(options.scenario / f"{number}.toml", whole, rule, claims, (step, found.case))
    right = kinds.count(HOLDS)
    print(f"{right} of {len(kinds)} hold{'s' * (right == 1)} for all n, f, M (by z3)")
    return 0 if right else STATUS[UNDECIDED if UNDECIDED in kinds else REFUTED]


def first_that_fails(solver, rule, claims, steps, most):
    """The first step that doesn't hold, with its answer, or None twice."""
    for step in steps:
        found = answer(solver, rule, claims, step, most)
        if found.kind != HOLDS:
            return step, found
    return None, None


def main(words):
    options = parsed(words)
    sys.setrecursionlimit(MAX_FRAMES)
    text = read(options.rule)
    holes = holes_of(text)
    if holes and options.certificate:
        end("all_sizes.py: --certificate isn't for rules with holes")
    unknown = sorted(set(options.holes) - set(holes))
    if unknown:
        end(f"all_sizes.py: {options.rule} has no hole ?{unknown[0]}")
    rule = rule_of(next(sketches(text, options.holes))[1])
    claims = understood(read(options.claims), lambda text: read_claims(text, rule.words))
    try:
        solver = Solver(options.seconds)
    except NoSolver:
        print("all_sizes.py: z3 isn't on the PATH: apt-get install z3", file=sys.stderr)
        return NO_SOLVER
    status = decide_sketches(solver, options, text, claims) if holes else decide(solver, options, text, rule, claims)
    solver.close()
    return status


if __name__ == "__main__":
    sys.exit(main(sys.argv[1:]))
