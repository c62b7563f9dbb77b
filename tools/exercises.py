#!/usr/bin/env python3
"""Checks the answers of a folder to the exercises of docs/EXERCISES.md: tools/exercises.py [OPTION..] FOLDER

    --seed SEED     exercises 5 and 6 have the coins of this seed and 40 pulses (docs/TEACHING.md, "Seeds")
    --seconds N     most seconds for each exercise [default: 20]
    --memory MIB    most mebibytes for this process and for each that it starts; 0 is no limit [default: 2048]
    --json          a line of JSON for each exercise in place of a line of text

The status is 0 if all exercises are done. CLOCKBED names the program, otherwise it is the one of this folder.
"""
import argparse
import contextlib
import errno
import json
import os
import pathlib
import re
import resource
import signal
import stat
import sys

sys.dont_write_bytecode = True
from python_package import use_package

use_package()
from clockbed import Bench, ClockbedError, Fault, NotFinished, ProgramMissing, Rejected, Scenario

EXAMPLES = pathlib.Path(__file__).resolve().parent.parent / "examples"
MAX_BYTES = 1 << 20
MAX_NUMBERS = 64
SEEDED_PULSES = 40


class Wrong(Exception):
    """Says what is wrong with an answer."""


class Missing(Exception):
    """Says that an answer isn't there."""


class OutOfTime(Exception):
    """Says that a check took too long."""


class Answers:
    """The files of a student, and the student's seed if there is one."""

    def __init__(self, folder, seed=None):
        self.folder, self.seed = pathlib.Path(folder), seed

    def bytes_of(self, name):
        """Reads a file, but no link, pipe or device, and no more than a scenario may have."""
        try:
            handle = os.open(self.folder / name, os.O_RDONLY | os.O_NOFOLLOW | os.O_NONBLOCK | os.O_CLOEXEC)
        except FileNotFoundError:
            raise Missing(f"{name} is missing") from None
        except OSError as why:
            is_link = why.errno == errno.ELOOP
            reason = "is a link; hand in the file itself" if is_link else f"can't be read: {why.strerror}"
            raise Wrong(f"{name} {reason}") from None
        with open(handle, "rb") as file:
            if not stat.S_ISREG(os.fstat(handle).st_mode):
                raise Wrong(f"{name} is no file")
            read = file.read(MAX_BYTES + 1)
        if len(read) > MAX_BYTES:
            raise Wrong(f"{name} has more than {MAX_BYTES} bytes")
        return read

    def text(self, name):
        try:
            return self.bytes_of(name).decode()
        except UnicodeDecodeError as why:
            raise Wrong(f"{name} is no text: byte {why.start} isn't UTF-8") from None

    def scenario(self, name):
        return Scenario(self.text(name))

    def run(self, name):
        return self.scenario(name).run()


def must(holds, otherwise):
    if not holds:
        raise Wrong(otherwise)


def must_be_bench(run, nodes, faults, modulus):
    setup = run.setup
    told = f"{setup.nodes} nodes, {setup.faults} faults, modulus {setup.modulus}"
    wanted = f"{nodes} nodes, {faults} faults, modulus {modulus}"
    must(told == wanted, f"the bench has {told}; the exercise has {wanted}")


def must_only_load(run, **programs):
    """The run has only these programs, each loaded on so many nodes, and no other change."""
    staged = [it for pulse in run.pulses for it in pulse.staged]
    must(all(it.load is not None for it in staged), "only loads are allowed, no unload and no corruption")
    for kind in {it.program.value for it in staged} | set(programs):
        nodes = {it.load for it in staged if it.program == kind}
        count = programs.get(kind, 0)
        must(len(nodes) == count, f"{len(nodes)} nodes are loaded with {kind}; the exercise has {count}")


def must_have_clock_of_the_rule(run):
    must(run.setup.clock in (None, "rule", "bed"), "the clock is your own; the exercise has the built-in clock")


def must_have_coins(run, wanted):
    for pulse, other in zip(run.pulses, wanted.pulses):
        must(pulse.coins == other.coins, f"the coins of pulse {pulse.pulse} aren't those that the exercise names")


def must_have_seed(run, seed):
    """The run has the coins of the seed, if there is one."""
    if seed is not None:
        count = len(run.pulses)
        must(count == SEEDED_PULSES, f"there are {count} pulses; with a seed the exercise has {SEEDED_PULSES}")
        must_have_coins(run, Bench(run.setup.nodes, run.setup.faults).run(SEEDED_PULSES, key=seed))


# The exercises.


def check_still(answers):
    run = answers.run("still.toml")
    must_only_load(run, clock=4)
    must_have_clock_of_the_rule(run)
    still = sum(it.clocks == (0, 0, 0, 0) for it in run.pulses)
    must(still == 20, f"in {still} pulses all four clocks are 0; the exercise asks for 20")


def check_in_time(answers):
    run = answers.run("in_time.toml")
    must_be_bench(run, 4, 1, 8)
    must_only_load(run, clock=4)
    must_have_coins(run, Scenario.read(EXAMPLES / "late_clock.toml").run())
    first = next((it for it in run.pulses if None not in it.clocks), None)
    must(first, "in no pulse all four nodes run the clock")
    must(first.pulse > 1, "node 3 has to be late: all four nodes run the clock in pulse 1")
    clocks = first.clocks
    must(len(set(clocks)) == 1 and clocks[0], f"in pulse {first.pulse}, the first of all four, the clocks are {clocks}")


def check_helped(answers):
    run = answers.run("helped.toml")
    must_be_bench(run, 4, 1, 8)
    corrupted = [(it.pulse, change.corrupt) for it in run.pulses for change in it.staged if change.corrupt is not None]
    is_one = corrupted == [(5, 3)]
    must(is_one, f"the exercise asks for one corruption, of node 3 before pulse 5; (pulse, node) are {corrupted}")
    loads = [it.pulse for it in run.pulses for change in it.staged if change.load == 3]
    must(loads == [5], f"node 3 is loaded before pulses {loads}; the exercise leaves that at 5")
    clocks = run.pulses[4].clocks
    must(clocks == (4, 4, 4, 4), f"in pulse 5 the clocks are {clocks}")


def check_path(answers):
    found = Bench().verify(asm=answers.text("path.s"))
    must(found.slots == 13, f"the program has {found.slots} instructions; the exercise asks for 13")
    must(found.announced == 10, f"its longest path has {found.announced} instructions; the exercise asks for 10")


def check_parted(answers):
    run = answers.run("parted.toml")
    must_be_bench(run, 4, 2, 8)
    must_have_clock_of_the_rule(run)
    must_only_load(run, clock=3, say=1)
    must_have_seed(run, answers.seed)
    must(run.violations, f"no pulse of {len(run.pulses)} violates agreement")


def check_bound(answers):
    few, enough = answers.run("too_few.toml"), answers.run("enough.toml")
    must_be_bench(few, 6, 2, few.setup.modulus)
    must_be_bench(enough, 7, 2, enough.setup.modulus)
    for run in (few, enough):
        must_have_clock_of_the_rule(run)
        must_only_load(run, clock=run.setup.nodes - 2, say=2)
        must_have_seed(run, answers.seed)
    must(few.violations, "with six nodes no pulse violates agreement")
    must(not enough.violations, f"with seven nodes pulse {enough.violations[:1]} violates agreement")


def check_fixed(answers):
    try:
        answers.run("refused.toml")
    except Rejected as why:
        is_by_rule = why.kind == "NotAccepted" and " rule 9 " in why.answer
        must(is_by_rule, f"refused.toml is rejected by another rule than 9: {why.answer}")
    else:
        raise Wrong("refused.toml is accepted; the exercise asks for a program that the verifier rejects by rule 9")
    run = answers.run("mended.toml")
    nodes = run.setup.nodes
    byzantine = {it.load for pulse in run.pulses for it in pulse.staged if it.program not in (None, "clock")}
    must(len(byzantine) == 1, f"mended.toml has {len(byzantine)} Byzantine nodes; the exercise has one")
    sender = byzantine.pop()
    sent = {to for it in run.pulses for to, message in enumerate(it.sent[sender]) if message is not None}
    is_next = sent == {(sender + 1) % nodes}
    must(is_next, f"in mended.toml node {sender} sends to {sorted(sent)}, not to the node after it alone")
    must(run.summary.agreed == 10, f"in mended.toml {run.summary.agreed} pulses agree; the exercise has 10")


def check_carried(answers):
    run = answers.run("carried.toml")
    must_be_bench(run, 3, 1, 8)
    must_have_clock_of_the_rule(run)
    carried = [it.clocks[0] for it in run.pulses if it.clocks[0] and it.clocks[1:] == (0, None) and it.agree]
    count = len(carried)
    must(count == 7, f"in {count} pulses node 0 counts alone and agreement holds; the exercise asks for 7")


def check_delayed(answers):
    run = answers.run("delayed.toml")
    must_be_bench(run, 4, 1, 8)
    must_have_clock_of_the_rule(run)
    must(len(run.pulses) > 40, f"{len(run.pulses)} pulses are too few to tell: the exercise has 100")
    must_have_coins(run, Bench(4, 1, 8).run(len(run.pulses), key=21))
    started = next((it.pulse for it in run.pulses if it.clocks[0] and len(set(it.clocks[:3])) == 1), None)
    must(started is None or started > 40, f"the three clocks are equal and not 0 in pulse {started}, not after 40")


def check_own(answers):
    run, led = answers.run("own.toml"), Scenario.read(EXAMPLES / "clocks/greatest_led.toml").run()
    must_be_bench(run, led.setup.nodes, led.setup.faults, led.setup.modulus)
    sent = [it.sent[3] for it in run.pulses]
    must(sent == [it.sent[3] for it in led.pulses], "node 3 doesn't send what the adversary of the exercise sends")
    counts = [it.counts for it in run.pulses if it.counts is not None]
    told = f"agreed {run.summary.agreed} of {run.summary.of} counted {sum(counts)} of {len(counts)}"
    must(told == "agreed 9 of 9 counted 8 of 8", f"{told}; the exercise asks for 9 of 9 and 8 of 8")


def check_messages(answers):
    listed = answers.text("messages.txt").strip()
    must(re.fullmatch(r"\d{1,10}(,\d{1,10})*", listed), "messages.txt isn't a list of numbers with commas between")
    numbers = listed.split(",")
    must(len(numbers) <= MAX_NUMBERS, f"{len(numbers)} numbers aren't the fewest")
    bench = Scenario.read(EXAMPLES / "explore/three_nodes.toml")
    must(bench.explore(mail=listed).agreement == "violated", f"with {listed} agreement holds")
    for left_out in range(len(numbers)):
        rest = numbers[:left_out] + numbers[left_out + 1 :]
        is_less = rest and bench.explore(mail=",".join(rest)).agreement == "violated"
        must(not is_less, f"{','.join(rest)} violates agreement too, with fewer numbers")


def check_stabilises(answers):
    text = answers.text("stabilises.toml")
    must_be_bench(Scenario(text).run(), 3, 1, 4)
    line = re.compile(r"^nodes = \[0, 1, 2\]$", re.M)
    must(len(line.findall(text)) == 1, "stabilises.toml has to have the line nodes = [0, 1, 2] once, for its clocks")
    found = Scenario(text).explore(start="any", bytes="0,1")
    must(found.stabilisation == "certain", f"with all nodes correct, from any start: {found.stabilisation}")
    for byzantine in range(3):
        correct = [it for it in range(3) if it != byzantine]
        found = Scenario(line.sub(f"nodes = {correct}", text)).explore()
        must(found.correct == tuple(correct), f"node {byzantine} can't be made Byzantine")
        must(found.stabilisation == "certain", f"with node {byzantine} Byzantine: {found.stabilisation}")


EXERCISES = {
    1: ("local coins", check_still),
    2: ("late joining", check_in_time),
    3: ("transient faults", check_helped),
    4: ("worst-case step bounds", check_path),
    5: ("equivocation", check_parted),
    6: ("the bound n > 3f", check_bound),
    7: ("static verification", check_fixed),
    8: ("adaptive adversaries", check_carried),
    9: ("liveness", check_delayed),
    10: ("protocol design", check_own),
    11: ("limits of exploration", check_messages),
    12: ("self-stabilisation", check_stabilises),
}


# One folder.


@contextlib.contextmanager
def time_limit(seconds):
    def out_of_time(*_):
        raise OutOfTime(f"the check takes more than {seconds} s")

    signal.signal(signal.SIGALRM, out_of_time)
    signal.alarm(seconds)
    try:
        yield
    finally:
        signal.alarm(0)


def result_of(check, answers, seconds):
    """The result of a check in a word, and the reason."""
    try:
        with time_limit(seconds):
            check(answers)
    except Missing as why:
        return "missing", str(why)
    except (OutOfTime, NotFinished, MemoryError) as why:
        return "limit", str(why) or "out of memory"
    except (Wrong, Rejected) as why:
        return "wrong", str(why)
    except Fault as why:
        return "limit" if "fault memory" in str(why) else "wrong", str(why)
    return "done", ""


def limit_memory(mebibytes):
    if mebibytes:
        resource.setrlimit(resource.RLIMIT_AS, (mebibytes << 20, mebibytes << 20))
    resource.setrlimit(resource.RLIMIT_CORE, (0, 0))


def printable(text):
    """The text in one line, without signs that could act on a terminal."""
    return "".join(it if it.isprintable() else " " for it in text)[:500]


def options():
    summary, _, rest = __doc__.partition("\n\n")
    parser = argparse.ArgumentParser(description=summary, epilog=rest, formatter_class=argparse.RawTextHelpFormatter)
    parser.add_argument("folder", metavar="FOLDER")
    parser.add_argument("--seed", type=int)
    parser.add_argument("--seconds", type=int, default=20)
    parser.add_argument("--memory", type=int, default=2048)
    parser.add_argument("--json", action="store_true")
    return parser.parse_args()


def main():
    given = options()
    if not os.path.isdir(given.folder):
        sys.exit(f"exercises: {given.folder} is no folder")
    signal.signal(signal.SIGTERM, lambda *_: sys.exit(1))
    limit_memory(given.memory)
    try:
        Bench().verify()
    except ProgramMissing as why:
        sys.exit(f"exercises: {why}")
    except ClockbedError as why:
        fix = "an unproved build needs --memory 0"
        sys.exit(f"exercises: the program doesn't run within {given.memory} MiB: {why}; {fix}")
    answers, undone = Answers(given.folder, given.seed), 0
    for number, (topic, check) in EXERCISES.items():
        result, reason = result_of(check, answers, given.seconds)
        undone += result != "done"
        told = {"exercise": number, "topic": topic, "result": result, "reason": printable(reason)}
        line = f"{number}. {topic}: {result}" + f"; {told['reason']}" * bool(reason)
        print(json.dumps(told) if given.json else line, flush=True)
    return 1 if undone else 0


if __name__ == "__main__":
    sys.exit(main())
