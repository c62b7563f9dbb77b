#!/usr/bin/env python3
"""Refuses the built programs what they ask for: tools/refusals.py memory|threads.

Each program is run whole, then once for each of its requests with that one refused, and once for each with that one and
all later ones refused. What may come of it is the right answer, with or without its note, or nothing on standard output
and a line for the fault.
The cases of crates/trials print a line each, and may say that they were refused and done. The number of requests comes
from the first run. CLOCKBED_PROGRAM and TRIALS_PROGRAM name other programs than those that were built here, and
PROCESSORS says how many runs go on at once.
"""
import concurrent.futures
import dataclasses
import os
import re
import subprocess
import sys
import tempfile

TOP = os.path.dirname(os.path.dirname(os.path.abspath(__file__)))
SECONDS = 60
ENDLESS = 1 << 40
CASE = re.compile(rb"(.+): (done|refused and done)\Z")
# A rule, a claim about it, and the certificate that tools/all_sizes.py writes of it.
ZERO_RULE = "clock = 0\nsend clock\n"
ZERO_CLAIM = "set Zero: p.clock == 0\nstep any -> Zero\n"
ZERO_CERTIFICATE = b"""step 2
begins 2 1 2 free 0 sent 0 words 1 0
uses 0
refute split 0 sum 1 0 1 sum 1 0 1
"""


def program(name):
    path = os.environ.get(f"{name.upper()}_PROGRAM", f"{TOP}/crates/{name}/out/{name}")
    if not os.access(path, os.X_OK):
        sys.exit(f"refusals: {path} is not there: build it by rt run in crates/{name}")
    return os.path.realpath(path)


def contents(path):
    with open(f"{TOP}/{path}", "rb") as it:
        return it.read()


@dataclasses.dataclass
class Ran:
    status: int
    out: bytes
    err: bytes


@dataclasses.dataclass
class Command:
    """Words of clockbed with what they read."""

    words: str
    input: bytes


@dataclasses.dataclass
class Counts:
    requests: int = 0
    refused: int = 0
    retried: int = 0
    right: int = 0
    wrong: list = dataclasses.field(default_factory=list)

    def add(self, outcome, place):
        if outcome == "refused":
            self.refused += 1
        elif outcome == "retried":
            self.retried += 1
        elif outcome == "right":
            self.right += 1
        else:
            self.wrong.append(f"{place}: {outcome}")


def compiled(room):
    """The library that is preloaded."""
    library = f"{room}/refusals.so"
    subprocess.run(
        ["cc", "-shared", "-fPIC", "-O1", "-o", library, f"{TOP}/tools/refusals.c", "-ldl"], check=True
    )
    return library


def run(library, words, given, **said):
    """Runs a program with what the library is to do."""
    environment = {**os.environ, "LD_PRELOAD": library, **{name: str(value) for name, value in said.items()}}
    try:
        ran = subprocess.run(words, input=given, capture_output=True, env=environment, timeout=SECONDS)
    except subprocess.TimeoutExpired:
        return Ran(-1, b"", b"it didn't end")
    return Ran(ran.returncode, ran.stdout, ran.stderr)


def tallied(library, room, words, given):
    """A whole run, and for each request and write: the bytes written before, and the requests of each kind."""
    path = f"{room}/tally"
    whole = run(library, words, given, TALLY=path)
    with open(path, encoding="ascii") as it:
        rows = [(0, 0, 0), *(tuple(map(int, line.split())) for line in it)]
    return whole, rows


def is_fault(ran, kind):
    """Whether the line of the fault is told. A thread wants memory, too, where it is started."""
    lines = {"memory": (b"fault memory\n", b"fault thread\n"), "threads": (b"fault thread\n",)}
    return ran.status == 1 and ran.err in lines[kind]


def is_left(command, whole, ran):
    """Whether the output is what a fault leaves: nothing, or of what is told line by line the first lines."""
    by_line = command.words.startswith(("sweep", "run --json", "exec --trace"))
    return not ran.out or (by_line and whole.out.startswith(ran.out) and ran.out.endswith(b"\n"))


def is_without_note(whole, ran):
    """Whether just the note on a refusal is left out."""
    return whole.err.startswith(b"note: ") and ran == Ran(whole.status, whole.out, b"")


def command_outcome(command, whole, ran, kind):
    """What came of a command, some of whose requests of a kind were refused."""
    if ran == whole or is_without_note(whole, ran):
        return "right"
    if is_fault(ran, kind) and is_left(command, whole, ran):
        return "refused"
    return f"status {ran.status}, output {ran.out[:60]!r}, errors {ran.err[:60]!r}"


def trial_outcome(whole, ran, kind, place, last):
    """What came of the cases, where requests of the case at a place were refused, and later ones if it is the last."""
    names = [CASE.fullmatch(line)[1] for line in whole.out.splitlines()]
    lines = ran.out.splitlines()
    found = [CASE.fullmatch(line) for line in lines]
    if any(not it for it in found) or [it[1] for it in found] != names[: len(found)]:
        return f"{next((line for line, it in zip(lines, found) if not it), lines[-1:])!r}"
    retried = [at for at, it in enumerate(found) if it[2] != b"done"]
    if ran.status == 0 and not ran.err and len(lines) == len(names):
        if not retried:
            return "right"
        return "retried" if last or retried == [place] else f"{lines[retried[-1]]!r} is another case"
    if last and is_fault(ran, kind) and len(lines) >= place:
        return "refused"
    return f"status {ran.status}, {len(lines)} lines, errors {ran.err[:60]!r}"


def ranges(count):
    """The first and the last refused request of each run."""
    for first in range(1, count + 1):
        yield first, first
    for first in range(1, count + 1):
        yield first, ENDLESS


def sweep_command(pool, library, room, kind, command):
    words = [program("clockbed"), *command.words.split()]
    whole, rows = tallied(library, room, words, command.input)
    counts = Counts(requests=rows[-1][1 if kind == "memory" else 2])

    def one(bounds):
        return bounds, run(library, words, command.input, REFUSED=kind, FIRST=bounds[0], LAST=bounds[1])

    for bounds, ran in pool.map(one, ranges(counts.requests)):
        counts.add(command_outcome(command, whole, ran, kind), bounds)
    return counts


def case_ends(whole, rows, kind):
    """The number of requests that were made when the line of each case was whole."""
    column = 1 if kind == "memory" else 2
    ends, place = [], 0
    for line in whole.out.splitlines(keepends=True):
        place += len(line)
        before = [row for row in rows if row[0] < place]
        ends.append((line.split(b":")[0].decode(), before[-1][column]))
    return ends


def sweep_trials(pool, library, room, kind):
    words = [program("trials")]
    whole, rows = tallied(library, room, words, b"")
    if whole.status or any(it[2] != b"done" for it in map(CASE.fullmatch, whole.out.splitlines())):
        sys.exit(f"refusals: trials: status {whole.status}\n{whole.out.decode()}{whole.err.decode()}")
    ends = case_ends(whole, rows, kind)
    tables = {name: Counts() for name, _ in ends}
    before = 0
    jobs = []
    for place, (name, end) in enumerate(ends):
        tables[name].requests = end - before
        for first in range(before + 1, end + 1):
            jobs += [(name, place, first, first), (name, place, first, ENDLESS)]
        before = end

    def one(job):
        _, place, first, last = job
        ran = run(library, words, b"", REFUSED=kind, FIRST=first, LAST=last)
        return job, trial_outcome(whole, ran, kind, place, last == ENDLESS)

    for (name, _, first, last), outcome in pool.map(one, jobs):
        tables[name].add(outcome, (first, last))
    return tables


def long_pulses():
    """A scenario whose pulses are so long that they are run on threads (docs/THREADS.md, "When workers pay")."""
    head = "version = 2\nnodes = 64\nfaults = 21\nmodulus = 8\nmemory = 8\npulses = 4\ncoins = \"ones\"\n"
    load = f"[[load]]\npulse = 1\nprogram = \"asm\"\nnodes = {list(range(64))}\n"
    adds = "add64 r0, 1\n" * 2046
    return f'{head}{load}text = """\nmov64 r0, 1\n{adds}exit\n"""\n'.encode()


def few_pulses():
    """A scenario whose coins are drawn by a key."""
    return contents("examples/chacha.toml").replace(b"pulses = 24", b"pulses = 3")


def prove_words(room):
    """The words that prove the claim about the rule, which are written to the folder."""
    for name, text in (("rule", ZERO_RULE), ("claims", ZERO_CLAIM)):
        with open(f"{room}/{name}", "w", encoding="utf-8") as it:
            it.write(text)
    return f"prove --rule {room}/rule --claims {room}/claims"


def commands(library, room, kind):
    """The command lines that are tried."""
    clockbed = program("clockbed")
    four = contents("examples/four_clocks.toml")
    three = contents("examples/three_part.toml")
    text = b"ldxw r7, [r1+0]\njlt r7, 8, low\nmov64 r7, 0\nlow: mov64 r0, r7\nexit\n"
    image = run(library, [clockbed, "asm"], text).out
    if kind == "threads":
        return [
            Command("run --workers 2", long_pulses()),
            Command("run --workers 8", long_pulses()),
            Command("run --json --workers 2", long_pulses()),
            Command("stress --loaders 2 --loads 4 --pulses 8 --workers 2", b""),
            Command("stress --loaders 8 --loads 4 --pulses 8 --workers 8", b""),
            Command("sweep --keys 7..15 --workers 4", few_pulses()),
        ]
    return [
        Command("exec", image),
        Command("exec --memory 12", image),
        Command("exec --id 3 --mail -,1,2,3 --coin 1 --contents 00ff --show", image),
        Command("exec --trace --show", image),
        Command("exec --mail 1", image),
        Command("exec --text --show", text),
        Command("exec", b"\xff" + bytes(7)),
        Command("exec --fuel x", image),
        Command("asm", text),
        Command("asm", b"mov64 r11, 1\n"),
        Command("dis", image),
        Command("verify", image),
        Command("verify", bytes.fromhex("bf10000000000000 9500000000000000")),
        Command("run --workers 1", four),
        Command("run --workers 2", four),
        Command("run", contents("examples/splitter.toml").replace(b"pulses = 24", b"pulses = 3")),
        Command("run", b"nodes = 33\n"),
        Command("run", contents("examples/splitter_unknown_node.toml")),
        Command("run", b"nodes = 4\nmodulo = 8\n"),
        Command("run", b"nodes = \n"),
        Command("run --check --workers 1", four),
        Command("run --trace 2:1", four),
        Command("run --trace 2:4", four),
        Command("run --trace 2:0", contents("examples/clocks/greatest.toml")),
        Command("dis --node 2:0 --list", contents("examples/clocks/greatest.toml")),
        Command("run --json --workers 1", three),
        Command("run --json --from 4", three),
        Command("run --json", b"nodes = 33\n"),
        Command(f"run {TOP}/examples/three_part.toml", b""),
        Command("run /no/such/file", b""),
        Command("sweep --keys 7..8 --workers 1", few_pulses()),
        Command("sweep --keys 7..8", four),
        Command("explore", beds(correct=1)),
        Command("explore", beds(correct=2)),
        Command("stress --loaders 2 --loads 4 --pulses 4 --workers 2", b""),
        Command(prove_words(room), ZERO_CERTIFICATE),
        Command(prove_words(room), ZERO_CERTIFICATE[:-10]),
        Command("--help", b""),
    ]


def beds(correct):
    """A small bed of so many clocks and one liar, whose clocks part where there are two."""
    return f"""nodes = {correct + 1}
faults = {correct - 1}
modulus = 3
memory = 8
pulses = 3
coins = "zeros"
load = [{{pulse = 1, nodes = {list(range(correct))}, program = "clock"}}]
""".encode()


def print_row(name, counts):
    print(
        f"{name:60} {counts.requests:8} {counts.refused:8} {counts.retried:8} {counts.right:8} {len(counts.wrong):6}",
        flush=True,
    )
    for wrong in counts.wrong[:5]:
        print(f"  {wrong}", flush=True)


def main(kind):
    faults = 0
    workers = int(os.environ.get("PROCESSORS", os.cpu_count() or 1))
    with tempfile.TemporaryDirectory() as room, concurrent.futures.ThreadPoolExecutor(workers) as pool:
        library = compiled(room)
        print(f"{kind:60} {'requests':>8} {'refused':>8} {'retried':>8} {'right':>8} {'wrong':>6}")
        for command in commands(library, room, kind):
            counts = sweep_command(pool, library, room, kind, command)
            print_row(f"clockbed {command.words}", counts)
            faults += len(counts.wrong)
        for name, counts in sweep_trials(pool, library, room, kind).items():
            if counts.requests:
                print_row(f"trials: {name}", counts)
            faults += len(counts.wrong)
    print(f"refusals: {faults} wrong", flush=True)
    return 1 if faults else 0


if __name__ == "__main__":
    if sys.argv[1:] not in (["memory"], ["threads"]):
        sys.exit(__doc__)
    sys.exit(main(sys.argv[1]))
