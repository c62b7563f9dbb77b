#!/usr/bin/env python3
"""Watches the built program on a terminal, and its threads: tools/check_progress.py [PROGRAM]

- `explore` shows once a second how far it is, on one line that it writes over, and ends that line.
- `sweep`, whose output is no terminal, shows seeds done, seeds a second and seconds left. These three must fit one another.
  Both are given more to do until a second has passed, so that a fast machine is watched too.
- Each state but the first is found by a transition, so `explore` shows at least as many transitions but one.
- `run --workers 4` and `run --json --workers 4` have more than one thread if the pulses are long, and `--workers 1` has
  one. So it is for `sweep`, which has a thread for each processor without the option.
"""
import errno
import os
import pty
import re
import subprocess
import sys
import threading
import time

sys.dont_write_bytecode = True
from built_program import SECONDS, TOP, named_program

SEARCHED = re.compile(r"(\d+) states, (\d+) transitions, (\d+) s ")
SWEPT = re.compile(r"(\d+) of (\d+) keys, (\d+) a second, (\d+) s left ")
# The first numbers are for a build without a proof, the others for faster programs and machines.
SEEDS = [200, 40_000, 160_000, 640_000, 2_560_000]
SEARCHES = [(8, 1_000), (11, 12_000), (11, 16_000), (11, 20_000)]
PULSES = [10, 1000]
SIXTEEN = """nodes = 16
faults = 5
modulus = 8
memory = 8
pulses = 10
coins = "zeros"
load = [{pulse = 1, nodes = LOADED, program = "clock"}]
"""
# 64 nodes with 2,048 instructions each: a pulse is long enough for threads.
LONG = f"""version = 4
nodes = 64
faults = 1
modulus = 8
memory = 8
pulses = PULSES
coins = "zeros"

[[load]]
pulse = 1
nodes = {list(range(64))}
program = "asm"
text = '''
mov64 r0, 0
{"add64 r0, 1" + chr(10)}exit
'''
""".replace("add64 r0, 1\n", "add64 r0, 1\n" * 2046)


def told_on_a_terminal(program, words, given):
    """What a command writes to a terminal that is its standard error, while its output goes nowhere."""
    master, terminal = pty.openpty()
    with subprocess.Popen([program, *words], stdin=subprocess.PIPE, stdout=subprocess.DEVNULL, stderr=terminal) as job:
        os.close(terminal)
        limit = threading.Timer(SECONDS, job.kill)
        limit.start()
        job.stdin.write(given.encode())
        job.stdin.close()
        told = b""
        while True:
            try:
                part = os.read(master, 65_536)
            except OSError as error:
                # The terminal's other end is closed.
                if error.errno != errno.EIO:
                    raise
                break
            told += part
        limit.cancel()
    os.close(master)
    return told.decode()


def searched(program):
    """What a search showed, and the numbers of each line: of the first search that takes a second."""
    for nodes, states in SEARCHES:
        given = SIXTEEN.replace("LOADED", str(list(range(nodes))))
        told = told_on_a_terminal(program, ["explore", "--states", str(states)], given)
        lines = told.split("\r")[1:]
        counts = [tuple(map(int, found.groups())) for line in lines if (found := SEARCHED.match(line))]
        if counts:
            break
    return told, counts


def search_faults(program):
    told, counts = searched(program)
    if not counts:
        yield f"explore told no progress: {told!r}"
    seconds = [second for _, _, second in counts]
    if seconds != sorted(set(seconds)):
        yield f"explore told these seconds: {seconds}"
    if counts != sorted(counts):
        yield f"explore told fewer states or transitions than before: {counts}"
    if any(transitions < states - 1 for states, transitions, _ in counts):
        yield f"explore told more states than transitions lead to: {counts}"
    if counts and not told.endswith("\r\n"):
        yield f"explore left its line open: {told[-80:]!r}"


def fits(done, keys, rate, left):
    """Whether some number of whole seconds gives the rate and the time left."""
    latest = SECONDS if rate == 0 else done // rate + 1
    return any(
        rate == done // max(second, 1) and left == (keys - done) * second // max(done, 1) for second in range(latest + 1)
    )


def swept(program, seeds):
    """What a sweep of so many seeds showed: the numbers of each line."""
    given = (TOP / "examples/chacha.toml").read_text(encoding="utf-8")
    told = told_on_a_terminal(program, ["sweep", "--keys", f"1..{seeds}"], given)
    return [tuple(map(int, found.groups())) for found in SWEPT.finditer(told)]


def sweep_faults(program):
    for seeds in SEEDS:
        rows = swept(program, seeds)
        if not rows or rows[-1][:2] != (seeds, seeds):
            yield f"sweep told of no end: {rows[-1:]}"
            return
        for row in rows:
            if not fits(*row):
                yield "sweep told %d of %d keys, %d a second, %d s left" % row
                return
        if any(left > 0 for _, _, _, left in rows):
            return
    yield f"a sweep of {SEEDS[-1]} seeds took less than a second"


def most_threads(program, words, given):
    """The most threads that are seen of a command."""
    seen = 0
    with subprocess.Popen([program, *words], stdin=subprocess.PIPE, stdout=subprocess.DEVNULL) as job:
        job.stdin.write(given.encode())
        job.stdin.close()
        while job.poll() is None:
            try:
                seen = max(seen, len(os.listdir(f"/proc/{job.pid}/task")))
            except FileNotFoundError:
                break
            time.sleep(0.001)
    return seen


def sized_cases():
    """Commands with their inputs, from short ones to long ones."""
    drawn = (TOP / "examples/chacha.toml").read_text(encoding="utf-8")
    runs = [LONG.replace("PULSES", str(pulses)) for pulses in PULSES]
    yield [(["run"], run) for run in runs]
    yield [(["run", "--json"], run) for run in runs]
    yield [(["sweep", "--keys", f"1..{seeds}"], drawn) for seeds in SEEDS]


def thread_faults(program):
    for cases in sized_cases():
        words, given = cases[-1]
        for words, given in cases:
            if most_threads(program, [*words, "--workers", "4"], given) > 1:
                break
        else:
            yield f"{' '.join(words)} --workers 4 had one thread"
        if most_threads(program, [*words, "--workers", "1"], given) > 1:
            yield f"{' '.join(words)} --workers 1 had more than one thread"
        if words[0] == "sweep" and len(os.sched_getaffinity(0)) > 1 and most_threads(program, words, given) == 1:
            yield f"{' '.join(words)} had one thread"


def main():
    program = named_program()
    faults = [*search_faults(program), *sweep_faults(program), *thread_faults(program)]
    for fault in faults:
        print(fault)
    print(f"check_progress: a search, sweeps and runs: {len(faults)} faults")
    return 1 if faults else 0


if __name__ == "__main__":
    sys.exit(main())
