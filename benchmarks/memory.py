#!/usr/bin/env python3
"""Tells the greatest memory of `clockbed run` on texts of 1 MiB: benchmarks/memory.py [CLOCKBED]

Each text is as many loads without nodes as fit into it, all alike: the clock, the echo, who says a number to each of 64
nodes, the shortest program and the longest one. They change nothing, and each one's program is made and accepted.
"""
import os
import subprocess
import sys
import tempfile
import time

TOP = os.path.dirname(os.path.dirname(os.path.abspath(__file__)))
MAX_TEXT = 1 << 20
HEAD = """version = 2
nodes = 64
faults = 21
modulus = 8
memory = 8
pulses = 1
coins = "zeros"
"""
LONGEST = "mov64 r0, 0\\n" + "exit\\n" * 2047
PROGRAMS = {
    "clock": 'program = "clock"',
    "echo": 'program = "echo"',
    "say": f'program = "say"\nvalues = [{",".join(["0"] * 64)}]',
    "shortest text": 'program = "asm"\ntext = "mov64 r0, 0\\nexit"',
    "longest text": f'program = "asm"\ntext = "{LONGEST}"',
}


def text_of(program):
    load = f"[[load]]\npulse = 1\nnodes = []\n{program}\n"
    count = (MAX_TEXT - len(HEAD)) // len(load)
    return HEAD + load * count, count


def measured(clockbed, text):
    """The greatest memory in KiB, and seconds."""
    with tempfile.TemporaryFile() as given:
        given.write(text.encode())
        given.seek(0)
        begun = time.monotonic()
        child = subprocess.Popen([clockbed, "run"], stdin=given, stdout=subprocess.PIPE)
        out = child.stdout.read()
        _, status, usage = os.wait4(child.pid, 0)
        spent = time.monotonic() - begun
    if status or not out.endswith(b"agreed 1 of 1\n"):
        sys.exit(f"memory: status {status}, {out[:80]!r}")
    return usage.ru_maxrss, spent


def main():
    clockbed = sys.argv[1] if len(sys.argv) > 1 else f"{TOP}/crates/clockbed/out/clockbed"
    for name, program in PROGRAMS.items():
        text, count = text_of(program)
        memory, spent = measured(clockbed, text)
        print(f"{name}: {count} loads, {memory / 1024:.0f} MiB, {spent:.2f} s")


if __name__ == "__main__":
    main()
