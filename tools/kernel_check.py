#!/usr/bin/env python3
"""Compares rules in the Linux kernel with the rules: tools/kernel_check.py [PROGRAM]

`compile --c` prints each rule of examples/rules/ as a C function, and examples/linux/load.sh compiles and loads it. Then
the kernel runs it on drawn cases, by `bpftool prog run`. Memory and messages have to be those of `exec` for the rule's own
program. If clang, bpftool, the headers of libbpf or the right to load are missing, this says so, and compares nothing.
PROGRAM is as for check_rows.py.
"""
import json
import os
import pathlib
import random
import shutil
import subprocess
import sys
import tempfile

sys.dont_write_bytecode = True
from built_program import TOP, answer, named_program, tell
from check_c import NONE, cases_of, differing, exec_results, printed
from check_rules import options_of, sizes_of

SEED, CASES, NODES = 618, 100, 4
PINS = pathlib.Path("/sys/fs/bpf")
LOADER = TOP / "examples/linux/load.sh"
ALONE = "data_in " + str(TOP / "examples/seven.bpf")  # any packet: the rule reads none


def numbers(value):
    """The bytes of 32-bit numbers, as bpftool takes them."""
    return " ".join(str(byte) for it in value for byte in it.to_bytes(4, "little"))


def commands(pin, case):
    """What bpftool has to do for a case."""
    sizes, mail, memory = case
    maps = f"{pin}_maps"
    words = [int.from_bytes(memory[at : at + 4], "little") for at in range(0, len(memory), 4)]
    state = [*words, *[0] * (64 - len(words)), sizes.id, sizes.coin]
    yield f"map update pinned {maps}/state key {numbers([0])} value {numbers(state)}"
    for node, number in enumerate(mail):
        heard = NONE if number is None else number
        yield f"map update pinned {maps}/inbox key {numbers([node])} value {numbers([heard])}"
        yield f"map update pinned {maps}/outbox key {numbers([node])} value {numbers([NONE])}"
    yield f"prog run pinned {pin} {ALONE}"
    yield f"map lookup pinned {maps}/state key {numbers([0])}"
    for node in range(sizes.nodes):
        yield f"map lookup pinned {maps}/outbox key {numbers([node])}"


def bytes_of(value):
    return bytes(int(byte, 16) for byte in value)


def kernel_results(pin, cases, room):
    """What the kernel leaves in each case."""
    batch = room / "batch"
    batch.write_text("".join(f"{line}\n" for case in cases for line in commands(pin, case)))
    done = subprocess.run(["bpftool", "-j", "batch", "file", batch], capture_output=True, text=True, check=False)
    if done.returncode:
        return []
    outputs = [it["output"] for it in json.loads(done.stdout)]
    looked_up = [it["value"] for it in outputs if it and "value" in it]
    found = []
    for sizes, _, memory in cases:
        state, *sent = looked_up[: 1 + sizes.nodes]
        looked_up = looked_up[1 + sizes.nodes :]
        messages = [str(int.from_bytes(bytes_of(it), "little")) for it in sent]
        found.append((bytes_of(state)[: len(memory)].hex(), ",".join(messages)))
    return found


def rule_faults(program, path, cases, pin, room):
    """What is wrong of a rule in the kernel."""
    text, source, own = path.read_text(encoding="utf-8"), room / f"{path.stem}.c", room / "own.bpf"
    own.write_bytes(answer(program, ["compile", *options_of(sizes_of(NODES))], text.encode()).out)
    if not printed(program, text, NODES, source):
        return [f"{path.stem}: no C"]
    loaded = subprocess.run([LOADER, source, pin], capture_output=True, text=True, check=False)
    try:
        if loaded.returncode:
            return [f"{path.stem}: the kernel rejects it: {loaded.stderr[-2000:]}"]
        return differing(path.stem, kernel_results(pin, cases, room), exec_results(program, own, cases), cases)
    finally:
        pin.unlink(missing_ok=True)
        shutil.rmtree(f"{pin}_maps", ignore_errors=True)


def missing():
    """Why nothing can be loaded here, if so."""
    for word in ("clang", "bpftool"):
        if not shutil.which(word):
            return f"{word} isn't here"
    if not pathlib.Path("/usr/include/bpf/bpf_helpers.h").exists():
        return "the headers of libbpf aren't here (package libbpf-dev)"
    probe = subprocess.run(["bpftool", "prog", "list"], capture_output=True, text=True, check=False)
    if os.geteuid() or probe.returncode:
        return f"no right to load programs: {probe.stderr.strip() or 'not root'}"
    return ""


def main():
    program, dice = named_program(), random.Random(SEED)
    why = missing()
    if why:
        print(f"kernel_check: not run: {why}")
        return 0
    paths = sorted(TOP.glob("examples/rules/*.rule"))
    found, pin = [], PINS / f"clockbed_check_{os.getpid()}"
    with tempfile.TemporaryDirectory() as made:
        for path in paths:
            found += rule_faults(program, path, cases_of(dice, NODES, CASES), pin, pathlib.Path(made))
    return tell("kernel_check", {"rules": len(paths), "cases": CASES * len(paths)}, found)


if __name__ == "__main__":
    sys.exit(main())
