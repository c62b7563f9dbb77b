#!/usr/bin/env python3
"""Looks for `fault memory` where there is memory: tools/check_memory.py [PROGRAM]

No clause can say that a call which may answer "out of memory" does so only for lack of it. So the built program runs
over inputs that reach each size at which a body could turn: 1 to 1,000 pulses, 1 to 64 nodes, programs of 1 to 2,048
slots, pointers spilled to each double word of the stack, traces of up to 10,000 steps, 200 seeds, moduli, histories to
their end. No memory is refused here, so none of these may end with `fault memory`.
"""
import sys

sys.dont_write_bytecode = True
from built_program import answer, named_program, on_all_processors, tell

FEW, PULSES, NODES, SLOTS, STEPS, SEEDS = 3, 1000, 64, 2048, 10_000, 200


def scenario(nodes=2, pulses=FEW, modulus=8, memory=8, coins='"ones"', more=""):
    return (
        f"version = 2\nnodes = {nodes}\nfaults = 0\nmodulus = {modulus}\nmemory = {memory}\npulses = {pulses}\ncoins = {coins}\n"
        f'[[load]]\npulse = 1\nnodes = {list(range(nodes))}\nprogram = "clock"\n{more}'
    ).encode()


def straight(slots):
    """The image of a program of so many slots."""
    return bytes.fromhex("b700000000000000") * (slots - 1) + bytes.fromhex("9500000000000000")


def spills(count):
    """The text of a program that spills a pointer to each of so many double words, and loads it."""
    lines = [f"stxdw [r10-{8 * (it + 1)}], r1\nldxdw r3, [r10-{8 * (it + 1)}]" for it in range(count)]
    return "\n".join([*lines, "mov64 r0, 0", "exit", ""]).encode()


def changes(count):
    return "".join(f"[[corrupt]]\npulse = 1\nnode = 0\nimage = {[it % 256] * 8}\n" for it in range(count))


def runs():
    for pulses in range(1, PULSES + 1):
        yield ["run"], scenario(pulses=pulses)
    for pulses in (*range(1, 40), 100, 500, 501, PULSES):
        yield ["run", "--json"], scenario(pulses=pulses)
    for nodes in range(1, NODES + 1):
        yield ["run"], scenario(nodes=nodes)
        yield ["run", "--json"], scenario(nodes=nodes)
    for memory in range(8, 257, 8):
        yield ["run"], scenario(memory=memory)
    for count in (1, 2, 3, 4, 5, 100, 1000, 4000):
        yield ["run"], scenario(more=changes(count))


def programs():
    for slots in range(1, SLOTS + 1):
        yield ["verify"], straight(slots)
    for slots in (*range(1, 70), *range(100, SLOTS + 1, 97), SLOTS):
        for words in (["exec"], ["dis"], ["dis", "--list"], ["verify", "--explain"]):
            yield words, straight(slots)
        yield ["asm"], b"mov64 r0, 0\n" * (slots - 1) + b"exit\n"
    for count in range(1, 64):
        yield ["verify", "--text", "--explain"], spills(count)
    for steps in (*range(1, 130), 999, 1000, 1001, STEPS):
        yield ["exec", "--trace", "--fuel", str(steps)], bytes.fromhex("0500ffff00000000")


def others():
    seeded = scenario(coins='"chacha"\nkey = 1')
    for seed in range(SEEDS):
        yield ["sweep", "--keys", f"{seed}..{seed}"], seeded
    yield ["sweep", "--keys", f"0..{SEEDS}"], seeded
    for modulus in range(2, 40):
        yield ["explore"], scenario(nodes=3, modulus=modulus)
    for nodes in range(1, 6):
        yield ["explore", "--start", "any", "--bytes", "0"], scenario(nodes=nodes, modulus=2)
    for loads in (*range(1, 12), 50, 100):
        yield ["stress", "--loads", str(loads), "--pulses", str(loads)], b""
    yield ["stress", "--loaders", "8", "--loads", "100", "--pulses", "1000"], b""


def differences(program, words, given):
    got = answer(program, words, given)
    is_lack = b"fault memory" in got.err or got.status not in (0, 2, 3, 4)
    return [f"{' '.join(words)} of {given[:120]!r}: status {got.status}: {got.err.decode(errors='replace')}"] if is_lack else []


def main():
    program = named_program()
    tried = {kind.__name__: list(kind()) for kind in (runs, programs, others)}
    found = on_all_processors(lambda it: differences(program, *it), [it for some in tried.values() for it in some])
    return tell("check_memory", {kind: len(some) for kind, some in tried.items()}, found)


if __name__ == "__main__":
    sys.exit(main())
