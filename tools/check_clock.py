#!/usr/bin/env python3
"""Gives the built program the clock's own text, and its image cut and damaged.

usage: check_clock.py [PROGRAM]

For some sizes: the text has an image, which `verify` accepts and `exec` runs, and a scenario whose `clock` is that text
isn't told to have a clock of its own, so that the text is the clock that the program makes. For four nodes: what `exec`
leaves and its steps, for each way through the clock. Of the image for four nodes: each front, and each with one bit
turned, of which `verify` and `exec` have to say what fits together. PROGRAM is as for check_rows.py.
"""
import sys

sys.dont_write_bytecode = True
from built_program import Answer, answer, named_program, on_all_processors, tell, without_note

# Nodes, faults and modulus.
SIZES = [(1, 0, 2), (4, 1, 8), (4, 1, 16), (7, 3, 65535), (32, 10, 65536), (64, 21, 65536)]
DAMAGED = (4, 1, 16)
DAMAGED_BYTES = 440
# Modulus, clock and mark, messages, coin, clock and mark after the pulse, steps.
SILENCE = "-,-,-,-"
GREATEST = 2**32 - 1
PULSES = [
    # without support the clock is forgotten
    (8, (0, 0), SILENCE, 1, (0, 0), 36),
    (16, (0, 1), "1,1,0,0", 1, (0, 0), 38),
    (8, (5, 1), "5,6,5,-", 0, (0, 0), 38),
    # with support it counts on
    (8, (1, 0), "1,1,1,1", 0, (2, 1), 41),
    (8, (6, 0), "6,6,6,6", 0, (7, 1), 41),
    (8, (7, 0), "7,7,7,7", 0, (0, 1), 42),
    (2, (1, 0), "1,1,1,1", 0, (0, 1), 42),
    # three of four are enough
    *((65536, (258, 1), f"258,{sent},258,258", 0, (259, 1), 40) for sent in ("-", 0, 259, 65535, GREATEST)),
    # a marked zero starts, an unmarked one tosses the coin
    *((8, (0, mark), "0,0,0,0", 0, (1, 1), 43) for mark in (1, 2, 256, GREATEST)),
    *((8, (0, 0), "0,0,0,0", coin, (coin, coin), 44) for coin in (0, 1)),
    # a clock from the modulus on is taken for zero
    *((8, (clock, 1), "0,0,0,0", 0, (1, 1), 44) for clock in (8, 9, 65536, GREATEST)),
    *((8, (clock, 1), f"{clock},{clock},{clock},{clock}", 0, (0, 0), 37) for clock in (8, 9, 65536, GREATEST)),
]
# The bytes of the memory after clock and mark, which a pulse leaves as they are.
OTHERS = bytes(range(8, 16))
# The slots from which two fronts lead out: that of a slot, and that without `exit`.
BROKEN = {8: 0, 432: 53}
# Enough for every program that is accepted, and for those that have no way back.
FUEL = 2048
REFUSED, DONE = 2, 0
ENDS = (b"r0 ", b"trap ", b"out of fuel ")


def clock_text(nodes, faults, modulus):
    """The clock of docs/CLOCK.md, with labels."""
    heard = "".join(f"mov64 r1, {node}\ncall recv\njne r0, r7, +1\nadd64 r8, 1\n" for node in range(nodes))
    told = "".join(f"mov64 r1, {node}\nmov64 r2, r7\ncall send\n" for node in range(nodes))
    return f"""
        mov64 r6, r1
        ldxw r7, [r6+0]
        jlt r7, {modulus}, +1
        mov64 r7, 0
        mov64 r8, 0
        {heard}
        jge r8, {nodes - faults}, ok
        mov64 r7, 0
        mov64 r9, 0
        ja store
ok:     jne r7, 0, inc
        ldxw r9, [r6+4]
        jne r9, 0, one
        call coin
        mov64 r7, r0
        mov64 r9, r0
        ja store
one:    mov64 r7, 1
        mov64 r9, 1
        ja store
inc:    add64 r7, 1
        mov64 r9, 1
        jlt r7, {modulus}, store
        mov64 r7, 0
store:  stxw [r6+0], r7
        stxw [r6+4], r9
        {told}
        mov64 r0, 0
        exit
""".encode()


def scenario(nodes, faults, modulus, clock):
    return f"""version = 3
nodes = {nodes}
faults = {faults}
modulus = {modulus}
memory = 8
pulses = 3
coins = "ones"
{clock}
[[load]]
pulse = 1
nodes = {list(range(nodes))}
program = "clock"
""".encode()


def line(text, status):
    return Answer(status, f"{text}\n".encode(), b"")


def size_differences(program, size):
    """The text of a size is a clock, and no other than the program's."""
    nodes, _, _ = size
    image = answer(program, ["asm"], clock_text(*size)).out
    shape = ["--memory", "8", "--nodes", str(nodes)]
    own = scenario(*size, f"clock = '''{clock_text(*size).decode()}'''")
    accepted = line(f"accepted slots {27 + 7 * nodes} announced {17 + 7 * nodes}", DONE)
    rows = [
        ("verify", ["verify", *shape], image, accepted),
        ("exec", ["exec", *shape], image, line(f"r0 0 steps {12 + 6 * nodes}", DONE)),
        ("run", ["run"], own, answer(program, ["run"], scenario(*size, ""))),
    ]
    for name, words, given, wanted in rows:
        got = answer(program, words, given)
        if got != wanted or got.status != DONE:
            yield f"the clock of {size}: {name}: {got} in place of {wanted}"
    if nodes > 1:
        words = ["verify", "--memory", "8", "--nodes", str(nodes - 1)]
        got, wanted = without_note(answer(program, words, image)), line(f"refused rule 9 slot {2 + 4 * nodes}", REFUSED)
        if got != wanted:
            yield f"the clock of {size} for a node less: {got} in place of {wanted}"


def memory_of(pair):
    return (b"".join(number.to_bytes(4, "little") for number in pair) + OTHERS).hex()


def pulse_differences(program, pulse):
    """What a pulse leaves, what it sends, and its steps."""
    modulus, before, mail, coin, after, steps = pulse
    words = ["exec", "--text", "--show", f"--contents={memory_of(before)}", f"--mail={mail}", f"--coin={coin}"]
    sent = ",".join([str(after[0])] * 4)
    wanted = line(f"r0 0 steps {steps}\nmemory {memory_of(after)}\nsent {sent}", DONE)
    got = answer(program, words, clock_text(4, 1, modulus))
    return [] if got == wanted else [f"a pulse, {pulse}: {got} in place of {wanted}"]


def pair(program, image):
    """What `verify` and `exec` answer."""
    verdict = without_note(answer(program, ["verify", "--memory", "8"], image))
    return verdict, answer(program, ["exec", "--memory", "8", "--fuel", str(FUEL)], image)


def front_fits(count, verdict, ran):
    """Whether these are the answers to so many first bytes, fewer than all."""
    if count == 0:
        return verdict == ran == line("refused image Empty", REFUSED)
    if count % 8:
        return verdict == ran == line(f"refused image Truncated slot {count // 8}", REFUSED)
    wanted = f"refused rule 2 slot {BROKEN.get(count, '')}"
    breaks = verdict.out.startswith(wanted.encode()) and verdict.status == REFUSED
    return breaks and ran.out.startswith(b"trap 1 BadJump slot ") and ran.status == DONE


def last_number(told):
    return int(told.split()[-1])


def damage_fits(verdict, ran):
    """The same refusal of an image; a run within its count where it is accepted; and else any end by name."""
    if verdict.err or ran.err:
        return False
    if verdict.out.startswith(b"refused image "):
        return verdict == ran and ran.status == REFUSED
    if verdict.out.startswith(b"accepted slots "):
        ended = ran.out.startswith(b"r0 ") and verdict.status == ran.status == DONE
        return ended and last_number(ran.out) <= last_number(verdict.out)
    refused = verdict.out.startswith(b"refused rule ") and verdict.status == REFUSED
    return refused and ran.out.startswith(ENDS) and ran.status == DONE


def turned(image, bit):
    bytes_of = bytearray(image)
    bytes_of[bit // 8] ^= 1 << bit % 8
    return bytes(bytes_of)


def main():
    program = named_program()
    image = answer(program, ["asm"], clock_text(*DAMAGED)).out
    if len(image) != DAMAGED_BYTES:
        sys.exit(f"check_clock: the image has {len(image)} bytes in place of {DAMAGED_BYTES}")
    accepted = []

    def differences(row):
        kind, it = row
        if kind == "sizes":
            return list(size_differences(program, it))
        if kind == "pulses":
            return pulse_differences(program, it)
        verdict, ran = pair(program, image[:it] if kind == "fronts" else turned(image, it))
        if kind == "bits" and verdict.status == DONE:
            accepted.append(it)
        fits = front_fits(it, verdict, ran) if kind == "fronts" else damage_fits(verdict, ran)
        return [] if fits else [f"{kind} {it}: {verdict} and {ran} don't fit"]

    kinds = {"sizes": SIZES, "pulses": PULSES, "fronts": range(len(image)), "bits": range(8 * len(image))}
    rows = [(kind, it) for kind, those in kinds.items() for it in those]
    found = on_all_processors(differences, rows)
    if not accepted:
        found.append("no image with a bit turned is accepted")
    return tell("check_clock", {kind: len(those) for kind, those in kinds.items()}, found)


if __name__ == "__main__":
    sys.exit(main())
