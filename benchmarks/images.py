#!/usr/bin/env python3
"""Writes an image for a benchmark: images.py NAME > IMAGE. The names are in README.md."""
import struct
import sys

SLOTS = 1024
ALU_CODES = (0x0, 0x1, 0x2, 0x3, 0x4, 0x5, 0x6, 0x7, 0x9, 0xA, 0xC)
CONDITIONS = (0x1, 0x2, 0x3, 0x4, 0x5, 0x6, 0x7, 0xA, 0xB, 0xC, 0xD)
MOV64_K, MOV64_X, EXIT = 0xB7, 0xBF, 0x95


def slot(opcode, dst=0, src=0, off=0, imm=0):
    return struct.pack("<BBhi", opcode, dst | src << 4, off, imm)


def alu_forms():
    """Each arithmetic form once, its registers and numbers varied from call to call."""
    for code in ALU_CODES:
        for width in (4, 7):
            for off in (0, 1) if code in (3, 9) else (0,):
                yield lambda k, o=code << 4 | width, off=off: slot(o, dst=k % 10, off=off, imm=k * 7919 % 100000 - 50000)
                yield lambda k, o=code << 4 | 8 | width, off=off: slot(o, dst=k % 10, src=k // 3 % 11, off=off)
    for width, sizes in ((4, (8, 16)), (7, (8, 16, 32))):
        yield lambda k, o=0x80 | width: slot(o, dst=k % 10)
        yield lambda k, o=0xB0 | width: slot(o, dst=k % 10, imm=-k)
        for off in (0, *sizes):
            yield lambda k, o=0xB8 | width, off=off: slot(o, dst=k % 10, src=k % 11, off=off)
    for opcode in (0xD4, 0xDC, 0xD7):
        for bits in (16, 32, 64):
            yield lambda k, o=opcode, bits=bits: slot(o, dst=k % 10, imm=bits)


def other_forms():
    """Each other form once."""
    yield lambda k: slot(0x05, off=k % 50)
    yield lambda k: slot(0x06, imm=k % 50)
    yield lambda k: slot(0x85, imm=1 + k % 4)
    yield lambda k: slot(EXIT)
    yield lambda k: slot(0x18, dst=k % 10, imm=k * 65537) + slot(0, imm=-k)
    for code in CONDITIONS:
        for width in (5, 6):
            yield lambda k, o=code << 4 | width: slot(o, dst=k % 11, off=k % 9, imm=-k)
            yield lambda k, o=code << 4 | 8 | width: slot(o, dst=k % 11, src=k % 10, off=k % 9)
    for opcode in (0x61, 0x69, 0x71, 0x79, 0x81, 0x89, 0x91):
        yield lambda k, o=opcode: slot(o, dst=k % 10, src=k % 11, off=-(k % 64))
    for opcode in (0x62, 0x6A, 0x72, 0x7A):
        yield lambda k, o=opcode: slot(o, dst=k % 11, off=k % 64, imm=k)
    for opcode in (0x63, 0x6B, 0x73, 0x7B):
        yield lambda k, o=opcode: slot(o, dst=k % 11, src=k % 10, off=k % 64)


def decoding(forms):
    """A whole image of the forms in a scattered order that is always the same; its first slot is `mov64 r0, 0`."""
    image, state = slot(MOV64_K), 1
    while len(image) < 8 * SLOTS:
        state = (state * 1103515245 + 12345) % 2**31
        piece = forms[(state >> 16) % len(forms)](len(image) // 8)
        image += piece if len(image) + len(piece) <= 8 * SLOTS else slot(EXIT)
    return image


ARITHMETIC = (slot(0x07, 3, imm=77) + slot(0x0F, 3, 4) + slot(0xAF, 4, 3) + slot(0x67, 4, imm=3) + slot(0x27, 3, imm=31)
              + slot(0x1C, 4, 3) + slot(0x54, 4, imm=0xFFFFFF) + slot(0x77, 3, imm=5) + slot(0x4F, 3, 4) + slot(0xB7, 5, imm=9))
ACCESSES = b"".join(
    slot(store, 1, 3, off=8) + slot(load, 5, 1, off=8) + slot(store, 10, 4, off=-16) + slot(load, 6, 10, off=-16)
    for store, load in ((0x73, 0x71), (0x6B, 0x69), (0x63, 0x61), (0x7B, 0x79))
) + slot(0x7A, 10, off=-8, imm=-5) + slot(0x91, 7, 10, off=-8) + slot(0x81, 8, 10, off=-8) + slot(0x72, 1, off=15, imm=6)
# four of ten spill: a pointer and a number are kept on the stack and taken back
SPILLS = (slot(0x7B, 10, 1, off=-8) + slot(0x7B, 10, 4, off=-16) + slot(0x79, 6, 10, off=-8) + slot(0x79, 5, 10, off=-16)
          + slot(0x71, 3, 6, off=5) + slot(0x07, 3, imm=77) + slot(0x57, 3, imm=255) + slot(MOV64_X, 4, 3) + slot(0xAF, 4, 5) + slot(MOV64_X, 0, 4))
NUMBERS = slot(MOV64_K, 0, imm=1) + slot(MOV64_K, 3, imm=12345) + slot(MOV64_K, 4, imm=7)


def machine_loop(body):
    """`body` over and over, by a jump back that is always taken."""
    return NUMBERS + body + slot(0x05, off=-(len(body) // 8) - 1)


def filled(head, piece, slots):
    """`head`, as many pieces as there is room for, and filling moves before `exit`: so many slots in all."""
    room = slots - len(head) // 8 - 1
    count, rest = divmod(room, len(piece) // 8)
    return head + count * piece + rest * slot(MOV64_K, 9, imm=1) + slot(EXIT)


def straight(slots):
    """Arithmetic, stores and loads without a jump."""
    piece = (slot(0x71, 3, 1, off=5) + slot(0x07, 3, imm=77) + slot(0x57, 3, imm=255) + slot(0xBF, 4, 3) + slot(0x27, 4, imm=3)
             + slot(0x7B, 10, 4, off=-16) + slot(0x79, 5, 10, off=-16) + slot(0x77, 5, imm=9) + slot(0x4F, 5, 3) + slot(0xBF, 0, 5))
    return filled(slot(MOV64_K, 0, imm=0), piece, slots)


def branchy(slots):
    """A condition in every four slots, each of which may hold, and what its two ways know meets behind it."""
    piece = slot(0x71, 3, 1, off=5) + slot(0x25, 3, off=2, imm=100) + slot(0x0F, 0, 3) + slot(0x72, 10, off=-8, imm=1)
    return filled(slot(MOV64_K, 0, imm=0), piece, slots)


def branches(slots):
    """A condition in every other slot, of 64 and of 32 bits."""
    piece = slot(0x25, 3, off=1, imm=100) + slot(0x07, 3, imm=7) + slot(0x1E, 3, 4, off=1) + slot(0x57, 3, imm=127)
    return filled(NUMBERS, piece, slots)


def clock(nodes):
    """The clock program of so many nodes (27 + 7 * nodes slots), with all but one as its quorum."""
    head = (slot(MOV64_X, 6, 1) + slot(0x61, 7, 6) + slot(0xA5, 7, off=1, imm=16) + slot(MOV64_K, 7) + slot(MOV64_K, 8))
    hear = b"".join(slot(MOV64_K, 1, imm=j) + slot(0x85, imm=2) + slot(0x5D, 0, 7, off=1) + slot(0x07, 8, imm=1) for j in range(nodes))
    decide = (slot(0x35, 8, off=3, imm=max(1, nodes - 1)) + slot(MOV64_K, 7) + slot(MOV64_K, 9) + slot(0x05, off=14)
              + slot(0x55, 7, off=9) + slot(0x61, 9, 6, off=4) + slot(0x55, 9, off=4) + slot(0x85, imm=4) + slot(MOV64_X, 7, 0)
              + slot(MOV64_X, 9, 0) + slot(0x05, off=7) + slot(MOV64_K, 7, imm=1) + slot(MOV64_K, 9, imm=1) + slot(0x05, off=4)
              + slot(0x07, 7, imm=1) + slot(MOV64_K, 9, imm=1) + slot(0xA5, 7, off=1, imm=16) + slot(MOV64_K, 7)
              + slot(0x63, 6, 7) + slot(0x63, 6, 9, off=4))
    tell = b"".join(slot(MOV64_K, 1, imm=j) + slot(MOV64_X, 2, 7) + slot(0x85, imm=3) for j in range(nodes))
    return head + hear + decide + tell + slot(MOV64_K, 0) + slot(EXIT)


IMAGES = {
    "alu": lambda: decoding(list(alu_forms())),
    "all": lambda: decoding([*alu_forms(), *other_forms()]),
    "jump": lambda: machine_loop(b""),
    "arithmetic": lambda: machine_loop(4 * ARITHMETIC),
    "memory": lambda: machine_loop(ACCESSES),
    "spills": lambda: machine_loop(4 * SPILLS),
    "arithmetic-1000": lambda: filled(NUMBERS, ARITHMETIC, 1000),
    "memory-1000": lambda: filled(NUMBERS, ACCESSES, 1000),
    "branches-1000": lambda: branches(1000),
    **{f"spills-{slots}": lambda slots=slots: filled(NUMBERS, SPILLS, slots) for slots in (64, 256, 1000, 1024)},
    **{f"straight-{slots}": lambda slots=slots: straight(slots) for slots in (64, 256, 1024)},
    **{f"branchy-{slots}": lambda slots=slots: branchy(slots) for slots in (64, 256, 1024)},
    **{f"clock-{27 + 7 * nodes}": lambda nodes=nodes: clock(nodes) for nodes in (4, 16, 32)},
}

if __name__ == "__main__":
    if len(sys.argv) != 2 or sys.argv[1] not in IMAGES:
        sys.exit(f"usage: images.py {'|'.join(IMAGES)} > IMAGE")
    sys.stdout.buffer.write(IMAGES[sys.argv[1]]())
