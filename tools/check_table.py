#!/usr/bin/env python3
"""Checks the table that `clockbed verify --explain --all` prints of an accepted program: that it types the program.

    clockbed verify --explain --all IMAGE | tools/check_table.py IMAGE [--nodes N] [--memory BYTES]

It reads the image and the table by itself, with the rules, outcomes and ranges of docs/VERIFIER.md written down once
more, and needs nothing of clockbed: where it says `typed`, no run of the program is ever stuck, and none takes more
instructions than the verdict announces. Its status is 1 where the table types nothing, and the line says why.
"""
import argparse
import re
import sys

FULL = (0, 2**64 - 1)
STACK = 512
HELPERS = {1: ("id", 0), 2: ("recv", 1), 3: ("send", 2), 4: ("coin", 0)}
ALU = {0: "add", 1: "sub", 2: "mul", 3: "div", 4: "or", 5: "and", 6: "lsh", 7: "rsh", 8: "neg", 9: "mod", 10: "xor",
       11: "mov", 12: "arsh", 13: "swap"}
JUMPS = {1: "eq", 2: "gt", 3: "ge", 4: "set", 5: "ne", 6: "sgt", 7: "sge", 10: "lt", 11: "le", 12: "slt", 13: "sle"}
OPPOSITE = {"eq": "ne", "ne": "eq", "lt": "ge", "ge": "lt", "le": "gt", "gt": "le", "slt": "sge", "sge": "slt",
            "sle": "sgt", "sgt": "sle", "set": "unset", "unset": "set"}
SIZES = {0x00: 4, 0x08: 2, 0x10: 1, 0x18: 8}


class Fault(Exception):
    pass


def signed(value, bits):
    value &= 2**bits - 1
    return value - 2**bits if value >> (bits - 1) else value


# ---- the image (RFC 9669, section 3)


class Insn:
    """One instruction: its form, and the fields that the form has."""

    def __init__(self, form, slots=1, **fields):
        self.form, self.slots = form, slots
        self.__dict__.update(fields)


def arithmetic(opcode, dst, src, off, imm):
    width = 64 if opcode & 7 == 7 else 32
    by_register = bool(opcode & 8)
    op = ALU.get(opcode >> 4)
    if op is None:
        raise Fault(f"no operation {opcode:#x}")
    if op == "swap":
        order = "always" if width == 64 else ("be" if by_register else "le")
        return Insn("swap", order=order, bits=imm, dst=dst)
    if op == "neg":
        return Insn("neg", width=width, dst=dst)
    if op == "mov" and off:
        return Insn("movsx", width=width, bits=off, dst=dst, src=src)
    if op in ("div", "mod") and off:
        op = "s" + op
    return Insn("alu", op=op, width=width, dst=dst, src=src if by_register else None, imm=imm)


def jump(opcode, dst, src, off, imm):
    op, wide = opcode >> 4, opcode & 7 == 5
    if op == 0:
        return Insn("ja", off=off if wide else imm)
    if op == 8 and wide:
        return Insn("call", id=imm)
    if op == 9 and wide:
        return Insn("exit")
    if op not in JUMPS:
        raise Fault(f"no jump {opcode:#x}")
    return Insn("branch", cond=JUMPS[op], width=64 if wide else 32, dst=dst, src=src if opcode & 8 else None, imm=imm,
                off=off)


def instruction(slot, image):
    opcode, registers = image[8 * slot], image[8 * slot + 1]
    dst, src = registers & 15, registers >> 4
    off = signed(int.from_bytes(image[8 * slot + 2:8 * slot + 4], "little"), 16)
    imm = signed(int.from_bytes(image[8 * slot + 4:8 * slot + 8], "little"), 32)
    kind, size = opcode & 7, SIZES[opcode & 0x18]
    if kind in (4, 7):
        return arithmetic(opcode, dst, src, off, imm)
    if kind in (5, 6):
        return jump(opcode, dst, src, off, imm)
    if opcode == 0x18:
        high = int.from_bytes(image[8 * slot + 12:8 * slot + 16], "little")
        return Insn("lddw", slots=2, dst=dst, value=(imm & 0xFFFFFFFF) + (high << 32))
    if kind == 1 and opcode & 0xE0 in (0x60, 0x80):
        return Insn("load" if opcode & 0xE0 == 0x60 else "loadsx", size=size, dst=dst, base=src, off=off)
    if kind in (2, 3) and opcode & 0xE0 == 0x60:
        return Insn("store", size=size, base=dst, off=off, src=src if kind == 3 else None, imm=imm)
    raise Fault(f"no instruction {opcode:#x}")


def program_of(image):
    if not image or len(image) % 8:
        raise Fault("the image has no whole slots")
    program, slot = {}, 0
    while slot < len(image) // 8:
        program[slot] = instruction(slot, image)
        slot += program[slot].slots
    if slot != len(image) // 8:
        raise Fault("the last instruction isn't whole")
    return program, slot


# ---- kinds: None (unset), ("number", lo, hi), ("memory" or "stack", lo, hi)


def number(lo, hi=None):
    return ("number", lo, lo if hi is None else hi)


def is_pointer(kind):
    return kind is not None and kind[0] != "number"


def is_in(kind, other):
    """Whether a kind says as much as another or more."""
    return other is None or (kind is not None and kind[0] == other[0] and other[1] <= kind[1] and kind[2] <= other[2])


class State:
    def __init__(self):
        self.registers, self.dwords, self.written = [None] * 11, [None] * (STACK // 8), set()

    def copy(self):
        other = State()
        other.registers, other.dwords = list(self.registers), list(self.dwords)
        other.written = set(self.written)
        return other

    def lacks(self, other):
        """What another state says that this one doesn't, or None."""
        for at in range(11):
            if not is_in(self.registers[at], other.registers[at]):
                return f"r{at}"
        for at in range(STACK // 8):
            if not is_in(self.dwords[at], other.dwords[at]):
                return f"dword {at}"
        missing = other.written - self.written
        return f"stack byte {min(missing)}" if missing else None


# ---- the table


def kind_of(text):
    match = re.fullmatch(r"(?:(memory|stack)\+)?(\d+)(?:\.\.(\d+))?", text)
    if not match:
        raise Fault(f"no kind: {text}")
    lo = int(match[2])
    hi = int(match[3]) if match[3] else lo
    if lo > hi:
        raise Fault(f"a range without members: {text}")
    return (match[1] or "number", lo, hi)


def state_of(text):
    state = State()
    for item in text.split(", ") if text else []:
        if match := re.fullmatch(r"r(\d+) = (.+)", item):
            state.registers[int(match[1])] = kind_of(match[2])
        elif match := re.fullmatch(r"dword (\d+) = (.+)", item):
            state.dwords[int(match[1])] = kind_of(match[2])
        elif match := re.fullmatch(r"written (\d+)(?:\.\.(\d+))?", item):
            state.written |= set(range(int(match[1]), int(match[2] or match[1]) + 1))
        else:
            raise Fault(f"no item: {item}")
    return state


def table_of(lines):
    """The states by slot, None where nothing reaches it, and the numbers of the verdict."""
    table, verdict = {}, None
    for line in lines:
        if match := re.fullmatch(r"(?:line \d+ )?slot (\d+) [^#]*?(?: # ?(.*))?", line):
            table[int(match[1])] = None if match[2] == "not reached" else state_of(match[2] or "")
        elif match := re.fullmatch(r"accepted slots (\d+) announced (\d+)", line):
            verdict = int(match[1]), int(match[2])
        else:
            raise Fault(f"no row and no verdict that accepts: {line}")
    if verdict is None:
        raise Fault("no verdict")
    return table, verdict


# ---- ranges (docs/RANGES.md, "Arithmetic on ranges")


def result(op, width, x, y):
    """The machine's result of two numbers (docs/INSTRUCTIONS.md)."""
    top = 2**width
    x, y = x % top, y % top
    sx, sy = signed(x, width), signed(y, width)
    if op in ("sdiv", "smod"):
        quotient = 0 if sy == 0 else abs(sx) // abs(sy) * (1 if (sx < 0) == (sy < 0) else -1)
        return (quotient if op == "sdiv" else (sx if sy == 0 else sx - quotient * sy)) % top
    return {"add": x + y, "sub": x - y, "mul": x * y, "div": x // y if y else 0, "mod": x % y if y else x,
            "and": x & y, "or": x | y, "xor": x ^ y, "lsh": x << (y % width), "rsh": x >> (y % width),
            "arsh": sx >> (y % width), "mov": y}[op] % top


def range_of(op, width, a, b):
    top = 2**width - 1
    if a[0] == a[1] and b[0] == b[1]:
        return (result(op, width, a[0], b[0]),) * 2
    a = a if a[1] <= top else (0, top)
    b = b if b[1] <= top else (0, top)
    (l1, h1), (l2, h2), full = a, b, (0, top)
    upper = 2 ** max(h1, h2).bit_length() - 1
    single = l2 == h2
    shift = l2 % width
    if op == "add":
        return (l1 + l2, h1 + h2) if h1 + h2 <= top else full
    if op == "sub":
        return (l1 - h2, h1 - l2) if l1 >= h2 else full
    if op == "mul":
        return (l1 * l2, h1 * h2) if h1 * h2 <= top else full
    if op == "div":
        return (l1 // h2, h1 // l2) if l2 >= 1 else (0, h1)
    if op == "mod":
        return (0, min(h1, h2 - 1)) if l2 >= 1 else (0, h1)
    if op == "and":
        return (0, min(h1, h2))
    if op == "or":
        return (max(l1, l2), upper)
    if op == "xor":
        return (0, upper)
    if op == "lsh":
        return (l1 << shift, h1 << shift) if single and h1 << shift <= top else full
    if op == "rsh" or (op == "arsh" and h1 < 2 ** (width - 1)):
        return (l1 >> shift, h1 >> shift) if single else (0, h1)
    return b if op == "mov" else full


def left_of(cond, width, a, b):
    """What a condition that holds leaves of two ranges, or None."""
    top = 2**width - 1
    if a[0] == a[1] and b[0] == b[1]:
        x, y = a[0] % (top + 1), b[0] % (top + 1)
        sx, sy = signed(x, width), signed(y, width)
        holds = {"eq": x == y, "ne": x != y, "lt": x < y, "le": x <= y, "gt": x > y, "ge": x >= y, "slt": sx < sy,
                 "sle": sx <= sy, "sgt": sx > sy, "sge": sx >= sy, "set": x & y != 0, "unset": x & y == 0}
        return (a, b) if holds[cond] else None
    if a[1] > top or b[1] > top:
        return a, b
    if cond[0] == "s" and cond != "set":
        return left_of(cond[1:], width, a, b) if max(a[1], b[1]) < 2 ** (width - 1) else (a, b)
    (l1, h1), (l2, h2) = a, b
    if cond == "eq":
        meet = max(l1, l2), min(h1, h2)
        return (meet, meet) if meet[0] <= meet[1] else None
    if cond == "ne":
        return without_end(a, b), without_end(b, a)
    if cond == "lt":
        return None if l1 >= h2 else ((l1, min(h1, h2 - 1)), (max(l2, l1 + 1), h2))
    if cond == "le":
        return None if l1 > h2 else ((l1, min(h1, h2)), (max(l2, l1), h2))
    if cond in ("gt", "ge"):
        turned = left_of({"gt": "lt", "ge": "le"}[cond], width, b, a)
        return None if turned is None else (turned[1], turned[0])
    return a, b


def without_end(a, b):
    """A range without the other's number, where that is single and one of its ends."""
    if b[0] != b[1]:
        return a
    if a[0] == b[0]:
        return a[0] + 1, a[1]
    return (a[0], a[1] - 1) if a[1] == b[0] else a


# ---- rules and outcomes


class Checker:
    def __init__(self, program, slots, table, nodes, memory):
        self.program, self.slots, self.table, self.nodes = program, slots, table, nodes
        self.sizes = {"memory": memory, "stack": STACK}

    def operand(self, state, insn, width=64):
        if insn.src is None:
            return number(insn.imm % 2**width)
        return state.registers[insn.src]

    def ways(self, slot, insn):
        if insn.form == "exit":
            return []
        ahead = [] if insn.form == "ja" else [("onward", slot + insn.slots)]
        return ahead + ([("jumping", slot + 1 + insn.off)] if insn.form in ("ja", "branch") else [])

    def reads(self, insn):
        if insn.form == "alu":
            own = [] if insn.op == "mov" else [insn.dst]
            return own + ([] if insn.src is None else [insn.src])
        if insn.form == "branch":
            return [insn.dst] + ([] if insn.src is None else [insn.src])
        if insn.form == "store":
            return [insn.base] + ([] if insn.src is None else [insn.src])
        if insn.form == "call":
            return list(range(1, HELPERS[insn.id][1] + 1))
        return {"neg": lambda: [insn.dst], "swap": lambda: [insn.dst], "movsx": lambda: [insn.src],
                "load": lambda: [insn.base], "loadsx": lambda: [insn.base], "exit": lambda: [0]}.get(
                    insn.form, lambda: [])()

    def check_always(self, slot, insn):
        if insn.form in ("ja", "branch") and insn.off < 0:
            raise Fault("rule 1")
        if any(to not in self.program for way, to in self.ways(slot, insn)):
            raise Fault("rule 2")
        if insn.form == "call" and insn.id not in HELPERS:
            raise Fault("rule 3")
        if insn.form in ("alu", "neg", "movsx", "swap", "load", "loadsx", "lddw") and insn.dst == 10:
            raise Fault("rule 5")

    def check_reached(self, insn, state):
        registers = state.registers
        if any(registers[at] is None for at in self.reads(insn)):
            raise Fault("rule 4")
        if insn.form == "alu":
            self.check_operands(insn, registers[insn.dst], self.operand(state, insn, insn.width))
        if insn.form in ("neg", "swap") and is_pointer(registers[insn.dst]):
            raise Fault("rule 6")
        if insn.form == "movsx" and is_pointer(registers[insn.src]):
            raise Fault("rule 6")
        if insn.form == "branch" and (is_pointer(registers[insn.dst]) or is_pointer(self.operand(state, insn))):
            raise Fault("rule 6")
        if insn.form in ("load", "loadsx", "store"):
            self.check_access(insn, state, registers[insn.base])
        if insn.form == "call":
            self.check_arguments(insn, registers)
        if insn.form == "exit" and is_pointer(registers[0]):
            raise Fault("rule 10")

    def check_operands(self, insn, a, b):
        if insn.op == "mov":
            if insn.width == 32 and is_pointer(b):
                raise Fault("rule 6")
            return
        if not (is_pointer(a) or is_pointer(b)):
            return
        moved = insn.width == 64 and (insn.op == "add" and is_pointer(a) != is_pointer(b)
                                      or insn.op == "sub" and not is_pointer(b))
        if not moved:
            raise Fault("rule 6")
        region = a[0] if is_pointer(a) else b[0]
        if range_of(insn.op, 64, a[1:], b[1:])[1] > self.sizes[region]:
            raise Fault("rule 6")

    def check_access(self, insn, state, base):
        if not is_pointer(base):
            raise Fault("rule 11")
        region, first, last = base[0], base[1] + insn.off, base[2] + insn.off
        if first < 0 or last + insn.size > self.sizes[region]:
            raise Fault("rule 7")
        whole = region == "stack" and first == last and insn.size == 8 and first % 8 == 0
        if insn.form == "store":
            value = self.operand(state, insn)
            if is_pointer(value) and not whole:
                raise Fault("rule 6")
        elif region == "stack":
            dword = state.dwords[first // 8] if whole and insn.form == "load" else None
            if is_pointer(dword):
                return
            taken = range(first, last + insn.size)
            if any(is_pointer(state.dwords[byte // 8]) for byte in taken):
                raise Fault("rule 6")
            if any(byte not in state.written for byte in taken):
                raise Fault("rule 8")

    def check_arguments(self, insn, registers):
        limits = [self.nodes, 2**32][:HELPERS[insn.id][1]]
        for at, limit in enumerate(limits, 1):
            if is_pointer(registers[at]) or registers[at][2] >= limit:
                raise Fault("rule 9")

    def outcome(self, insn, state, way):
        """What is known after the instruction on a way, or None where it isn't taken."""
        after, registers = state.copy(), state.registers
        if insn.form == "alu":
            after.registers[insn.dst] = self.alu_kind(insn, registers[insn.dst],
                                                      self.operand(state, insn, insn.width))
        elif insn.form in ("neg", "movsx", "swap"):
            after.registers[insn.dst] = self.changed(insn, registers[insn.src if insn.form == "movsx" else insn.dst])
        elif insn.form == "lddw":
            after.registers[insn.dst] = number(insn.value)
        elif insn.form == "loadsx":
            after.registers[insn.dst] = number(*FULL)
        elif insn.form == "load":
            after.registers[insn.dst] = self.loaded(insn, state, registers[insn.base])
        elif insn.form == "store":
            self.store(insn, after, registers[insn.base], self.operand(state, insn))
        elif insn.form == "call":
            answers = {"id": (0, self.nodes - 1), "recv": (0, 2**32 - 1), "send": (0, 0), "coin": (0, 1)}
            after.registers[:6] = [number(*answers[HELPERS[insn.id][0]])] + [None] * 5
        elif insn.form == "branch":
            return self.refined(insn, after, self.operand(state, insn, insn.width), way)
        return after

    def alu_kind(self, insn, a, b):
        if insn.op == "mov" and insn.width == 64:
            return b
        if insn.op == "mov":
            return number(*range_of("mov", 32, b[1:], b[1:]))
        kind = a[0] if is_pointer(a) else b[0]
        return (kind, *range_of(insn.op, insn.width, a[1:], b[1:]))

    def changed(self, insn, kind):
        single = kind[1] == kind[2]
        value = kind[1]
        if insn.form == "neg":
            return number(-value % 2**insn.width) if single else number(0, 2**insn.width - 1)
        if insn.form == "movsx":
            return number(signed(value, insn.bits) % 2**insn.width) if single else number(0, 2**insn.width - 1)
        low = value % 2**insn.bits
        turned = low if insn.order == "le" else int.from_bytes(low.to_bytes(insn.bits // 8, "little"), "big")
        return number(turned) if single else number(0, 2**insn.bits - 1)

    def loaded(self, insn, state, base):
        top = 2 ** (8 * insn.size) - 1
        first = base[1] + insn.off
        if base[0] == "stack" and base[1] == base[2] and insn.size == 8 and first % 8 == 0:
            return state.dwords[first // 8] or number(0, top)
        return number(0, top)

    def store(self, insn, after, base, value):
        if base[0] == "memory":
            return
        first, last = base[1] + insn.off, base[2] + insn.off
        if first == last and insn.size == 8 and first % 8 == 0:
            after.dwords[first // 8] = value
            own = set(range(first, first + 8))
            after.written = after.written - own if is_pointer(value) else after.written | own
            return
        for dword in range(first // 8, (last + insn.size + 7) // 8):
            after.dwords[dword] = None
        if first == last:
            after.written |= set(range(first, first + insn.size))

    def refined(self, insn, after, b, way):
        cond = insn.cond if way == "jumping" else OPPOSITE[insn.cond]
        left = left_of(cond, insn.width, after.registers[insn.dst][1:], b[1:])
        if left is None:
            return None
        if insn.src is None:
            after.registers[insn.dst] = number(*left[0])
        elif insn.src == insn.dst:
            meet = max(left[0][0], left[1][0]), min(left[0][1], left[1][1])
            if meet[0] > meet[1]:
                return None
            after.registers[insn.dst] = number(*meet)
        else:
            after.registers[insn.dst], after.registers[insn.src] = number(*left[0]), number(*left[1])
        return after

    # ---- the whole program

    def entry(self):
        state = State()
        state.registers[1] = ("memory", 0, 0)
        state.registers[2] = number(0, self.nodes - 1)
        state.registers[10] = ("stack", STACK, STACK)
        return state

    def check_proper(self, state):
        for at, kind in enumerate(state.dwords):
            own = set(range(8 * at, 8 * at + 8))
            if kind and (own & state.written if is_pointer(kind) else own - state.written):
                raise Fault(f"dword {at} and its bytes don't agree")

    def check_covered(self, state, to):
        if self.table[to] is None:
            raise Fault(f"slot {to} is reached")
        lacking = state.lacks(self.table[to])
        if lacking:
            raise Fault(f"more is said of {lacking} at slot {to} than is known")

    def check_slot(self, slot, insn):
        state = self.table[slot]
        self.check_always(slot, insn)
        if state is None:
            return
        self.check_proper(state)
        self.check_reached(insn, state)
        for way, to in self.ways(slot, insn):
            after = self.outcome(insn, state, way)
            if after is not None:
                self.check_covered(after, to)

    def longest(self):
        most = {}
        for slot in sorted(self.program, reverse=True):
            most[slot] = 1 + max((most[to] for way, to in self.ways(slot, self.program[slot])), default=0)
        return most[0]

    def check(self, verdict):
        if sorted(self.table) != sorted(self.program):
            raise Fault("the rows aren't those of the slots where instructions begin")
        self.check_covered(self.entry(), 0)
        for slot, insn in self.program.items():
            try:
                self.check_slot(slot, insn)
            except Fault as fault:
                raise Fault(f"slot {slot}: {fault}") from None
        if verdict != (self.slots, self.longest()):
            raise Fault("the verdict has other numbers")


def main():
    parser = argparse.ArgumentParser(description=__doc__.splitlines()[0])
    parser.add_argument("image")
    parser.add_argument("--nodes", type=int, default=4)
    parser.add_argument("--memory", type=int, default=16)
    asked = parser.parse_args()
    try:
        with open(asked.image, "rb") as file:
            program, slots = program_of(file.read())
        table, verdict = table_of(sys.stdin.read().splitlines())
        Checker(program, slots, table, asked.nodes, asked.memory).check(verdict)
    except Fault as fault:
        sys.exit(f"not typed: {fault}")
    print(f"typed: {slots} slots, at most {verdict[1]} instructions a run")


if __name__ == "__main__":
    main()
