#!/usr/bin/env python3
"""Draws runs of 64 nodes and 1,000 pulses, and counts what the pictures hold: tools/check_pictures.py

Asked of each picture: fewer than 20,000 rectangles, less than 2 MiB, no frame below 8 pixels, so much of its area in
one colour as the run is in step, and as many colours as it has phases, up to the 24 that there are. CLOCKBED_PROGRAM
names another program than the one that was built here.
"""
import collections
import subprocess
import sys
import xml.etree.ElementTree

sys.dont_write_bytecode = True
from built_program import named_program
from picture import COLOURS, LEAST_FRAME, PALE, draw
from readings import read_run

SVG = "{http://www.w3.org/2000/svg}"
CLOCKS = [*COLOURS, PALE]
MAX_RECTANGLES, MAX_BYTES = 20_000, 2 << 20
TOP = 'nodes = 64\nfaults = 21\nmemory = 8\npulses = 1000\ncoins = "ones"\n'
RESTLESS = """
        mov64 r7, r2            # each node by itself, and no two pulses alike
        mul64 r7, 7919
        ldxw r3, [r1+0]
        mul64 r3, 77
        add64 r3, r7
        add64 r3, 1
        and64 r3, 65535
        stxw [r1+0], r3
        mov64 r0, 0
        exit
"""
SLOW = """
        ldxw r3, [r1+4]         # stands still in each sixteenth pulse
        add64 r3, 1
        stxw [r1+4], r3
        and64 r3, 15
        jeq r3, 0, end
        ldxw r3, [r1+0]
        add64 r3, 1
        and64 r3, 15
        stxw [r1+0], r3
end:    mov64 r0, 0
        exit
"""


def load(nodes, program, more=""):
    return f'[[load]]\npulse = 1\nnodes = {list(nodes)}\nprogram = "{program}"\n{more}'


def corruption(pulse, node):
    return f"[[corrupt]]\npulse = {pulse}\nnode = {node}\nimage = [5, 0, 0, 0, 1, 0, 0, 0]\n"


def in_step():
    """50 clocks and 14 echoes; after each 25 pulses a memory is overwritten."""
    head = "version = 2\nmodulus = 12\n" + TOP
    return head + load(range(50), "clock") + load(range(50, 64), "echo") + "".join(
        corruption(7 + 25 * node, node) for node in range(40)
    )


def own(modulus, text, corrupted=()):
    head = f"version = 3\nmodulus = {modulus}\nclock = '''{text}'''\n" + TOP
    return head + load(range(64), "clock") + "".join(corruption(2 + node, node) for node in corrupted)


# The scenario, the least part of the cells that has the commonest colour, and the least number of colours.
RUNS = {
    "in step": (in_step(), 0.9, 1),
    "each phase": (own(16, SLOW, range(0, 64, 2)), 0, 17),
    "restless": (own(65536, RESTLESS), 0, len(COLOURS)),
}


def run(program, scenario):
    ran = subprocess.run([program, "run", "--json"], input=scenario.encode(), capture_output=True, check=False)
    if ran.returncode:
        raise SystemExit(f"check_pictures: status {ran.returncode}: {(ran.stdout + ran.stderr)[:200]!r}")
    return ran.stdout.decode()


def area_by_colour(picture):
    """How much of the picture each colour of a clock has."""
    area = collections.Counter()
    for it in picture.iter(SVG + "rect"):
        if it.get("fill") in CLOCKS:
            area[it.get("fill")] += float(it.get("width")) * float(it.get("height"))
    for it in picture.iter(SVG + "path"):
        if it.get("fill") in CLOCKS:
            area[it.get("fill")] += len(it.get("d").split("M"))
    return area


def least_frame(picture):
    """The least size of a cell with an edge, the edge included."""
    framed = [it for it in picture.iter(SVG + "rect") if it.get("stroke") and it.find(SVG + "title") is not None]
    sizes = [min(float(it.get(side)) for side in ("width", "height")) + edge_of(it) for it in framed]
    return min(sizes, default=LEAST_FRAME)


def edge_of(it):
    return float(it.get("stroke-width", 1))


def faults_of(text, least_part, least_colours):
    picture = xml.etree.ElementTree.fromstring(text)
    area = area_by_colour(picture)
    rectangles = sum(1 for _ in picture.iter(SVG + "rect"))
    greatest = max(area.values(), default=0) / (sum(area.values()) or 1)
    print(f"{rectangles} rectangles, {len(text)} bytes, {len(area)} colours, {greatest:.0%} in the commonest")
    if rectangles >= MAX_RECTANGLES:
        yield f"{rectangles} rectangles"
    if len(text.encode()) >= MAX_BYTES:
        yield f"{len(text.encode())} bytes"
    if least_frame(picture) < LEAST_FRAME:
        yield f"a frame of {least_frame(picture)}"
    if greatest < least_part or not area:
        yield f"{greatest:.0%} in the commonest colour"
    if len(area) < least_colours:
        yield f"{len(area)} colours"


def main():
    program = named_program()
    count = 0
    for name, (scenario, least_part, least_colours) in RUNS.items():
        print(name, end=": ")
        for fault in faults_of(draw(read_run(run(program, scenario)), False), least_part, least_colours):
            count += 1
            print(f"check_pictures: {name}: {fault}", file=sys.stderr)
    print(f"check_pictures: {len(RUNS)} pictures, {count} faults", file=sys.stderr)
    return 1 if count else 0


if __name__ == "__main__":
    sys.exit(main())
