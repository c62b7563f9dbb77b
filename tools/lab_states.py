"""The bench that begins in a state of a run, for tools/lab.py: `explore` tells what may follow the state.

Each correct node has eight bytes more, a counter of pulses. In pulse 1 its program stores what the node holds in the
state, and sends what it sent. In pulse 2 it runs its own instructions. After that it does nothing, so the search ends.
The other nodes send what they sent in the state, or any message of a list if they are free.
"""
import re

MAX_MEMORY, WORD = 256, 8
EDGE = re.compile(r"^  (\w+) -> (\d+);$", re.MULTILINE)
LABEL = re.compile(r'^  (\d+) \[label="([^"]*)"', re.MULTILINE)


def begun(program, memory, sent, place):
    """The program of a node that begins with this memory and these messages; `place` is that of its counter."""
    stores = [(at, memory[at : at + WORD]) for at in range(0, len(memory), WORD)]
    lines = [f"ldxdw r3, [r1+{place}]", "jeq r3, 1, run", "jeq r3, 2, over", f"stdw [r1+{place}], 1"]
    for at, some in stores:
        lines += [f"lddw r3, {int.from_bytes(some, 'little')}", f"stxdw [r1+{at}], r3"]
    for to, message in sent:
        lines += [f"mov64 r1, {to}", f"lddw r2, {message}", "call send"]
    return "\n".join([*lines, "over: mov64 r0, 0", "exit", f"run: stdw [r1+{place}], 2", program.strip(), ""])


def load(node, lines):
    return f"\n[[load]]\npulse = 1\nnodes = [{node}]\n{lines}\n"


def bench_of(frame, state, programs, free):
    """The scenario: `programs` has the text of each correct node, and `free` are those that send any message."""
    size, nodes = frame["memory"], range(frame["nodes"])
    head = "".join(f"{name} = {frame[name]}\n" for name in ("nodes", "faults", "modulus"))
    parts = [f'version = 3\n{head}memory = {size + WORD}\npulses = 3\ncoins = "zeros"\n']
    for node in nodes:
        sent = state["sent"][node]
        if node in programs:
            messages = [(to, it) for to, it in enumerate(sent) if it is not None and to in programs]
            text = begun(programs[node], bytes.fromhex(state["memory"][node]), messages, size)
            parts.append(load(node, f"program = \"asm\"\ntext = '''\n{text}'''"))
        elif node not in free:
            values = ", ".join(str(-1 if it is None else it) for it in sent)
            parts.append(load(node, f'program = "say"\nvalues = [{values}]'))
    return "".join(parts)


def following(graph, loaded, correct):
    """The clocks of the correct nodes in each state that may follow the second one of a graph of `explore`."""
    after, labels = {}, dict(LABEL.findall(graph))
    for one, other in EDGE.findall(graph):
        after.setdefault(one, []).append(other)
    (first,) = after["start"]
    (state,) = after[first]
    clocks = [dict(zip(loaded, map(int, labels[it].split()))) for it in after[state]]
    return sorted({tuple(it[node] for node in correct) for it in clocks})
