#!/usr/bin/env python3
"""Compares rules in C with the rules: tools/check_c.py [PROGRAM]

`compile --c` prints each rule of examples/rules/ as a C function. clang compiles it for BPF, `verify` has to accept the
image, and `exec` has to leave the same memory and messages as for the rule's own program, on drawn cases. `cc` compiles
the function for this machine, for the same cases and for those of drawn rules, which tools/rule_meaning.py computes.
Texts that are no rule have to be rejected as `compile` rejects them. What clang 14 or cc would compile is left out, and
said, if the compiler isn't there: another clang may make images that `verify` rejects. PROGRAM is as for check_rows.py.
"""
import pathlib
import random
import shlex
import shutil
import subprocess
import sys
import tempfile

sys.dont_write_bytecode = True
from built_program import TOP, answer, named_program, on_all_processors, tell
from check_rules import Drawing, drawn_case, listed, options_of, refusal_of, samples, sizes_of, spoiled
from rule_meaning import pulse
from rule_text import MAX_FRAMES

SEED, CASES, DRAWN, DRAWN_CASES, FAULTY = 1967, 1000, 120, 50, 100
NODES = (4, 7)
NONE = 4294967295
HEADERS = TOP / "examples/c"
# Names that C, its headers or the function itself have.
NAMED = """state int, memory, NODES
if clock:
    let unix = mail[0]
    let id = 1
    int, memory = memory + unix, int + id
for node:
    let recv = mail[node]
    let x_1 = node
    if recv == x_1: NODES = NODES + 1
let least = least condition: mail[condition] >= NODES
let number_at = sorted[f * (n > 3)] insert_number: mail[insert_number] + int
clock = least + number_at if least < none else count condition: mail[condition] == NODES
for _pulse: send clock + int to _pulse
"""
# A rule may have a name that it doesn't use.
WARNINGS = ["-Wall", "-Werror", "-Wno-unused-variable"]
BPF_TOOLS = ("clang", "llvm-objcopy", "llvm-readelf")


def cases_of(dice, nodes, count):
    """Cases, each with its sizes: a node, a coin, messages and a memory."""
    cases = []
    for _ in range(count):
        sizes = sizes_of(nodes)
        mail, memory = drawn_case(dice, sizes)
        if dice.random() < 0.5:  # messages that are alike, as of clocks
            few = [dice.randrange(4), dice.randrange(8)]
            mail = [dice.choice([*few, few[0], None]) for _ in mail]
            memory = b"".join(dice.choice([*few, 1]).to_bytes(4, "little") for _ in range(len(memory) // 4))
        cases.append((sizes, mail, memory))
    return cases


def results(lines):
    """Memory and messages of each case, from the lines of `exec --show`."""
    found = [line.split()[1] for line in lines if line.startswith(("memory ", "sent "))]
    return list(zip(found[::2], (sent.replace("-", str(NONE)) for sent in found[1::2])))


def exec_results(program, image, cases):
    """What the program of an image leaves in each case."""
    words = []
    for sizes, mail, memory in cases:
        options = [*options_of(sizes)[:2], f"--id={sizes.id}", f"--coin={sizes.coin}", f"--mail={listed(mail)}"]
        words.append(shlex.join([program, "exec", *options, f"--contents={memory.hex()}", "--show", str(image)]))
    done = subprocess.run(["sh"], input="\n".join(words), capture_output=True, text=True, check=False)
    return results(done.stdout.splitlines())


def meant_results(text, cases):
    """What the rule means in each case, by the second implementation."""
    found = []
    for sizes, mail, memory in cases:
        left, sent = pulse(text.encode(), sizes, memory, mail)
        found.append((left.hex(), listed(sent).replace("-", str(NONE))))
    return found


def native_results(runner, cases):
    """What the compiled function leaves in each case."""
    given = []
    for sizes, mail, memory in cases:
        words = [int.from_bytes(memory[at : at + 4], "little") for at in range(0, len(memory), 4)]
        heard = [NONE if it is None else it for it in mail]
        given.append(" ".join(map(str, [sizes.id, sizes.coin, *heard, *words])))
    done = subprocess.run([runner], input="\n".join(given), capture_output=True, text=True, check=False)
    found = []
    for line in done.stdout.splitlines():
        numbers = [int(it) for it in line.split()]
        words = len(numbers) - cases[0][0].nodes
        left = b"".join(it.to_bytes(4, "little") for it in numbers[:words])
        found.append((left.hex(), ",".join(map(str, numbers[words:]))))
    return found


def differing(name, got, wanted, cases):
    """The first case in which two lists of results differ."""
    if len(got) != len(wanted):
        return [f"{name}: {len(got)} results of {len(wanted)} cases"]
    for mine, its, (sizes, mail, memory) in zip(got, wanted, cases):
        if mine != its:
            case = f"id {sizes.id} coin {sizes.coin} mail {listed(mail)} memory {memory.hex()}"
            return [f"{name}: {mine} in place of {its} at {case}"]
    return []


def natively(source, runner, warnings):
    words = ["cc", "-O2", *warnings, f'-DRULE="{source}"', f"-I{HEADERS}", TOP / "tools/rule_cases.c", "-o", runner]
    done = subprocess.run(words, capture_output=True, text=True, check=False)
    return [] if done.returncode == 0 else [f"{source}: cc: {done.stderr}"]


def as_image(source, image):
    words = [HEADERS / "compile.sh", source, image, f"-I{HEADERS}", "-Wno-unused-variable"]
    done = subprocess.run(words, capture_output=True, text=True, check=False)
    return [] if done.returncode == 0 and not done.stderr else [f"{source}: clang: {done.stderr}"]


def printed(program, text, nodes, source):
    """Writes the rule in C. Returns whether there is one."""
    got = answer(program, ["compile", "--c", *options_of(sizes_of(nodes))], text.encode())
    source.write_bytes(got.out)
    return got.status == 0


def example_faults(program, row, room, tools):
    """What is wrong of an example for a number of nodes."""
    name, text, nodes, cases = row
    source, image, own, runner = (room / f"{name}_{nodes}{end}" for end in (".c", ".bpf", ".own", ""))
    got = answer(program, ["compile", *options_of(sizes_of(nodes))], text.encode())
    if got.status or not printed(program, text, nodes, source):
        return [f"{name} for {nodes} nodes: {got.out[:80]}"]
    own.write_bytes(got.out)
    wanted = exec_results(program, own, cases)
    found = differing(f"{name}, its meaning", meant_results(text, cases[:50]), wanted[:50], cases)
    if "clang" in tools:
        found += as_image(source, image)
        verdict = answer(program, ["verify", *options_of(sizes_of(nodes))[:2], str(image)], b"").out
        if not verdict.startswith(b"accepted "):
            return [*found, f"{name} for {nodes} nodes: {verdict.decode().strip()}"]
        found += differing(f"{name} by clang", exec_results(program, image, cases), wanted, cases)
    if "cc" in tools:
        found += natively(source, runner, WARNINGS) or differing(f"{name} by cc", native_results(runner, cases), wanted, cases)
    return found


def drawn_faults(program, row, room):
    """What is wrong of a drawn rule: its function in C beside its meaning."""
    text, number, cases = row
    source, runner = room / f"drawn_{number}.c", room / f"drawn_{number}"
    if not printed(program, text, cases[0][0].nodes, source):
        return [f"no C of:\n{text}"]
    found = natively(source, runner, ["-w"])
    found = found or differing("drawn", native_results(runner, cases), meant_results(text, cases), cases)
    return [f"{it}:\n{text}" for it in found]


def refusal_faults(program, text):
    """Whether a text that is no rule is rejected as by `compile`."""
    in_c, own = (answer(program, ["compile", *words], text.encode()) for words in (["--c"], []))
    is_text_error = own.out.startswith(b"refused rule ") and b" line " in own.out
    is_same = (in_c.out, in_c.status) == (own.out, own.status) if is_text_error else in_c.status in (0, 2)
    return [] if is_same else [f"{in_c.out[:80]} in place of {own.out[:80]} of:\n{text}"]


def tools_here():
    """The compilers whose work is checked. It says which are missing."""
    tools = {"cc"} if shutil.which("cc") else set()
    if all(map(shutil.which, BPF_TOOLS)):
        said = subprocess.run(["clang", "--version"], capture_output=True, text=True, check=False).stdout
        tools |= {"clang"} if "version 14" in said else set()
    for name, wanted in (("clang", "clang 14"), ("cc", "cc")):
        if name not in tools:
            print(f"check_c: {wanted} isn't here, so what it compiles isn't checked")
    return tools


def main():
    program, dice = named_program(), random.Random(SEED)
    sys.setrecursionlimit(MAX_FRAMES)
    tools = tools_here()
    examples = [(it.stem, it.read_text(encoding="utf-8")) for it in sorted(TOP.glob("examples/rules/*.rule"))]
    examples.append(("names", NAMED))
    rows = [(*it, nodes, cases_of(dice, nodes, CASES if nodes == 4 else 100)) for it in examples for nodes in NODES]
    rules = [it for it in (Drawing(dice).rule() for _ in range(2 * DRAWN)) if not refusal_of(it)]
    drawn = [(text, number, cases_of(dice, 4, DRAWN_CASES)) for number, text in enumerate(rules[:DRAWN])]
    texts = [spoiled(dice, dice.choice(samples())) for _ in range(FAULTY)]
    with tempfile.TemporaryDirectory() as made:
        room = pathlib.Path(made)
        found = on_all_processors(lambda row: example_faults(program, row, room, tools), rows)
        if "cc" in tools:
            found += on_all_processors(lambda row: drawn_faults(program, row, room), drawn)
    found += on_all_processors(lambda text: refusal_faults(program, text), texts)
    counts = {"rules": len(examples), "cases": sum(len(it[3]) for it in rows), "texts with faults": len(texts)}
    return tell("check_c", {**counts, **({"drawn rules": len(drawn)} if "cc" in tools else {})}, found)


if __name__ == "__main__":
    sys.exit(main())
