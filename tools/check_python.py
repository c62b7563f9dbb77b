#!/usr/bin/env python3
"""Tries the Python package, the notebook and the grader: tools/check_python.py [PROGRAM]

- the tests of python/tests/, with the examples of all docstrings
- the package by `mypy --strict`
- the cells of examples/notebook.ipynb as a script, and the plot of docs/PYTHON.md with fewer seeds
- tools/grade.py on the folders of three students, one of them hostile
- the package of an unpacked archive, beside the program and installed by pip, with no checkout and no rt

They run at once. mypy and matplotlib are installed from Debian where they are missing and that can be done; otherwise a
line says what is left out. PROGRAM is as for check_rows.py. The archive is made of the last commit.
"""
import ast
import csv
import importlib.util
import json
import os
import re
import shutil
import subprocess
import sys
import tempfile
from concurrent.futures import ThreadPoolExecutor
from pathlib import Path

sys.dont_write_bytecode = True
from built_program import TOP, named_program, tell
from exercises import EXERCISES, MAX_BYTES
from page_commands import blocks

DEBIAN_PYTHON = "/usr/bin/python3"
SOLUTIONS = TOP / "examples/exercises/solutions"
SECONDS = 25
PATIENCE = 300
# What the notebook prints of seven nodes, modulo 8: bounds on the mean pulses until the clocks stabilise.
TOLD_BY_NOTEBOOK = re.compile(r"^7  2  8 +63\.0  950\.34$", re.M)
ASK = "import clockbed; print(clockbed.__file__, round(clockbed.Bench(4, 1, 8).explore(odds=1).mean, 2))"
SHOW = """
def show(value):
    html = getattr(value, "_repr_html_", lambda: None)()
    print((html or repr(value))[:400])
"""
ENDLESS = """version = 4
nodes = 3
faults = 1
modulus = 4
memory = 256
pulses = 10
coins = "zeros"
rule = '''
state a, b, c, d
a = a * 1664525 + 1013904223 + mail[0]
b = b * 1664525 + a + mail[1]
c = c + b * mail[2]
d = d * a + c
clock = (a + b + c + d) % M
for j: send a + j to j
'''

[[load]]
pulse = 1
nodes = [0, 1, 2]
program = "clock"
"""
# A rule whose loops make more instructions than a program may have.
UNROLLED = "".join(f"{'    ' * deep}for {name}:\n" for deep, name in enumerate("abcdeghi")) + "    " * 8 + "clock = a\n"
GRADES = {
    "ada": ["done"] * 12,
    "bob": ["done", "wrong", *["missing"] * 2, "wrong", *["missing"] * 4, "done", "wrong", "missing"],
    "mallory": [*["wrong"] * 9, "missing", "wrong", "limit"],
}


class Failed(Exception):
    """Says what a part finds wrong."""


def must(holds, otherwise):
    if not holds:
        raise Failed(otherwise)


def output_of(words, folder, **environment):
    """What a command prints, if it succeeds."""
    given = {**os.environ, "PYTHONDONTWRITEBYTECODE": "1", "PYTHONPATH": str(TOP / "python"), **environment}
    done = subprocess.run(words, cwd=folder, env=given, capture_output=True, text=True, check=False, timeout=PATIENCE)
    must(done.returncode == 0, f"{words[:3]}: status {done.returncode}: {done.stdout[-2000:]}{done.stderr[-3000:]}")
    return done.stdout


def is_there(words, package):
    """Whether a command succeeds, once the package of Debian is installed if it didn't before."""

    def succeeds():
        try:
            return subprocess.run(words, capture_output=True, check=False).returncode == 0
        except FileNotFoundError:
            return False

    return succeeds() or (subprocess.run([TOP / "tools/need_packages.sh", package]).returncode == 0 and succeeds())


def python_with_matplotlib():
    """A Python that has matplotlib, or nothing."""
    if importlib.util.find_spec("matplotlib"):
        return sys.executable
    if is_there([DEBIAN_PYTHON, "-c", "import matplotlib"], "python3-matplotlib"):
        return DEBIAN_PYTHON
    print("check_python: no plot is tried, since matplotlib is missing and can't be installed")
    return None


# The parts. Each gets a folder of its own.


def try_tests(folder):
    output_of([sys.executable, "-m", "unittest", "discover", "-s", "tests", "-t", "."], TOP / "python")


def try_types(folder):
    if is_there(["mypy", "--version"], "mypy"):
        words = ["mypy", "--config-file", "pyproject.toml", "--cache-dir", str(folder / "cache"), "clockbed"]
        output_of(words, TOP / "python", PYTHONPATH="")
    else:
        print("check_python: mypy isn't asked, since it is missing and can't be installed")


def shown(source):
    """The source of a cell, with its last expression shown as a notebook shows it."""
    tree = ast.parse(source)
    if isinstance(tree.body[-1], ast.Expr):
        value = tree.body[-1].value
        name = ast.Name("show", ast.Load())
        tree.body[-1] = ast.Expr(ast.Call(name, [value], []))
    return ast.unparse(ast.fix_missing_locations(tree))


def try_notebook(folder):
    python = python_with_matplotlib()
    cells = json.loads((TOP / "examples/notebook.ipynb").read_text(encoding="utf-8"))["cells"]
    code = [it for it in cells if it["cell_type"] == "code"]
    must(all(it["outputs"] == [] for it in code), "the notebook has outputs; clear them, so that it is the same for all")
    left_out = [] if python else ["matplotlib"]
    sources = ["".join(it["source"]) for it in code if not set(it["metadata"].get("tags", [])) & set(left_out)]
    script = folder / "cells.py"
    script.write_text("\n".join([SHOW, *map(shown, sources)]), encoding="utf-8")
    told = output_of([python or sys.executable, str(script)], TOP / "examples")
    must(TOLD_BY_NOTEBOOK.search(told), f"the notebook's table: {told}")
    must("<svg " in told, f"the notebook shows no run: {told}")


def try_plot(folder):
    python = python_with_matplotlib()
    page = (TOP / "docs/PYTHON.md").read_text(encoding="utf-8")
    plots = [text for language, _, _, text, _ in blocks(page) if language == "python" and "savefig" in text]
    must(plots, "docs/PYTHON.md has no plot")
    lines = plots[0].strip().split("\n")
    must(len(lines) <= 6, f"the plot of docs/PYTHON.md has {len(lines)} lines, not six")
    if python:
        output_of([python, "-c", plots[0].replace("1001", "21")], folder)
        must("of 20" in (folder / "luck.svg").read_text(encoding="utf-8"), "the plot has no label of 20 seeds")


def make_students(folder):
    """The folders of one who has all answers, one who has some, and one who hands in what does harm."""
    for name in GRADES:
        (folder / name).mkdir()
    ada, bob, mallory = (folder / name for name in GRADES)
    for path in SOLUTIONS.iterdir():
        shutil.copy(path, ada)
    for name in ("still.toml", "in_time.toml", "parted.toml", "own.toml"):
        shutil.copy(SOLUTIONS / name, bob)
    (bob / "messages.txt").write_text("0,1,2\n")
    for name, right, wrong in (("parted.toml", "faults = 2", "faults = 1"), ("in_time.toml", "pulse = 10", "pulse = 9")):
        (bob / name).write_text((bob / name).read_text().replace(right, wrong))
    (mallory / "still.toml").write_bytes(bytes(range(256)) * 64)
    (mallory / "in_time.toml").write_text("#" * (MAX_BYTES + 1))
    os.mkfifo(mallory / "helped.toml")
    (mallory / "path.s").symlink_to("/dev/zero")
    (mallory / "parted.toml").symlink_to("../ada/parted.toml")
    head, load = ENDLESS.partition("rule = ")[0], ENDLESS.partition("\n[[load]]")[2]
    (mallory / "too_few.toml").write_text(f"{head}rule = '''\n{UNROLLED}'''\n[[load]]{load}")
    (mallory / "enough.toml").write_text("#" * MAX_BYTES)
    (mallory / "refused.toml").write_text("[" * (MAX_BYTES // 2))
    (mallory / "carried.toml").write_text(head + "[[load]]\npulse = 1\nnodes = []\nprogram = 'clock'\n" * 5000)
    (mallory / "delayed.toml").write_text("nodes = 64\n\x1b[2J\x00")
    (mallory / "messages.txt").write_text("1," * (MAX_BYTES // 4) + "1")
    (mallory / "stabilises.toml").write_text(ENDLESS)


def try_grader(folder):
    make_students(folder)
    words = [sys.executable, str(TOP / "tools/grade.py"), "--seconds", str(SECONDS), *GRADES]
    rows = list(csv.DictReader(output_of(words, folder).splitlines()))
    must([it["student"] for it in rows] == list(GRADES), f"the students are {rows}")
    for row in rows:
        told = [row[str(number)] for number in EXERCISES]
        wanted = GRADES[row["student"]]
        must(told == wanted, f"{row['student']}: {told}, not {wanted}")
        must(row["count"] == str(wanted.count("done")), f"{row['student']}: {row['count']} are counted")
    report = (folder / "reports/mallory.txt").read_text(encoding="utf-8")
    must("BadRule rule TooLong" in report and "\x1b" not in report, f"mallory's report: {report}")
    try_time_limit(folder)
    try_seeds(folder)


def try_time_limit(folder):
    """An answer whose check takes much longer than it may is ended, and the others are graded."""
    slow = folder / "slow"
    slow.mkdir()
    (slow / "stabilises.toml").write_text(ENDLESS)
    shutil.copy(SOLUTIONS / "still.toml", slow)
    told = output_of([sys.executable, str(TOP / "tools/grade.py"), "--seconds", "2", "slow"], folder)
    must(told.endswith(f"slow,,done,{'missing,' * 10}limit,1\n"), f"a slow answer: {told}")
    report = (folder / "reports/slow.txt").read_text(encoding="utf-8")
    must("the check takes more than 2 s" in report, f"the report of a slow answer: {report}")


def try_seeds(folder):
    """Seeds are made for each student, and a scenario with other coins is wrong."""
    grade = [sys.executable, str(TOP / "tools/grade.py")]
    seeds = output_of([*grade, "--make-seeds", "a course", "ada", "bob"], folder)
    (folder / "seeds.csv").write_text(seeds)
    must(seeds == output_of([*grade, "--make-seeds", "a course", "ada", "bob"], folder), "seeds made twice differ")
    seed = next(csv.DictReader(seeds.splitlines()))["seed"]
    answer, fitting = folder / "ada/parted.toml", folder / "fitting.toml"
    for other in (folder / "ada").iterdir():
        if other != answer:
            other.unlink()
    text = answer.read_text().partition("[[coin]]")[0].replace("pulses = 3", "pulses = 40")
    fitting.write_text(text.replace('coins = "zeros"', f'coins = "chacha"\nkey = {seed}'))
    results = []
    for values in ("[1, 0, 0, -1]", "[0, 1, 0, -1]", "[0, 0, 1, -1]"):
        answer.write_text(fitting.read_text().replace("[1, 0, 0, -1]", values))
        results.append(seeded_result(grade, folder))
    must("done" in results, f"no plain attack violates agreement with the seed {seed}: {results}")
    answer.write_text(fitting.read_text().replace(f"key = {seed}", "key = 1"))
    must(seeded_result(grade, folder) == "wrong", "an answer with another seed is taken")


def seeded_result(grade, folder):
    told = output_of([*grade, "--seeds", "seeds.csv", "ada"], folder)
    return next(csv.DictReader(told.splitlines()))["5"]


def try_archive(folder):
    """The package beside the program of an archive, and installed by pip. Neither has a checkout or a PATH with rt."""
    made = output_of([str(TOP / "tools/release.sh"), str(folder)], TOP, CLOCKBED_PROGRAM=os.environ["CLOCKBED"])
    top = folder / "archive"
    top.mkdir()
    output_of(["tar", "-xzf", made.strip(), "-C", str(top), "--strip-components=1"], folder)
    alone = {"PATH": "/usr/bin:/bin", "HOME": str(folder)}

    def ask(words, **environment):
        given = {**alone, "PYTHONDONTWRITEBYTECODE": "1", **environment}
        done = subprocess.run(words, cwd=folder, env=given, capture_output=True, text=True, check=False, timeout=PATIENCE)
        must(done.returncode == 0, f"{words}: {done.stderr}")
        return done.stdout.split()

    told = ask([sys.executable, "-c", ASK], PYTHONPATH=str(top / "python"))
    must(told == [str(top / "python/clockbed/__init__.py"), "87.0"], f"the package of the archive says {told}")
    ask([sys.executable, "-m", "venv", "venv"])
    ask(["venv/bin/pip", "install", "--quiet", "--no-index", "--disable-pip-version-check", str(top / "python")])
    told = ask(["venv/bin/python", "-c", ASK], CLOCKBED=str(top / "clockbed"))
    must(str(folder / "venv") in told[0] and told[1] == "87.0", f"the installed package says {told}")


PARTS = [try_grader, try_tests, try_archive, try_notebook, try_plot, try_types]


def fault_of(part):
    with tempfile.TemporaryDirectory() as folder:
        try:
            part(Path(folder))
        except (Failed, OSError, SyntaxError, ValueError, subprocess.TimeoutExpired) as why:
            return [f"check_python: {part.__name__}: {why}"]
    return []


def main():
    os.environ["CLOCKBED"] = named_program()
    python_with_matplotlib()
    with ThreadPoolExecutor(len(PARTS)) as workers:
        found = [fault for some in workers.map(fault_of, PARTS) for fault in some]
    return tell("check_python", {"parts": len(PARTS)}, found)


if __name__ == "__main__":
    sys.exit(main())
