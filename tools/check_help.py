#!/usr/bin/env python3
"""Runs the example of each help text of the program, and looks for its page: tools/check_help.py [PROGRAM]

`clockbed --help` and the help of each command end with `Example: clockbed ..` and `Page: docs/..`. The example runs in
a fresh folder with a copy of examples/; it must end with status 0 and write something.
PROGRAM is as for check_rows.py.
"""
import os
import pathlib
import re
import shutil
import subprocess
import sys
import tempfile

sys.dont_write_bytecode = True
from built_program import SECONDS, TOP, answer, named_program, on_all_processors, tell

COMMAND = re.compile(r"^  ([a-z]+)  +\S", re.M)
EXAMPLE = re.compile(r"^Example: (clockbed .+)$", re.M)
PAGE = re.compile(r"^Page: (\S+)$", re.M)


def helps(program):
    """The words of each help text and the text."""
    first = answer(program, ["--help"], b"").out.decode()
    yield "clockbed --help", first
    for name in COMMAND.findall(first):
        if name != "help":
            yield f"clockbed {name} --help", answer(program, [name, "--help"], b"").out.decode()


def fresh_folder(parent, program):
    """A folder in which an example can run, and the folder in which `clockbed` is the program."""
    place, programs = pathlib.Path(tempfile.mkdtemp(dir=parent)), pathlib.Path(tempfile.mkdtemp(dir=parent))
    shutil.copytree(TOP / "examples", place / "examples")
    (programs / "clockbed").symlink_to(program)
    return place, programs


def size_of(place):
    return sum(it.stat().st_size for it in place.rglob("*") if it.is_file())


def fault_of(program, example, parent):
    place, programs = fresh_folder(parent, program)
    before = size_of(place)
    paths = {**os.environ, "PATH": f"{programs}:{os.environ['PATH']}"}
    done = subprocess.run(
        ["bash", "-c", example], cwd=place, env=paths, stdin=subprocess.DEVNULL, capture_output=True, timeout=SECONDS
    )
    if done.returncode:
        return f"status {done.returncode}: {(done.stdout + done.stderr).decode(errors='replace').strip()}"
    return "" if done.stdout or size_of(place) > before else "nothing is written"


def differences(program, one, parent):
    words, text = one
    examples, pages = EXAMPLE.findall(text), PAGE.findall(text)
    if len(examples) != 1 or len(pages) != 1:
        return [f"{words}: {len(examples)} lines Example and {len(pages)} lines Page, not one of each"]
    fault = fault_of(program, examples[0], parent)
    found = [f"{words}: {examples[0]}: {fault}"] if fault else []
    return found + ([] if (TOP / pages[0]).is_file() else [f"{words}: no page is at {pages[0]}"])


def main():
    program = named_program()
    texts = list(helps(program))
    with tempfile.TemporaryDirectory() as parent:
        found = on_all_processors(lambda one: differences(program, one, parent), texts)
    return tell("check_help", {"help texts": len(texts)}, found)


if __name__ == "__main__":
    sys.exit(main())
