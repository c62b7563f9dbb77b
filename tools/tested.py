#!/usr/bin/env python3
"""Tries the seeded bugs that no contract excludes: tools/tested.py [--read] [CRATE[/BUG]..]

A file crates/NAME/tested/BUG.edit has the form of those in must-fail/ (docs/DEVELOPING.md, "A must-fail edit"), below a
line that says what has to find the bug: `found by: tools/check_rows.py rows/sweep.txt`, `found by: rt try NAME --test`.
For each bug the files that git names are copied to a folder, and the copy is changed. The program is built there without
a proof, which takes some minutes on one processor, and the command is run in the copy: a script of tools/ on that
program, or the tests of a crate. The bug is found if the command fails. Before a command counts, it has to pass in a
copy without a bug.

  --read             builds nothing: each bug names a script that is there, a file, and texts that stand once in it
  --jobs N           builds N copies at once, with 5 GB of memory each; scripts run one after another, since some of them
                     measure time
"""
import argparse
import os
import pathlib
import re
import shlex
import shutil
import subprocess
import sys
import tempfile
import threading
from concurrent.futures import ThreadPoolExecutor

sys.dont_write_bytecode = True
from mistakes import TOP, first_error, mistakes_of

FOLDER = "tested"
FINDS = "found by: "
PROGRAM = "out/unproved/clockbed"
ENDED = re.compile(r"^run=ended\b", re.M)
MAX_SHOWN = 160


class Unbuilt(Exception):
    """Says why a copy can't be built."""


def command_of(bug):
    """The words of the command that has to find the bug, none if its first line names no command."""
    first = bug.path.read_text(encoding="utf-8").partition("\n")[0]
    return tuple(shlex.split(first.removeprefix(FINDS))) if first.startswith(FINDS) else ()


def is_known(command):
    """Whether the command is a script that is there, or the tests of a crate that is there."""
    if command[:1] and command[0].startswith("tools/"):
        return os.access(TOP / command[0], os.X_OK)
    return is_of_tests(command) and (TOP / "crates" / command[2]).is_dir()


def is_of_tests(command):
    return len(command) == 4 and command[:2] == ("rt", "try") and command[3] == "--test"


class Copy:
    """The files that git names, in a folder of their own, with some texts changed."""

    def __init__(self, folder, crate="", texts=()):
        self.folder = pathlib.Path(folder)
        named = subprocess.run(["git", "ls-files", "-z"], cwd=TOP, check=True, capture_output=True, text=True).stdout
        for name in filter(None, named.split("\0")):
            if (TOP / name).is_file():
                (self.folder / name).parent.mkdir(parents=True, exist_ok=True)
                shutil.copy2(TOP / name, self.folder / name)
        for file, text in dict(texts).items():
            (self.folder / "crates" / crate / file).write_text(text, encoding="utf-8")

    def run(self, words, folder=".", **more):
        """Runs words in a folder of the copy, and answers the status and what was said."""
        environment = {**os.environ, "ASAN_OPTIONS": "detect_leaks=0", **more}
        how = {"cwd": self.folder / folder, "env": environment, "stdin": subprocess.DEVNULL, "errors": "replace"}
        ran = subprocess.run(words, check=False, stdout=subprocess.PIPE, stderr=subprocess.STDOUT, **how)
        return ran.returncode, ran.stdout

    def program(self):
        """The path of the program of this copy, built at the first call."""
        path = self.folder / PROGRAM
        if not path.exists():
            said = self.run(["./clockbed", "--version"])[1]
            if not path.exists():
                raise Unbuilt(first_error(said)[:MAX_SHOWN])
        return str(path)

    def fails(self, command):
        """What the command says if it fails here, and nothing if it passes."""
        if is_of_tests(command):
            status, said = self.run(["rt", "try", "--test"], f"crates/{command[2]}")
            if status and not ENDED.search(said):
                raise Unbuilt(first_error(said)[:MAX_SHOWN])
        else:
            path = self.program()
            status, said = self.run([command[0], path, *command[1:]], CLOCKBED_PROGRAM=path)
        return first_line(said, "FAILED") if status else None


def first_line(said, word=""):
    """The first line with a word, or the first one that isn't empty."""
    lines = [line for line in said.splitlines() if line.strip()]
    lines = [line for line in lines if word in line] or lines
    return lines[0][:MAX_SHOWN] if lines else "nothing was said"


class Trial:
    """Tries bugs. It keeps one copy without a bug, and what commands said there."""

    def __init__(self, room):
        self.unchanged, self.ran = Copy(pathlib.Path(room) / "unchanged"), {}
        self.asking, self.running = threading.Lock(), threading.Lock()

    def failure_in(self, copy, command):
        """What the command says if it fails in a copy, whose program is built beside others, and nothing if it passes."""
        if is_of_tests(command):
            return copy.fails(command)
        copy.program()
        with self.running:
            return copy.fails(command)

    def failure_without(self, command):
        """What the command says in a copy without a bug if it fails there, and nothing if it passes."""
        with self.asking:
            if command not in self.ran:
                try:
                    self.ran[command] = self.failure_in(self.unchanged, command)
                except Unbuilt as why:
                    self.ran[command] = str(why)
            return self.ran[command]

    def verdict(self, bug):
        """Whether the bug is found, and a word on it."""
        command, texts = command_of(bug), {}
        bug.apply(texts)
        with tempfile.TemporaryDirectory() as folder:
            try:
                said = self.failure_in(Copy(folder, bug.crate, texts), command)
            except Unbuilt as why:
                return False, f"CAN'T BE BUILT ({why})"
        failure = self.failure_without(command)
        if failure:
            return False, f"NOT TRIED ({shlex.join(command)} fails without the bug: {failure})"
        return (True, f"found ({said})") if said else (False, f"NOT FOUND by {shlex.join(command)}")


def read(wanted):
    """The wanted bugs, all if none is named, and a line for each that can't be tried."""
    named = {name.partition("/")[0] for name in wanted}
    bugs, faults = [], []
    for crate in sorted(named or {path.parent.name for path in TOP.glob(f"crates/*/{FOLDER}")}):
        found, unread = mistakes_of(crate, [FOLDER], wanted)
        bugs, faults = bugs + found, faults + unread
    faults += [f"{bug.path.relative_to(TOP)}: it names no command" for bug in bugs if not is_known(command_of(bug))]
    return bugs, faults


def try_all(bugs, jobs):
    """Tries the bugs, so many at once, and prints a line for each. Answers whether all are found."""
    count = 0
    with tempfile.TemporaryDirectory() as room, ThreadPoolExecutor(jobs) as pool:
        for bug, (is_found, word) in zip(bugs, pool.map(Trial(room).verdict, bugs)):
            count += is_found
            print(f"{bug.crate}/{bug.name}: {word}", flush=True)
    print(f"tested: {count} of {len(bugs)} found")
    return count == len(bugs)


def main(words):
    parser = argparse.ArgumentParser(description=__doc__, formatter_class=argparse.RawDescriptionHelpFormatter)
    parser.add_argument("--read", action="store_true")
    parser.add_argument("--jobs", type=int, choices=range(1, 65), default=1, metavar="N")
    parser.add_argument("wanted", nargs="*", metavar="CRATE[/BUG]")
    options = parser.parse_args(words)
    bugs, faults = read(options.wanted)
    if faults or options.read:
        print(*faults, f"tested: {len(bugs)} read, {len(faults)} can't be tried", sep="\n")
        return 1 if faults or not bugs else 0
    return 0 if bugs and try_all(bugs, options.jobs) else 1


if __name__ == "__main__":
    sys.exit(main(sys.argv[1:]))
