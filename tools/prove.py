#!/usr/bin/env python3
"""Proves every crate that the program stands on, and builds the program: ./clockbed --prove

It works on a mirror of these crates among the user's cached files (XDG_CACHE_HOME, or .cache in the home folder), so
that crates which only tests and trials need aren't proved. `rt ci` proves them there, and keeps what passed on this
machine, so that a run after one that was stopped goes on from it. The gate's proofs count here, too. The program is
copied to crates/clockbed/out/clockbed.
"""
import contextlib
import filecmp
import hashlib
import os
import pathlib
import re
import shutil
import signal
import subprocess
import sys
import threading
import time

TOP = pathlib.Path(__file__).resolve().parent.parent
CACHE = pathlib.Path(os.environ.get("XDG_CACHE_HOME") or pathlib.Path.home() / ".cache")
MIRROR = CACHE / "clockbed" / hashlib.sha256(bytes(TOP)).hexdigest()[:16]
PROGRAM = "clockbed"
PARTS = ("src", "specs", "proofs", "stdin", "stdout", "args", "status", "data")


def read_crates():
    """The line of each crate in crates.txt, by its name, and the names that the line lists."""
    lines = (TOP / "crates.txt").read_text(encoding="utf-8").splitlines()
    crates = {}
    for line in lines:
        if (found := re.match(r"(\w+)\b[^:#]*:(.*)", line)):
            crates[found[1]] = (line, found[2].split())
    return crates


def crates_below(crates, name):
    """The crate and all crates of the repository below it."""
    found, waiting = set(), [name]
    while waiting:
        crate = waiting.pop()
        if crate in crates and crate not in found:
            found.add(crate)
            waiting += crates[crate][1]
    return found


def files_of(crate):
    folder = TOP / "crates" / crate
    parts = [folder / part for part in PARTS]
    return [path for part in parts for path in ([part] if part.is_file() else part.rglob("*")) if path.is_file()]


def copy_changed(source, target):
    if not target.is_file() or not filecmp.cmp(source, target, shallow=False):
        target.parent.mkdir(parents=True, exist_ok=True)
        shutil.copyfile(source, target)


def mirror(crates, names):
    """Copies what changed, and removes what is gone. What is in out/ stays."""
    lines = [line for name, (line, _) in crates.items() if name in names]
    MIRROR.mkdir(parents=True, exist_ok=True)
    (MIRROR / "crates.txt").write_text("\n".join(lines) + "\n", encoding="utf-8")
    # The toolchain looks for the top of a repository no further than here.
    (MIRROR / ".git").mkdir(exist_ok=True)
    shutil.copyfile(TOP / "HANDLES", MIRROR / "HANDLES")
    wanted = set()
    for path in (path for name in names for path in files_of(name)):
        target = MIRROR / path.relative_to(TOP)
        copy_changed(path, target)
        wanted.add(target)
    for path in MIRROR.glob("crates/*/**/*"):
        if path.is_file() and path not in wanted and "out" not in path.relative_to(MIRROR).parts:
            path.unlink()


class Progress:
    """Shows how far the proof is, on one line of a terminal, or as a line for each crate."""

    def __init__(self, sizes):
        self.sizes, self.done, self.began = sizes, set(), time.monotonic()

    def read(self, line):
        found = re.match(r"rt: (\w+) (?:proved|is kept)", line)
        if found and found[1] in self.sizes and found[1] not in self.done:
            self.done.add(found[1])
            if not sys.stderr.isatty():
                self.show()

    def left(self):
        """What is said of the time that is left: in proportion to the lines that are proved."""
        share = sum(self.sizes[name] for name in self.done) / sum(self.sizes.values())
        if share < 0.05:
            return "estimating the time"
        seconds = (time.monotonic() - self.began) * (1 - share) / share
        return f"about {max(round(seconds / 60), 1)} minutes left"

    @contextlib.contextmanager
    def shown(self):
        """Shows the line each second while this lasts: a check can be silent for a minute."""
        ended = threading.Event()

        def show_on():
            while sys.stderr.isatty() and not ended.wait(1):
                self.show()

        showing = threading.Thread(target=show_on)
        showing.start()
        try:
            yield
        finally:
            ended.set()
            showing.join()
            self.show(ends=True)

    def show(self, ends=False):
        passed = int(time.monotonic() - self.began)
        text = f"clockbed: {len(self.done)} of {len(self.sizes)} crates proved"
        text += f", {passed // 60}:{passed % 60:02} minutes, {self.left()}"
        if sys.stderr.isatty():
            print(f"\r\033[K{text}", end="\n" if ends else "", file=sys.stderr, flush=True)
        elif not ends:
            print(text, file=sys.stderr, flush=True)


def prove(sizes, log):
    """Proves the crates and builds the program. Answers the status."""
    progress = Progress(sizes)
    how = {"stdin": subprocess.DEVNULL, "stdout": subprocess.PIPE, "stderr": subprocess.STDOUT, "text": True}
    how |= {"errors": "replace", "start_new_session": True}
    with subprocess.Popen(["rt", "ci"], cwd=MIRROR, **how) as job, progress.shown():
        try:
            for line in job.stdout:
                log.write(line)
                progress.read(line)
        except KeyboardInterrupt:
            os.killpg(job.pid, signal.SIGTERM)
            sys.exit("clockbed: stopped; what was proved is kept, and ./clockbed --prove goes on from there")
    return job.returncode


def install(began):
    """Copies the program. An edit since the proof began makes it older than its sources."""
    target = TOP / "crates" / PROGRAM / "out" / PROGRAM
    target.parent.mkdir(exist_ok=True)
    fresh = target.with_name(f"{PROGRAM}.new")
    shutil.copy(MIRROR / "crates" / PROGRAM / "out" / PROGRAM, fresh)
    os.utime(fresh, (began, began))
    fresh.replace(target)
    return target.relative_to(TOP)


def main():
    began = time.time()
    crates = read_crates()
    names = crates_below(crates, PROGRAM)
    mirror(crates, names)
    sizes = {name: sum(len(path.read_bytes().splitlines()) for path in files_of(name)) for name in names}
    path = MIRROR / "log"
    with open(path, "w", encoding="utf-8") as log:
        status = prove(sizes, log)
    if status:
        print(*path.read_text(encoding="utf-8").splitlines()[-40:], sep="\n", file=sys.stderr)
        sys.exit("clockbed: not every crate is proved, and the program isn't built")
    print(f"clockbed: proved and built: {install(began)}", file=sys.stderr)


if __name__ == "__main__":
    main()
