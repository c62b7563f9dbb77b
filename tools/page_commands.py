#!/usr/bin/env python3
"""Runs the command lines of a page and compares what they write: tools/page_commands.py PAGE, at the top of a checkout.

A block fenced as ```sh is command lines, which bash runs here. A block fenced as ```python is a script, for which the
package of python/ is on the path. A block fenced as ```text right below it is what they write, on standard output and
standard error together; with no such block they write nothing and end with status 0.
A comment in the line above the block changes that:

    <!-- not run: WHY -->           the block isn't run
    <!-- run where: COMMAND -->     the block is run only where this command succeeds
"""
import difflib
import os
import re
import signal
import subprocess
import sys

FENCE = re.compile(r"^```(\w*)\n(.*?)^```$", re.M | re.S)
MARK = re.compile(r"<!-- (not run|run where): (.+) -->\n\Z")
LINK = re.compile(r"\]\(([^)#: ]+)(?:#[^)]*)?\)")
LOOKS_RUN = re.compile(r"^ {4,}(?:\./clockbed|rt|tools/\S+|cd|clang|llvm-\w+) .*$", re.M)
SECONDS = 120
RUNNERS = {"sh": ["bash", "-c"], "python": [sys.executable, "-c"]}


def blocks(page):
    """Each block of commands with its language, its line, its mark and what stands below it."""
    fences = list(FENCE.finditer(page))
    for fence, below in zip(fences, [*fences[1:], None]):
        if fence[1] not in RUNNERS:
            continue
        mark = MARK.search(page, 0, fence.start())
        has_output = below and below[1] == "text" and not page[fence.end() : below.start()].strip()
        line = page.count("\n", 0, fence.start()) + 1
        yield fence[1], line, mark, fence[2], below[2] if has_output else None


def is_left_out(mark):
    if not mark:
        return False
    return mark[1] == "not run" or subprocess.run(["bash", "-c", mark[2]], capture_output=True).returncode != 0


def fault_of(language, commands, wanted):
    """Says how the commands don't do what stands below them, or nothing."""
    package = {"PYTHONPATH": "python", "PYTHONDONTWRITEBYTECODE": "1"} if language == "python" else {}
    ran = subprocess.Popen(
        [*RUNNERS[language], commands],
        env={**os.environ, **package},
        stdin=subprocess.DEVNULL,
        stdout=subprocess.PIPE,
        stderr=subprocess.STDOUT,
        start_new_session=True,
    )
    try:
        wrote = ran.communicate(timeout=SECONDS)[0].decode(errors="replace")
    except subprocess.TimeoutExpired:
        os.killpg(ran.pid, signal.SIGKILL)
        return f"not done after {SECONDS} seconds"
    if wanted is None and ran.returncode:
        return f"status {ran.returncode}: {wrote}"
    if wrote == (wanted or ""):
        return ""
    lines = (wanted or "").splitlines(), wrote.splitlines()
    return "\n".join(difflib.unified_diff(*lines, "the page", "the commands", lineterm=""))


def lost_links(path, page):
    return [it for it in LINK.findall(page) if not os.path.exists(os.path.join(os.path.dirname(path), it))]


def main(path):
    with open(path, encoding="utf-8") as it:
        page = it.read()
    faults = [f"{path}: no file is at {it}" for it in lost_links(path, page)]
    for found in LOOKS_RUN.finditer(FENCE.sub(lambda it: "\n" * it[0].count("\n"), page)):
        line = page.count("\n", 0, found.start()) + 1
        faults.append(f"{path}: a command line outside a block of commands: {found[0].strip()}")
    ran = 0
    for language, line, mark, commands, wanted in blocks(page):
        if is_left_out(mark):
            continue
        fault = fault_of(language, commands, wanted)
        ran += 1
        if fault:
            faults.append(f"{path}:{line}: {commands.strip()}\n{fault}")
    for it in faults:
        print(it, file=sys.stderr)
    print(f"{path}: {ran} blocks of commands tried, {len(faults)} faults", file=sys.stderr)
    return 1 if faults else 0


if __name__ == "__main__":
    sys.exit(main(sys.argv[1]))
