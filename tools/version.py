#!/usr/bin/env python3
"""What `clockbed --version` says: tools/version.py [--check | --release]

crates/command_words/src/version.rt has three lines: the version; the commit of the sources; the toolchain. The second
one is `sources of commit ID` if the crates are those of that commit, but for this one file, and otherwise
`sources after commit ID`. Without an option the lines are printed. The gate calls --check. --release names the commit
that is checked out: commit the file then, prove, and make the archive.
"""
import argparse
import os
import pathlib
import re
import subprocess
import sys

sys.dont_write_bytecode = True
from built_program import BUILT, TOP
from toolchain import toolchain_here

SOURCE = TOP / "crates/command_words/src/version.rt"
TEXT = re.compile(r'"(\d+\.\d+\.\d+)\n(sources (?:of|after) commit ([0-9a-f]{40}))\ntoolchain ([^"]+)"')
SOURCES = ["crates", "crates.txt", f":(exclude){SOURCE.relative_to(TOP)}"]


def git(*words):
    return subprocess.run(["git", "-C", str(TOP), *words], capture_output=True, text=True, check=False)


def commit_faults(line, commit):
    if git("cat-file", "-e", f"{commit}^{{commit}}").returncode:
        print("version: the commit isn't in this checkout's history, and so it isn't checked")
        return []
    if line.startswith("sources of"):
        same = git("diff", "--quiet", commit, "HEAD", "--", *SOURCES).returncode == 0
        return [] if same else [f"the crates have changed since commit {commit}: say `sources after commit`"]
    before = git("merge-base", "--is-ancestor", commit, "HEAD").returncode == 0
    return [] if before else [f"commit {commit} is not before HEAD"]


def changelog_faults(version):
    newest = re.search(r"^## (\S+)", (TOP / "CHANGELOG.md").read_text(encoding="utf-8"), re.M)[1]
    return [] if newest == version else [f"CHANGELOG.md begins with {newest}, and the program is {version}"]


def toolchain_faults(named):
    here = toolchain_here()
    return [] if here in (None, named) else [f"the toolchain is {here}, and not {named}"]


def program_faults(text):
    program = pathlib.Path(os.environ.get("CLOCKBED_PROGRAM", BUILT))
    if not program.exists():
        return []
    said = subprocess.run([program, "--version"], capture_output=True, text=True, check=True).stdout
    return [] if said == f"clockbed {text}\n" else [f"{program.name} --version says {said!r}"]


def check(found):
    version, line, commit, toolchain = found.groups()
    faults = [
        *commit_faults(line, commit), *changelog_faults(version), *toolchain_faults(toolchain),
        *program_faults(found[0].strip('"')),
    ]
    for fault in faults:
        print(f"version: {fault}")
    print(f"version: {version}, {line}: {len(faults)} faults")
    return 1 if faults else 0


def release(found):
    if git("status", "--porcelain").stdout:
        sys.exit("version: the checkout has changes that aren't committed")
    head = git("rev-parse", "HEAD").stdout.strip()
    SOURCE.write_text(SOURCE.read_text(encoding="utf-8").replace(found[2], f"sources of commit {head}"), encoding="utf-8")
    print(f"version: sources of commit {head}")


def main():
    words = argparse.ArgumentParser(description=__doc__, formatter_class=argparse.RawDescriptionHelpFormatter)
    one = words.add_mutually_exclusive_group()
    one.add_argument("--check", action="store_true", help="Compare the lines with git, CHANGELOG.md, `rt` and the program")
    one.add_argument("--release", action="store_true", help="Name the commit that is checked out")
    options = words.parse_args()
    found = TEXT.search(SOURCE.read_text(encoding="utf-8"))
    if not found:
        sys.exit(f"version: {SOURCE.relative_to(TOP)} isn't of the form that --help tells")
    if options.check:
        return check(found)
    if options.release:
        return release(found)
    print(found[0].strip('"'))
    return 0


if __name__ == "__main__":
    sys.exit(main())
