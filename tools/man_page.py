#!/usr/bin/env python3
"""Prints the manual page clockbed.1, made from the help of the built program: tools/man_page.py [PROGRAM]

The statuses are those of docs/COMMANDS.md ("Statuses"). PROGRAM is as for check_rows.py.
"""
import re
import sys

sys.dont_write_bytecode = True
from built_program import TOP, answer, named_program

HEADING = re.compile(r"^(\w+):$", re.M)
EXAMPLE = re.compile(r"^Example: (.+)$", re.M)
PAGE = re.compile(r"^Page: (.+)$", re.M)
ENTRY = re.compile(r"^ +(\[FILE\]|(?:-\w, )?--?[a-z]+(?: <[^>]+>)?|[a-z]+)  +(\S.*)$", re.M)
STATUS = re.compile(r"(\d): (.*?)(?=\s\d: |\Z)", re.S)
SECTION = """.SH {}
{}
"""


def roff(text):
    """The text as roff shows it, with no request in it."""
    text = text.replace("\\", "\\e").replace("-", "\\-")
    return re.sub(r"^([.'])", r"\\&\1", text, flags=re.M)


def bold(text):
    return f"\\fB{roff(text)}\\fR"


def in_roff(markdown):
    """A paragraph of a page, with what stands between backquotes in bold."""
    parts = re.split(r"`([^`]*)`", " ".join(markdown.split()))
    return "".join(bold(part) if at % 2 else roff(part) for at, part in enumerate(parts))


def parts_of(text):
    """What a help text is for, its usage, and its lists by their headings."""
    about, _, rest = text.partition("\n\n")
    usage = re.search(r"^Usage: (.+)$", rest, re.M)[1]
    pieces = HEADING.split(rest)
    return about, usage, {name: ENTRY.findall(body) for name, body in zip(pieces[1::2], pieces[2::2])}


def entries(listed):
    return "\n".join(f".TP\n{bold(name)}\n{roff(about)}" for name, about in listed)


def command_text(program, name):
    text = answer(program, [name, "--help"], b"").out.decode()
    about, usage, lists = parts_of(text)
    lines = [f".SS {roff(name)}", roff(about) + ".", f".PP\n{bold(usage)}"]
    lines += [entries(lists.get("Arguments", []) + lists.get("Options", []))]
    lines += [f".PP\nExample: {bold(it)}" for it in EXAMPLE.findall(text)]
    lines += [f".PP\nPage: {roff(it)}" for it in PAGE.findall(text)]
    return "\n".join(lines)


def statuses():
    page = (TOP / "docs/COMMANDS.md").read_text(encoding="utf-8")
    section = re.search(r"^## Statuses\n(.*?)(?=^## |\Z)", page, re.M | re.S)[1]
    return "\n".join(f".TP\n{number}\n{in_roff(what)}" for number, what in STATUS.findall(section))


def manual(program):
    version = answer(program, ["--version"], b"").out.decode().splitlines()[0]
    about, usage, lists = parts_of(answer(program, ["--help"], b"").out.decode())
    names = [name for name, _ in lists["Commands"] if name != "help"]
    sections = {
        "NAME": f"clockbed \\- {roff(about[0].lower() + about[1:])}",
        "SYNOPSIS": f"{bold(usage)} [OPTIONS] [FILE]",
        "COMMANDS": "\n".join(command_text(program, name) for name in names),
        "OPTIONS": entries(lists["Options"]),
        "EXIT STATUS": statuses(),
        "SEE ALSO": "README.md and the pages in docs/, beside the program or in /usr/share/clockbed.",
    }
    head = f'.TH CLOCKBED 1 "" "{version}" "User Commands"\n'
    return head + "".join(SECTION.format(title, body) for title, body in sections.items())


if __name__ == "__main__":
    print(manual(named_program()), end="")
