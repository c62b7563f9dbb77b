#!/usr/bin/env python3
"""Writes completions/clockbed.bash and completions/_clockbed from the help of the built program, or compares them.

tools/completions.py [--check], at any place. CLOCKBED_PROGRAM names another program than the one that was built here.
"""
import os
import re
import sys

sys.dont_write_bytecode = True
from built_program import BUILT, TOP, answer

PROGRAM = os.environ.get("CLOCKBED_PROGRAM", str(BUILT))
COMMAND = re.compile(r"^  ([a-z]+)  +(\S.*)$", re.M)
OPTION = re.compile(r"^  (?:-\w, |    )(--[a-z]+)(?: <([^>]+)>)?(?:  +(\S.*))?$", re.M)


def help_of(*words):
    return answer(PROGRAM, [*words, "--help"], b"").out.decode()


def commands():
    """Each command with what it is for, its options with their values, and whether it takes a file."""
    for name, about in COMMAND.findall(help_of()):
        if name != "help":
            text = help_of(name)
            yield name, about, OPTION.findall(text), "[FILE]" in text


def bash_text(told):
    cases = []
    for name, _, options, takes_file in told:
        words = " ".join(option for option, _, _ in options)
        files = " files" if takes_file else ""
        cases.append(f"    {name}) _clockbed_offer \"{words}\"{files} ;;")
    valued = sorted({f"{name}:{option}" for name, _, options, _ in told for option, value, _ in options if value})
    names = " ".join(name for name, *_ in told)
    return f"""# bash completion for clockbed: made by tools/completions.py
_clockbed_offer() {{
  local word=${{COMP_WORDS[COMP_CWORD]}}
  if [[ $word = -* ]]; then
    mapfile -t COMPREPLY < <(compgen -W "$1" -- "$word")
  elif [ "${{2:-}}" = files ]; then
    mapfile -t COMPREPLY < <(compgen -f -- "$word")
  fi
}}

_clockbed() {{
  COMPREPLY=()
  if [ "$COMP_CWORD" -le 1 ]; then
    mapfile -t COMPREPLY < <(compgen -W "{names} help --help --version" -- "${{COMP_WORDS[COMP_CWORD]}}")
    return
  fi
  case ${{COMP_WORDS[1]}}:${{COMP_WORDS[COMP_CWORD - 1]}} in
    {" | ".join(valued)}) return ;;
  esac
  case ${{COMP_WORDS[1]}} in
{chr(10).join(cases)}
  esac
}}

complete -o filenames -F _clockbed clockbed
"""


def zsh_quoted(text):
    return text.replace("'", "'\\''").replace("[", "\\[").replace("]", "\\]").replace(":", "\\:")


def zsh_words(options, takes_file):
    for option, value, about in options:
        about = zsh_quoted(about)
        yield f"'{option}=[{about}]:{zsh_quoted(value)}: '" if value else f"'{option}[{about}]'"
    if takes_file:
        yield "'1:file:_files'"


def zsh_text(told):
    names = "\n".join(f"    '{name}:{zsh_quoted(about)}'" for name, about, _, _ in told)
    cases = []
    for name, _, options, takes_file in told:
        words = " \\\n        ".join(zsh_words(options, takes_file))
        cases.append(f"    {name})\n      _arguments \\\n        {words}\n      ;;")
    return f"""#compdef clockbed
# zsh completion for clockbed: made by tools/completions.py
_clockbed() {{
  local -a commands
  commands=(
{names}
  )
  if (( CURRENT == 2 )); then
    _describe command commands
    return
  fi
  local command=$words[2]
  shift words
  (( CURRENT-- ))
  case $command in
{chr(10).join(cases)}
  esac
}}

_clockbed "$@"
"""


def main():
    if not os.access(PROGRAM, os.X_OK):
        sys.exit(f"{PROGRAM} is not there: build it by ./clockbed --prove")
    told = list(commands())
    if not told:
        sys.exit("completions: the help names no command")
    texts = {"clockbed.bash": bash_text(told), "_clockbed": zsh_text(told)}
    folder = TOP / "completions"
    if sys.argv[1:] == ["--check"]:
        wrong = [it for it, text in texts.items() if not (folder / it).is_file() or (folder / it).read_text() != text]
        if wrong:
            sys.exit(f"completions: not those of the help: {', '.join(wrong)} (tools/completions.py writes them)")
        print(f"completions: {len(told)} commands, as the help has them")
        return
    folder.mkdir(exist_ok=True)
    for name, text in texts.items():
        (folder / name).write_text(text)


if __name__ == "__main__":
    main()
