#!/usr/bin/env python3
"""Tries the seeded bugs that `rt ci` doesn't try: tools/mistakes.py [OPTION..] [CRATE[/MISTAKE]..]

A file crates/NAME/mistakes/MISTAKE.edit has the form of those in must-fail/ (docs/DEVELOPING.md, "A must-fail edit").
The prover has to refuse each. One check tries several mistakes, each of another function: a mistake counts as refused if
the function that it changes isn't proved, and for another reason than a call of an unproved function. A mistake that such
a check leaves open is tried alone. The libraries below must be built: by `rt check` or `rt lib`, or by `rt ci`.

  --read             proves nothing: each mistake names a file, and texts that stand once in it
  --must-fail        tries those in must-fail/ too
  --alone            tries each alone, and prints its seconds
  --share COMMIT     tries a share, chosen by the commit's id, in at most --minutes minutes of processor time [default: 10].
                     The crates must be proved as they stand, as `rt ci` leaves them: a check then looks only at the
                     changed functions and at what these call
"""
import argparse
import os
import pathlib
import re
import resource
import shutil
import subprocess
import sys
import tempfile

TOP = pathlib.Path(__file__).resolve().parent.parent
PARTS = ("src", "specs", "proofs")
FUNCTION = re.compile(r"^[ \t]*(?:pub(?:\([a-z]+\))? )?(?:const )?fn (\w+)", re.M)
IMPL = re.compile(r"^impl(?:<[^{]*?>)? (?:([\w:]+)(?:<[^{]*?>)? for )?&?(?:'\w+ )?([\w]+)", re.M)
VERDICT = re.compile(r"^fn (\S+): (.*)$", re.M)
UNPROVED = ("not proved", "did not prove", "no proof: expected")
# A check of one crate tries at most so many mistakes at once.
MAX_AT_ONCE = 8
# The status of a check whose --only fits no function.
UNKNOWN_PATH = 2
# More seconds than any check takes.
NO_LIMIT = 1_000_000


class Unreadable(Exception):
    """Says why a mistake can't be applied."""


def path_of(file, before):
    """The path below its crate of the last function that the text before a place begins, as a check prints it."""
    functions = list(FUNCTION.finditer(before))
    if not functions:
        return "::".join(module_of(file))
    last, name = functions[-1], functions[-1][1]
    impls = list(IMPL.finditer(before[: last.start()]))
    if not last[0].startswith((" ", "\t")) or not impls:
        return "::".join([*module_of(file), name])
    trait, kind = impls[-1][1] or "", impls[-1][2]
    return "::".join([*module_of(file), kind + trait.rpartition("::")[2], name])


def module_of(file):
    parts = pathlib.PurePath(file).with_suffix("").parts[1:]
    return list(parts) if parts not in (("lib",), ("main",)) else []


class Mistake:
    """A mistake of a crate: the texts that it replaces, and the function that it changes."""

    def __init__(self, crate, path):
        self.crate, self.path, self.name = crate, path, path.stem
        self.pairs = list(self.read())
        if not self.pairs:
            raise Unreadable("it has no old text")
        self.function = self.changed_function()

    def read(self):
        file = old = None
        for line in self.path.read_text(encoding="utf-8").splitlines():
            if line.startswith("file: "):
                file = line.removeprefix("file: ").strip()
            elif line.startswith("old: "):
                old = line.removeprefix("old: ")
            elif line.startswith("new:"):
                yield file, old, line.removeprefix("new:").removeprefix(" ")

    def text_of(self, file):
        path = TOP / "crates" / self.crate / (file or "")
        if not path.is_file():
            raise Unreadable(f"there is no file {path.relative_to(TOP)}")
        return path.read_text(encoding="utf-8")

    def changed_function(self):
        """The path of the function in which the first replaced text stands, once every text was found once."""
        texts, path = {}, None
        for file, old, new in self.pairs:
            text = texts.get(file) or self.text_of(file)
            if not old or text.count(old) != 1:
                raise Unreadable(f"an old text stands {text.count(old) if old else 0} times in its file")
            path = path or path_of(file, text[: text.index(old) + len(old)])
            texts[file] = text.replace(old, new)
        return path

    def apply(self, texts):
        """Adds the changed texts to those of other mistakes. Answers whether no other mistake changes the same text."""
        changed = {}
        for file, old, new in self.pairs:
            text = changed.get(file) or texts.get(file) or self.text_of(file)
            if text.count(old) != 1:
                return False
            changed[file] = text.replace(old, new)
        texts.update(changed)
        return True


def mistakes_of(crate, folders, wanted):
    """The wanted mistakes of a crate, all if none is named, and a line for each that can't be read."""
    found, faults = [], []
    for path in (path for folder in folders for path in sorted((TOP / "crates" / crate / folder).glob("*.edit"))):
        if wanted and f"{crate}/{path.stem}" not in wanted and crate not in wanted:
            continue
        try:
            found.append(Mistake(crate, path))
        except Unreadable as why:
            faults.append(f"{path.relative_to(TOP)}: {why}")
    return found, faults


def groups_of(mistakes, most):
    """Parts the mistakes so that those of a group change different functions and different texts."""
    groups = []
    for mistake in mistakes:
        for members, texts in groups:
            is_apart = mistake.function not in [it.function for it in members]
            if len(members) < most and is_apart and mistake.apply(texts):
                members.append(mistake)
                break
        else:
            texts = {}
            mistake.apply(texts)
            groups.append(([mistake], texts))
    return groups


def load_toolchain():
    """The module of the toolchain that knows how a crate is checked."""
    program = shutil.which("rt")
    if not program:
        sys.exit("mistakes: the command rt of the Rattle toolchain is not on the PATH")
    sys.path.insert(0, str(pathlib.Path(program).resolve().parent))
    import rtlib

    return rtlib


class Prover:
    """Checks copies of one crate, each over what a check of the crate as it stands kept."""

    def __init__(self, crate, room, seconds_left):
        self.toolchain = load_toolchain()
        self.folder = TOP / "crates" / crate
        self.crate = self.toolchain.Crate(str(self.folder), str(TOP), {}, name=crate)
        self.room, self.seed, self.seconds_left = pathlib.Path(room), pathlib.Path(room) / "seed", seconds_left
        missing = [it.name for it in self.crate.below() if not os.path.exists(it.rlib)]
        if missing:
            sys.exit(f"mistakes: the library {missing[0]} isn't built: run rt check in crates/{crate}, or rt ci")

    def check(self, texts, flags):
        """Runs one check, and answers its status and what it said. It is stopped when the seconds are used."""
        copy = self.room / "copy"
        shutil.rmtree(copy, ignore_errors=True)
        for part in PARTS:
            if (self.folder / part).is_dir():
                shutil.copytree(self.folder / part, copy / part)
        for file, text in texts.items():
            (copy / file).write_text(text, encoding="utf-8")
        words = self.crate.words(["--jobs", "1"], keeps=False)
        words = [self.toolchain.RATTLE, "check", *words, *flags]
        left = max(int(self.seconds_left()), 1)
        limit = lambda: resource.setrlimit(resource.RLIMIT_CPU, (left, left))
        how = {"cwd": copy, "stdin": subprocess.DEVNULL, "stdout": subprocess.PIPE, "stderr": subprocess.STDOUT}
        ran = subprocess.run(words, check=False, errors="replace", preexec_fn=limit, **how)
        return ran.returncode, ran.stdout

    def prove_seed(self):
        """Proves the crate as it stands, begun with what `rt check` kept, if that is there."""
        kept = self.folder / "out" / "incremental"
        if kept.is_dir():
            link_tree(kept, self.seed)
        else:
            self.seed.mkdir()
        return self.check({}, ["--incremental", str(self.seed)])[0]

    def has_seed(self):
        return self.seed.is_dir()

    def try_texts(self, texts, members):
        """Checks the crate with these texts: all of it over the seed, or without one the members' functions alone."""
        if not self.has_seed():
            return self.check(texts, [word for it in members for word in ("--only", it.function)])
        over = self.room / "over"
        shutil.rmtree(over, ignore_errors=True)
        link_tree(self.seed, over)
        return self.check(texts, ["--incremental", str(over)])


def link_tree(folder, to):
    """Copies a folder, what was proved by links: a check replaces such a file, and never writes into one."""

    def copy(source, target):
        if source.endswith(".oantt"):
            os.link(source, target)
        else:
            shutil.copy2(source, target)

    shutil.copytree(folder, to, copy_function=copy)


def verdict_of(mistake, said):
    """Whether the check refuses this mistake by the function that it changes, and the line that says so."""
    name = mistake.function
    lines = [what for path, what in VERDICT.findall(said) if path.partition("::")[2] == name]
    own = [it for it in lines if it.startswith(UNPROVED)]
    if own and not any("it calls" in it for it in own):
        return True, f"{name}: {own[0]}"
    return False, None


def first_error(said):
    placed = re.findall(r"^(?:note: )?\S+:\d+:\d+: .*$", said, re.M)
    errors = [it for it in placed if ": error" in it or it.startswith("note: ")]
    return [*errors, *placed, *reversed(said.splitlines()), "nothing was said"][0]


class Tally:
    """Counts what was tried, and prints a line for each mistake."""

    def __init__(self):
        self.refused = self.missed = self.stopped = 0

    def tell(self, mistake, is_refused, reason):
        self.refused, self.missed = self.refused + is_refused, self.missed + (not is_refused)
        print(f"{mistake.crate}/{mistake.name}: {'refused' if is_refused else 'NOT REFUSED'} ({reason[:120]})", flush=True)

    def stop(self, members):
        self.stopped += len(members)

    def end(self, begun):
        minutes = (processor_seconds() - begun) / 60
        counts = f"{self.refused} refused, {self.missed} not refused, {self.stopped} stopped for time"
        print(f"mistakes: {counts}, {minutes:.1f} minutes of processor time")
        return 1 if self.missed else 0


def processor_seconds():
    used = resource.getrusage(resource.RUSAGE_CHILDREN)
    return used.ru_utime + used.ru_stime


def try_alone(prover, mistake, tally):
    texts, before = {}, processor_seconds()
    mistake.apply(texts)
    status, said = prover.try_texts(texts, [mistake])
    if status in (0, UNKNOWN_PATH) and not prover.has_seed():
        # The function's own proof stands, or its path isn't as a check prints it: the whole crate decides.
        status, said = prover.check(texts, [])
    seconds = f"{processor_seconds() - before:.0f} s: "
    if status < 0:
        tally.stop([mistake])
    elif status == 0:
        tally.tell(mistake, False, f"{seconds}the crate is still proved")
    else:
        tally.tell(mistake, is_unproved(said), seconds + first_error(said))


def is_unproved(said):
    """Whether a check judged the crate, and left a function unproved."""
    return "logic=not-proved" in said or any(it.startswith(UNPROVED) for _, it in VERDICT.findall(said))


def try_group(prover, members, texts, tally):
    """Tries a group in one check, and then those alone that it leaves open."""
    if len(members) == 1:
        return try_alone(prover, members[0], tally)
    status, said = prover.try_texts(texts, members)
    if status < 0:
        return tally.stop(members)
    for mistake in members:
        is_refused, reason = verdict_of(mistake, said)
        if is_refused:
            tally.tell(mistake, True, reason)
        else:
            try_alone(prover, mistake, tally)
    return None


def try_crate(crate, groups, tally):
    """Tries all groups of a crate, over a check of the crate as it stands."""
    with tempfile.TemporaryDirectory() as room:
        prover = Prover(crate, room, lambda: NO_LIMIT)
        if prover.prove_seed():
            sys.exit(f"mistakes: {crate} isn't proved as it stands")
        for members, texts in groups:
            try_group(prover, members, texts, tally)


def try_share(groups, number, tally, seconds):
    """Tries groups from a place on that the number chooses, until the seconds of processor time are used."""
    until = processor_seconds() + seconds
    seconds_left = lambda: until - processor_seconds()
    for members, texts in in_turn(groups, number):
        if seconds_left() > 0:
            with tempfile.TemporaryDirectory() as room:
                try_group(Prover(members[0].crate, room, seconds_left), members, texts, tally)


def in_turn(items, number):
    """The items in their order, begun at a place that the number chooses."""
    place = number % len(items) if items else 0
    return items[place:] + items[:place]


def read(crates, folders, wanted):
    found = {crate: mistakes_of(crate, folders, wanted) for crate in crates}
    faults = [fault for _, of_crate in found.values() for fault in of_crate]
    print(*faults, sep="\n", end="\n" if faults else "")
    count = sum(len(mistakes) for mistakes, _ in found.values())
    print(f"mistakes: {count} read, {len(faults)} can't be applied")
    return found, 1 if faults else 0


def options_of(words):
    parser = argparse.ArgumentParser(description=__doc__, formatter_class=argparse.RawDescriptionHelpFormatter)
    parser.add_argument("--read", action="store_true")
    parser.add_argument("--must-fail", action="store_true")
    parser.add_argument("--alone", action="store_true")
    parser.add_argument("--share", metavar="COMMIT")
    parser.add_argument("--minutes", type=float, default=10)
    parser.add_argument("wanted", nargs="*", metavar="CRATE[/MISTAKE]")
    return parser.parse_args(words)


def main(words):
    options = options_of(words)
    folders = ["mistakes", "must-fail"] if options.must_fail else ["mistakes"]
    named = {name.partition("/")[0] for name in options.wanted}
    crates = sorted(named or {path.parent.name for name in folders for path in TOP.glob(f"crates/*/{name}")})
    found, status = read(crates, folders, options.wanted)
    if options.read or status:
        return status
    begun, tally = processor_seconds(), Tally()
    groups = {crate: groups_of(found[crate][0], 1 if options.alone else MAX_AT_ONCE) for crate in crates}
    if options.share:
        every = [group for crate in crates for group in groups[crate]]
        try_share(every, int(options.share, 16), tally, 60 * options.minutes)
    else:
        for crate in crates:
            try_crate(crate, groups[crate], tally)
    return tally.end(begun)


if __name__ == "__main__":
    sys.exit(main(sys.argv[1:]))
