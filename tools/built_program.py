"""What the scripts share that try the built program: where it is, what it answers, and many questions at once."""
import dataclasses
import os
import pathlib
import re
import subprocess
import sys
from concurrent.futures import ThreadPoolExecutor

TOP = pathlib.Path(__file__).resolve().parent.parent
BUILT = TOP / "crates/clockbed/out/clockbed"
SECONDS = 60
# A note may have a line of the source below it, and under that the mark.
NOTE = re.compile(rb"note: [^\n]+\n(?:[^\n]*\n[ \t]*\^\n)?")
NOTED = (2, 4)


@dataclasses.dataclass
class Answer:
    status: int
    out: bytes
    err: bytes


def named_program():
    """The program that the first word of the command line names, or CLOCKBED_PROGRAM, or else the one built here."""
    path = sys.argv[1] if len(sys.argv) > 1 else os.environ.get("CLOCKBED_PROGRAM", BUILT)
    if not os.access(path, os.X_OK):
        sys.exit(f"{path} is not there: build it by ./clockbed --prove")
    return os.path.realpath(path)


def answer(program, words, given):
    """What the program does with these words and this standard input."""
    try:
        done = subprocess.run(
            ["clockbed", *words], executable=program, input=given, capture_output=True, check=False, timeout=SECONDS
        )
    except subprocess.TimeoutExpired:
        return Answer(-1, b"", b"it didn't end")
    return Answer(done.returncode, done.stdout, done.stderr)


def without_note(told):
    """The answer without the note that may follow a refusal or an unfinished search, on standard error."""
    if told.status in NOTED and NOTE.fullmatch(told.err):
        return dataclasses.replace(told, err=b"")
    return told


def on_all_processors(differences, rows):
    """The differences of all rows, in their order."""
    with ThreadPoolExecutor(os.cpu_count()) as workers:
        return [difference for some in workers.map(differences, rows) for difference in some]


def tell(name, counts, found):
    """Prints each difference and how many of each kind were compared, and gives the status."""
    for difference in found:
        print(difference)
    compared = ", ".join(f"{kind} {count}" for kind, count in counts.items())
    print(f"{name}: {compared}: {len(found)} differences")
    return 1 if found or not all(counts.values()) else 0
