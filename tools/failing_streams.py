#!/usr/bin/env python3
"""Gives the built program streams that fail, break off or are narrow: tools/failing_streams.py.

What must come: the right answer where every byte gets through, else a line for the fault with status 1, and on standard
output the first bytes of the answer, as many as the line says; what standard error doesn't take is dropped. Of a stream
without end no more is read than the command's bound. CLOCKBED_PROGRAM names another program than the one that was built
here.
"""
import concurrent.futures
import dataclasses
import errno
import os
import select
import subprocess
import sys
import tempfile

sys.dont_write_bytecode = True
from check_clock import clock_text
from refusals import ZERO_CERTIFICATE, Ran, compiled, contents, program, prove_words, run

FOUR = contents("examples/four_clocks.toml")
RULE = contents("examples/rules/greatest.rule")
THREE = contents("examples/three_part.toml")
# Two clocks and a Byzantine node: `explore` prints a counterexample to agreement.
PARTING = b"""nodes = 3
faults = 1
modulus = 8
memory = 8
pulses = 3
coins = "zeros"
load = [{pulse = 1, nodes = [0, 1], program = "clock"}]
"""
CHACHA = contents("examples/chacha.toml")
LIMIT = 1 << 20
MAX_IMAGE = 8 * 2048
FAULT, REFUSED, VIOLATED = 1, 2, 3
READ_FAULT = b"fault read\n"


def reason(stream, error):
    """The line that tells why a stream failed."""
    return f"standard {stream}: {os.strerror(error)} (os error {error})\n".encode()


def write_fault(written, error):
    return b"fault write after %d\n" % written + reason("output", error)


@dataclasses.dataclass
class Check:
    """A run, and what must come of it."""

    what: str
    ask: object
    wanted: object


@dataclasses.dataclass
class Asked:
    """A command line with what it reads, and its answer."""

    words: str
    given: bytes
    whole: Ran

    @property
    def status(self):
        return VIOLATED if (self.words, self.given) == ("explore", PARTING) else 0


class Clockbed:
    """The program with the library that is preloaded."""

    def __init__(self, room):
        self.library = compiled(room)
        self.path = program("clockbed")
        self.prove = prove_words(room)

    def line(self, words):
        return [self.path, *words.split()]

    def run(self, words, given, **said):
        return run(self.library, self.line(words), given, **said)

    def redirected(self, words, given, redirections):
        """Runs the program by a shell that opens and closes its descriptors."""
        script = f'exec "$0" {words} {redirections}'
        ran = subprocess.run(["bash", "-c", script, self.path], input=given, capture_output=True, check=False)
        return Ran(ran.returncode, ran.stdout, ran.stderr)

    def into_closed_pipe(self, words, given):
        """Runs the program with a standard output whose reader is gone."""
        reader, writer = os.pipe()
        os.close(reader)
        # Until it runs its program, a process that another thread starts has the reader too: wait until none has it.
        gone = select.poll()
        gone.register(writer, select.POLLERR)
        while not gone.poll():
            pass
        ran = subprocess.run(self.line(words), input=given, stdout=writer, stderr=subprocess.PIPE, check=False)
        os.close(writer)
        return Ran(ran.returncode, b"", ran.stderr)

    def calls_of_read(self, words):
        """The status, the output and the calls of `read` where each gives a byte, and there are enough bytes."""
        environment = {**os.environ, "LD_PRELOAD": self.library, "NARROW": "1"}
        with tempfile.TemporaryFile() as given:
            given.truncate(2 * LIMIT)
            ran = subprocess.run(self.line(words), stdin=given, capture_output=True, env=environment, check=False)
            return ran.returncode, ran.stdout, os.lseek(given.fileno(), 0, os.SEEK_CUR)


def asked(clockbed):
    text = b"mov64 r0, 7\nexit\n"
    image = clockbed.run("asm", text).out
    clock = clock_text(4, 1, 8)
    clock_image = clockbed.run("asm", clock).out
    for words, given in [
        ("exec", image),
        ("exec --nodes 2 --memory 8 --show", image),
        ("exec --trace --show", image),
        ("exec --text", text),
        ("verify", image),
        ("dis", image),
        ("dis", clock_image),
        ("asm", text),
        ("asm", clock),
        ("compile", RULE),
        ("run", FOUR),
        ("run --trace 1:0", FOUR),
        ("run --trace 9:0", FOUR),
        ("sweep --keys 7..8 --workers 1", CHACHA),
        ("run --json --workers 1", THREE),
        ("explore", FOUR),
        ("explore", PARTING),
        (clockbed.prove, ZERO_CERTIFICATE),
        ("stress", b""),
        ("--help", b""),
    ]:
        yield Asked(words, given, clockbed.run(words, given))


def output_checks(clockbed, it):
    """Where standard output is narrow or fails."""
    words, given, whole = it.words, it.given, it.whole
    yield Check(f"{words}, whole", lambda: whole, Ran(it.status, whole.out, b""))
    narrow = lambda: clockbed.run(words, given, NARROW=1)
    yield Check(f"{words}, a byte a call", narrow, Ran(it.status, whole.out, b""))
    for room in range(len(whole.out)):
        for kind in [{}, {"NARROW": 1}]:
            ask = lambda room=room, kind=kind: clockbed.run(words, given, WRITE_ROOM=room, **kind)
            wanted = Ran(FAULT, whole.out[:room], write_fault(room, errno.EIO))
            yield Check(f"{words}, room for {room} bytes {kind}", ask, wanted)
    for where, error in [("> /dev/full", errno.ENOSPC), (">&-", errno.EBADF)]:
        ask = lambda where=where: clockbed.redirected(words, given, where)
        yield Check(f"{words} {where}", ask, Ran(FAULT, b"", write_fault(0, error)))
    wanted = Ran(FAULT, b"", write_fault(0, errno.EPIPE))
    yield Check(f"{words}, a closed pipe", lambda: clockbed.into_closed_pipe(words, given), wanted)


def input_checks(clockbed, it):
    """Where standard input fails, by an error of the device or by a signal."""
    words, given = it.words, it.given
    for room in range(len(given) + 1):
        for kind, error in [({}, errno.EIO), ({"INTERRUPTED": 1}, errno.EINTR)]:
            ask = lambda room=room, kind=kind: clockbed.run(words, given, NARROW=1, READ_ROOM=room, **kind)
            wanted = Ran(FAULT, b"", READ_FAULT + reason("input", error))
            yield Check(f"{words}, {room} bytes to read {kind}", ask, wanted)
    for where, error in [("< .", errno.EISDIR), ("<&-", errno.EBADF)]:
        ask = lambda where=where: clockbed.redirected(words, b"", where)
        yield Check(f"{words} {where}", ask, Ran(FAULT, b"", READ_FAULT + reason("input", error)))


def silent_checks(clockbed, it):
    """Where standard error fails too."""
    rows = [(it.given, "> /dev/full 2>&-")]
    if it.given:
        rows.append((b"", "< . 2> /dev/full"))
    for given, where in rows:
        ask = lambda given=given, where=where: clockbed.redirected(it.words, given, where)
        yield Check(f"{it.words} {where}", ask, Ran(FAULT, b"", b""))

    said = write_fault(0, errno.EIO)
    for room in range(len(said)):
        ask = lambda room=room: clockbed.run(it.words, it.given, WRITE_ROOM=0, SAY_ROOM=room)
        yield Check(f"{it.words}, {room} bytes to say", ask, Ran(FAULT, b"", said[:room]))


def unknown_checks(clockbed):
    """Words that ask for nothing, where standard error fails."""
    said = clockbed.run("fly", b"").err
    for room in range(len(said)):
        ask = lambda room=room: clockbed.run("fly", b"", SAY_ROOM=room)
        yield Check(f"fly, {room} bytes to say", ask, Ran(FAULT, b"", said[:room]))


def length_checks(clockbed):
    """The longest text, and one byte more."""
    wanted_key = b"note: nodes is missing: nodes is a whole number, 1 to 32, and to 64 with version = 2\n"
    too_long = b"note: the text has more than %d bytes\n" % LIMIT
    rows = [
        ("run", LIMIT, Ran(REFUSED, b"refused scenario MissingKey nodes\n", wanted_key)),
        ("run", LIMIT + 1, Ran(REFUSED, b"refused scenario TooLong\n", too_long)),
        ("asm", LIMIT, Ran(REFUSED, b"refused text Empty line 0\n", b"note: the text has no instruction\n")),
        ("asm", LIMIT + 1, Ran(FAULT, b"", READ_FAULT)),
    ]
    for words, count, wanted in rows:
        ask = lambda words=words, count=count: clockbed.run(words, b"#" * count)
        yield Check(f"{words}, {count} bytes", ask, wanted)


def bound_checks(clockbed):
    """How often `read` is called, where each call gives a byte."""
    long_image, long_text = b"refused image TooLong\n", b"refused scenario TooLong\n"
    rows = [
        ("exec", (REFUSED, long_image, MAX_IMAGE + 1)),
        ("verify", (REFUSED, long_image, MAX_IMAGE + 1)),
        ("dis", (REFUSED, long_image, MAX_IMAGE + 1)),
        ("asm", (FAULT, b"", LIMIT + 1)),
        (clockbed.prove, (FAULT, b"", LIMIT + 1)),
        ("run", (REFUSED, long_text, LIMIT + 1)),
        ("sweep --keys 7..8", (REFUSED, long_text, LIMIT + 1)),
        ("explore", (REFUSED, long_text, LIMIT + 1)),
        ("exec --memory 12", (REFUSED, b"refused shape\n", 0)),
        ("verify --memory 12", (REFUSED, b"refused shape\n", 0)),
        ("stress --pulses 1 --loads 1", (0, b"loads 2 pulses 1 history 4 replay ok\n", 0)),
        ("fly", (FAULT, b"", 0)),
    ]
    for words, wanted in rows:
        ask = lambda words=words: clockbed.calls_of_read(words)
        yield Check(f"{words}, without end", ask, wanted)


def checks(clockbed):
    for it in asked(clockbed):
        yield from output_checks(clockbed, it)
        yield from silent_checks(clockbed, it)
        if it.given:
            yield from input_checks(clockbed, it)
    yield from unknown_checks(clockbed)
    yield from length_checks(clockbed)
    yield from bound_checks(clockbed)


def main():
    tried = wrong = 0
    with tempfile.TemporaryDirectory() as room, concurrent.futures.ThreadPoolExecutor(os.cpu_count()) as workers:
        clockbed = Clockbed(room)
        rows = list(checks(clockbed))
        for check, got in zip(rows, workers.map(lambda check: check.ask(), rows)):
            tried += 1
            if got != check.wanted:
                wrong += 1
                print(f"wrong {check.what}: {got} in place of {check.wanted}"[:400])
    print(f"failing_streams: {tried} tried, {wrong} wrong")
    return 1 if wrong or not tried else 0


if __name__ == "__main__":
    sys.exit(main())
