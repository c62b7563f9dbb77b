"""Finds the program clockbed and runs it."""
from __future__ import annotations

import contextlib
import os
import pathlib
import pty
import re
import shutil
import signal
import subprocess
import threading
import tty
from collections.abc import Callable, Iterator, Sequence
from dataclasses import dataclass
from typing import Optional

from clockbed.errors import Fault, ProgramMissing, Rejected

BESIDE = pathlib.Path(__file__).resolve().parents[2] / "clockbed"
SECONDS_TO_END = 2
OK, REJECTED, VIOLATED, NOT_FINISHED = 0, 2, 3, 4

Progress = Optional[Callable[[str], None]]

_running: set[subprocess.Popen[bytes]] = set()
_lock = threading.Lock()


@dataclass(frozen=True)
class Output:
    """Is what the program wrote, and its status (docs/COMMANDS.md, "Statuses")."""

    status: int
    out: bytes
    err: str

    @property
    def text(self) -> str:
        return self.out.decode()


def find() -> str:
    """Returns the path of the program: `CLOCKBED`, or the one of this archive or checkout, or that of the PATH.

    >>> os.access(find(), os.X_OK)
    True
    """
    named = os.environ.get("CLOCKBED")
    if named:
        if not os.access(named, os.X_OK) or os.path.isdir(named):
            raise ProgramMissing(f"CLOCKBED names {named}, which is no program; name the file clockbed of an archive")
        return os.path.abspath(named)
    if BESIDE.is_file() and os.access(BESIDE, os.X_OK):
        return str(BESIDE)
    found = shutil.which("clockbed")
    if not found:
        raise ProgramMissing(
            f"no program clockbed: CLOCKBED isn't set, {BESIDE} isn't there, and the PATH has none; "
            "set CLOCKBED to the file clockbed of an archive"
        )
    return found


def ask(words: Sequence[str], given: str | bytes = b"", progress: Progress = None) -> Output:
    """Runs the program with these words and this standard input, and returns its output.

    Raises `Rejected` for status 2, and `Fault` for every status but 0, 2, 3 and 4. `progress` is called with each line
    of progress that the program shows on a terminal. Ctrl-C, and every other exception here, ends the program.

    >>> ask(["verify", "--text"], "mov64 r0, 7\\nexit").text
    'accepted slots 2 announced 2\\n'
    """
    output = run(words, given.encode("utf-8", "surrogateescape") if isinstance(given, str) else given, progress)
    if output.status == REJECTED:
        raise rejection(output)
    if output.status < 0:
        raise Fault(f"clockbed {words[0]} was ended by {signal.Signals(-output.status).name}")
    if output.status not in (OK, VIOLATED, NOT_FINISHED):
        raise Fault(output.err.strip() or f"clockbed {words[0]} ended with status {output.status}")
    return output


def rejection(output: Output) -> Rejected:
    """Returns the rejection with its note, or with the reason that `verify --explain` prints below it."""
    answer, _, reason = output.text[max(0, output.text.find("refused ")) :].partition("\n")
    note = re.search(r"^note: (.*)$", output.err, re.M)
    return Rejected(answer, note[1] if note else reason.strip())


def run(words: Sequence[str], given: bytes, progress: Progress) -> Output:
    """Runs the program, whatever its status."""
    with contextlib.ExitStack() as stack:
        errors = stack.enter_context(Terminal(progress)) if progress else None
        process = subprocess.Popen(
            [find(), *words],
            stdin=subprocess.PIPE,
            stdout=subprocess.PIPE,
            stderr=errors.end if errors else subprocess.PIPE,
            start_new_session=True,
        )
        with ended_with(process):
            if errors:
                errors.listen()
            out, err = process.communicate(given)
        told = errors.heard() if errors else err.decode(errors="replace")
    return Output(process.returncode, out, told)


@contextlib.contextmanager
def ended_with(process: subprocess.Popen[bytes]) -> Iterator[None]:
    """Ends the process if the block raises."""
    with _lock:
        _running.add(process)
    try:
        yield
    except BaseException:
        end(process)
        raise
    finally:
        with _lock:
            _running.discard(process)


def end(process: subprocess.Popen[bytes]) -> None:
    """Ends the process with all that it started: they have a session of their own."""
    for how in (signal.SIGTERM, signal.SIGKILL):
        with contextlib.suppress(ProcessLookupError):
            os.killpg(process.pid, how)
        with contextlib.suppress(subprocess.TimeoutExpired):
            process.wait(SECONDS_TO_END)
            return


def end_all() -> None:
    """Ends every program that the package runs now, in all threads."""
    with _lock:
        now = list(_running)
    for process in now:
        end(process)


class Terminal:
    """Is a terminal for the program's standard error: on one the program shows how far it is."""

    def __init__(self, progress: Callable[[str], None]) -> None:
        self.progress = progress
        self.told, self.shown = "", 0
        self.failure: Exception | None = None
        self.listener = threading.Thread(target=self.copy, daemon=True)

    def __enter__(self) -> Terminal:
        self.own, self.end = pty.openpty()
        tty.setraw(self.end)
        return self

    def __exit__(self, *_: object) -> None:
        self.close_end()
        if self.listener.ident is not None:
            self.listener.join()
        os.close(self.own)

    def close_end(self) -> None:
        if self.end >= 0:
            os.close(self.end)
            self.end = -1

    def listen(self) -> None:
        """Begins to read, once the program has its end of the terminal."""
        self.close_end()
        self.listener.start()

    def heard(self) -> str:
        """Returns the messages, without progress, once the program has ended. Raises what `progress` raised."""
        self.listener.join()
        if self.failure:
            raise self.failure
        return "\n".join(it for it in self.told.split("\n") if "\r" not in it)

    def copy(self) -> None:
        while True:
            try:
                some = os.read(self.own, 4096)
            except OSError:  # the other end of a terminal is closed
                return
            self.told += some.decode(errors="replace")
            try:
                self.show()
            except Exception as why:  # the program goes on, and its terminal is read to the end
                self.failure = self.failure or why

    def show(self) -> None:
        """Passes on the whole lines of progress: each begins with a carriage return, and the next one ends it."""
        pieces = self.told.split("\r")[1:]
        whole = pieces if pieces and "\n" in pieces[-1] else pieces[:-1]
        for piece in whole[self.shown :]:
            line = piece.partition("\n")[0].replace("\x1b[K", "").strip()
            if line:
                self.progress(line)
        self.shown = len(whole)
