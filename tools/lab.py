#!/usr/bin/env python3
"""Serves a lab in the browser: tools/lab.py [--port N] [FOLDER | SCENARIO]

The lab edits and runs scenarios of FOLDER (here: the current folder). It prints its address; Ctrl-C ends it. Save
writes to FOLDER; if that is the folder of examples, to my_scenarios in the current folder. docs/LAB.md shows a class
with it. CLOCKBED_PROGRAM names another program than the built one.
"""
import argparse
import dataclasses
import errno
import hmac
import http.server
import json
import os
import pathlib
import re
import resource
import secrets
import select
import signal
import socket
import stat
import subprocess
import sys
import tempfile
import threading
import time
from http import HTTPStatus

sys.dont_write_bytecode = True
from built_program import BUILT, TOP
from lab_states import MAX_MEMORY, bench_of, following
from picture import COLOURS

PAGE = pathlib.Path(__file__).resolve().parent / "lab"
EXAMPLES = TOP / "examples"
OWN = "my_scenarios"
# The groups of the menu of examples, in its order: a folder, or for scenarios beside the folders what they show.
GROUPS = {
    "start": "Start", "attacks": "Attacks and wrong programs", "clocks": "Clocks of several rules",
    "explore": "Explore", "counters": "Counters that a search found", "luck": "Stabilisation times",
    "properties": "Protocols with properties", "exercises": "Exercises",
}
HIDDEN = "solutions"
ADVERSARY = re.compile(rb'^program = "(?!clock")', re.MULTILINE)
# The program of a release archive, which has no crates: there it is no script.
OF_ARCHIVE, ELF = TOP / "clockbed", b"\x7fELF"
UNPROVED, OPTIMISED = TOP / "out/unproved/clockbed", TOP / "out/unproved/clockbed.fast"
KINDS = {".html": "text/html", ".css": "text/css", ".js": "text/javascript"}
MIB = 1 << 20
MAX_BODY, MAX_DRAINED, MAX_OUTPUT, MAX_SCENARIO = 2 * MIB, 8 * MIB, 64 * MIB, MIB
MAX_CONNECTIONS, MAX_FILES, MAX_DEPTH, MAX_CAPTION = 320, 500, 4, 110
RUN_SECONDS, SEARCH_SECONDS, MAX_SECONDS, IDLE_SECONDS, LOOK_SECONDS = 10, 600, 86400, 30, 0.05
MAX_PORT = 65535
# The port of every lab that finds it free, so that a link opens in the lab of whoever has it.
USUAL_PORT = 8642
# Served without the token: the page that a link opens first. It holds nothing of this lab.
OPEN_FILES = {"": "link.html", "link.js": "link.js", "kept.js": "kept.js"}
PROCESSES = max(2, os.cpu_count() or 2)
WORD = 1 << 32
MAX_KEY, MAX_STATES, MAX_NODES, MAX_PULSES, MAX_MODULUS = (1 << 63) - 1, 10**9, 64, 1000, 65536
MAX_ODDS, MAX_NEXT, MAX_FOLLOWING = 100_000, 256, 20_000
FINISHED = (0, 3)
# The script that decides claims about all sizes (docs/ALL_SIZES.md).
ALL_SIZES = "all_sizes.py"
# What the page may load and do: its own files and requests, and nothing else.
POLICY = (
    "default-src 'none'; script-src 'self'; style-src 'self'; connect-src 'self'; img-src 'self' data:;"
    " base-uri 'none'; form-action 'none'; frame-ancestors 'none'"
)
NO_TOKEN = (
    "This address has no valid token. Open the address that lab.py printed.\n"
    "To open a scenario that someone sent you, paste this address into \"Open a link\" of your own lab.\n"
)


class Refusal(Exception):
    """A request that is rejected, with its status and a sentence that says why."""

    def __init__(self, status, why):
        super().__init__(why)
        self.status = status


# Processes.


@dataclasses.dataclass
class Answer:
    """What the program wrote, and its status; `ended` says why the lab ended it, if it did."""

    status: int
    out: bytes
    err: bytes
    ended: str = ""

    def told(self):
        """What the page gets. Of a process that was ended it gets no output, which may be long and breaks off."""
        out = b"" if self.ended else self.out
        words = {"status": self.status, "out": out.decode(errors="replace")}
        return {**words, "err": self.err.decode(errors="replace"), "ended": self.ended}


@dataclasses.dataclass
class Limit:
    """The seconds that a process may take, and the option of the lab that sets them."""

    seconds: float
    option: str

    def passed(self):
        more = min(MAX_SECONDS, 10 * self.seconds)
        raised = f"start the lab with {self.option} {more:g} to allow more"
        return f"took more than {self.seconds:g} seconds, the limit of this lab, and was ended: {raised}"


def is_script(words):
    return words[0] == ALL_SIZES


def end_group(process):
    """Ends what a script has started: it is a group of its own. The program starts nothing, and has no group."""
    try:
        os.killpg(process, signal.SIGKILL)
    except (ProcessLookupError, PermissionError):
        pass


class Jobs:
    """The processes of the program: a few at once, each with a time limit."""

    def __init__(self, program):
        self.program, self.places = program, threading.BoundedSemaphore(PROCESSES)
        self.lock, self.running, self.is_closed = threading.Lock(), set(), False

    def run(self, words, given, limit, is_gone):
        """Runs the program on this input, once there is a place. Ends it if the page that asked is gone. If the first
        word is a script of this folder, that is run."""
        self.take_place(is_gone)
        try:
            with tempfile.TemporaryFile() as source, tempfile.TemporaryFile() as out, tempfile.TemporaryFile() as err:
                source.write(given)
                source.seek(0)
                process = self.start(words, stdin=source, stdout=out, stderr=err)
                try:
                    ended = self.wait(process, out, limit, is_gone)
                    ended = ended and f"{words[0] if is_script(words) else f'clockbed {words[0]}'} {ended}"
                finally:
                    self.end(process)
                out.seek(0)
                err.seek(0)
                return Answer(process.returncode, out.read(MAX_OUTPUT), err.read(MIB), ended)
        finally:
            self.places.release()

    def take_place(self, is_gone):
        while not self.places.acquire(timeout=LOOK_SECONDS):
            if is_gone():
                raise ConnectionAbortedError

    def start(self, words, **streams):
        with self.lock:
            if self.is_closed:
                raise ConnectionAbortedError
            if is_script(words):
                command = [sys.executable, str(TOP / "tools" / words[0]), *words[1:]]
                process = subprocess.Popen(command, start_new_session=True, **streams)
            else:
                process = subprocess.Popen(["clockbed", *words], executable=self.program, **streams)
            self.running.add(process)
        return process

    @staticmethod
    def wait(process, out, limit, is_gone):
        """Waits for the end of a process; says why it has to be ended, if so."""
        until = time.monotonic() + limit.seconds
        # If the lab itself is killed, this limit still ends the process.
        most = int(limit.seconds * (os.cpu_count() or 1)) + 1
        try:
            resource.prlimit(process.pid, resource.RLIMIT_CPU, (most, most))
        except (AttributeError, OSError):
            pass
        while True:
            try:
                process.wait(timeout=LOOK_SECONDS)
                return ""
            except subprocess.TimeoutExpired:
                pass
            if is_gone():
                raise ConnectionAbortedError
            if time.monotonic() > until:
                return limit.passed()
            if os.fstat(out.fileno()).st_size > MAX_OUTPUT:
                return f"wrote more than {MAX_OUTPUT // MIB} MiB, the limit of this lab, and was ended"

    def end(self, process):
        if process.poll() is None:
            process.kill()
            end_group(process.pid)
        process.wait()
        with self.lock:
            self.running.discard(process)

    def close(self):
        """Ends all processes and starts no more."""
        with self.lock:
            self.is_closed, left = True, list(self.running)
        for process in left:
            self.end(process)


# Files.


class Folder:
    """The scenarios of a folder. No name leads out of it: neither by `..` nor by a link."""

    def __init__(self, path):
        self.path = path
        self.root = os.open(path, os.O_RDONLY | os.O_DIRECTORY)

    @staticmethod
    def parts(name, ending=".toml"):
        parts = name.split("/")
        is_plain = name.isprintable() and all(re.fullmatch(r"[^./\\][^/\\]{0,199}", part) for part in parts)
        if not is_plain or not name.endswith(ending) or len(parts) > MAX_DEPTH:
            form = f"a path ends in .toml and has at most {MAX_DEPTH} parts, none of which begins with a dot"
            raise Refusal(HTTPStatus.FORBIDDEN, f"{name[:80]!r} names no scenario here: {form}")
        return parts

    def opened(self, parts):
        """A new descriptor of the folder of these parts."""
        here = os.dup(self.root)
        for part in parts:
            try:
                below = os.open(part, os.O_RDONLY | os.O_DIRECTORY | os.O_NOFOLLOW, dir_fd=here)
            finally:
                os.close(here)
            here = below
        return here

    def read(self, name, ending=".toml"):
        *folders, last = self.parts(name, ending)
        here = self.opened(folders)
        try:
            file = os.open(last, os.O_RDONLY | os.O_NOFOLLOW | os.O_NONBLOCK, dir_fd=here)
        finally:
            os.close(here)
        with os.fdopen(file, "rb") as stream:
            if not stat.S_ISREG(os.fstat(file).st_mode):
                raise Refusal(HTTPStatus.FORBIDDEN, f"{name} is no plain file")
            text = stream.read(MAX_SCENARIO + 1)
        if len(text) > MAX_SCENARIO:
            raise Refusal(HTTPStatus.FORBIDDEN, f"{name} has more than 1 MiB, the limit of a scenario")
        return text

    def claims_beside(self, name):
        """The properties of the file NAME.claims beside the scenario NAME.toml, if they can be read."""
        try:
            return self.read(name.removesuffix(".toml") + ".claims", ".claims").decode()
        except (OSError, Refusal, UnicodeDecodeError):
            return ""

    def save(self, name, text, may_replace):
        *folders, last = self.parts(name)
        here = self.opened(folders)
        beside = f".{secrets.token_hex(8)}.toml"
        try:
            self.check_target(last, here, may_replace)
            file = os.open(beside, os.O_WRONLY | os.O_CREAT | os.O_EXCL | os.O_NOFOLLOW, 0o644, dir_fd=here)
            try:
                with os.fdopen(file, "wb") as stream:
                    stream.write(text)
                os.rename(beside, last, src_dir_fd=here, dst_dir_fd=here)
            except OSError:
                os.unlink(beside, dir_fd=here)
                raise
        finally:
            os.close(here)

    @staticmethod
    def check_target(last, here, may_replace):
        try:
            there = os.stat(last, dir_fd=here, follow_symlinks=False)
        except FileNotFoundError:
            return
        if not stat.S_ISREG(there.st_mode):
            raise Refusal(HTTPStatus.FORBIDDEN, f"{last} is no plain file, and stays as it is")
        if not may_replace:
            raise Refusal(HTTPStatus.CONFLICT, f"{last} exists")

    @staticmethod
    def is_scenario(name, here):
        if name.startswith(".") or not name.endswith(".toml"):
            return False
        try:
            return stat.S_ISREG(os.stat(name, dir_fd=here, follow_symlinks=False).st_mode)
        except OSError:
            return False

    def names(self):
        """The scenarios, at most MAX_FILES of them."""
        found = []
        for here, folders, files, opened in os.fwalk(".", dir_fd=self.root):
            is_deep = here.count("/") >= MAX_DEPTH - 1
            folders[:] = [] if is_deep else sorted(it for it in folders if not it.startswith("."))
            prefix = "" if here == "." else here[2:] + "/"
            found += [prefix + it for it in sorted(files) if self.is_scenario(it, opened)]
            if len(found) >= MAX_FILES:
                break
        return found[:MAX_FILES]


class NewFolder(Folder):
    """A folder that the first save makes."""

    def __init__(self, path):
        self.path, self.root = path, None
        if path.is_dir():
            super().__init__(path)

    def opened(self, parts):
        if self.root is None:
            raise FileNotFoundError(errno.ENOENT, f"there is no folder {self.path.name} yet")
        return super().opened(parts)

    def save(self, name, text, may_replace):
        if self.root is None and self.parts(name):
            self.path.mkdir(exist_ok=True)
            super().__init__(self.path)
        super().save(name, text, may_replace)

    def names(self):
        return [] if self.root is None else super().names()


def group(name, text):
    """The group of an example in the menu."""
    folder = name.rpartition("/")[0]
    if not folder:
        folder = "attacks" if ADVERSARY.search(text) else "start"
    return GROUPS.get(folder, folder)


def caption(text):
    """The first sentence of the comment at the head of a scenario; up to its colon, if the whole is too long."""
    lines = []
    for line in text.decode(errors="replace").splitlines():
        if not line.startswith("#"):
            break
        lines.append(line.lstrip("# ").strip())
    found = [re.split(f"(?<=[{ends}]) ", " ".join(lines), maxsplit=1)[0].rstrip(".:;") for ends in (".;?", ".:;?")]
    whole, short = found
    sentence = whole if len(whole) <= MAX_CAPTION else short
    return sentence if len(sentence) <= MAX_CAPTION else sentence[: MAX_CAPTION - 3] + ".."


def reason(why):
    """Why the system refused a file."""
    is_link = why.errno in (errno.ELOOP, errno.ENOTDIR)
    return "a link, which the lab doesn't follow" if is_link else why.strerror or str(why)


# What the page may ask.


def number(body, name, low, high):
    value = body.get(name)
    if isinstance(value, str) and re.fullmatch(r"[0-9]{1,20}", value):
        value = int(value)
    if not isinstance(value, int) or isinstance(value, bool) or not low <= value <= high:
        raise Refusal(HTTPStatus.BAD_REQUEST, f"{name} is a number from {low} to {high}")
    return value


def text(body, name, pattern=r"(?s).*"):
    value = body.get(name)
    if not isinstance(value, str) or not re.fullmatch(pattern, value):
        raise Refusal(HTTPStatus.BAD_REQUEST, f"{name} has another form than the lab expects")
    return value


def nodes(body, name):
    value = body.get(name)
    if not isinstance(value, list) or not value or not all(type(it) is int and 0 <= it < MAX_NODES for it in value):
        raise Refusal(HTTPStatus.BAD_REQUEST, f"{name} is a list of nodes")
    return sorted(set(value))


def outline(line):
    """A pulse without what each node holds and sent, which is most of it. Members come in the order of their names."""
    memory, pulse, sent, settled = (line.index(b',"%s":' % it) for it in (b"memory", b"pulse", b"sent", b"settled"))
    return line[:memory] + line[pulse:sent] + line[settled:]


class Lab:
    """Answers the questions of the page, each by a run of the program or a file of the folder."""

    def __init__(self, jobs, folder, opened, options):
        self.jobs, self.folder, self.opened = jobs, folder, opened
        self.examples = Folder(EXAMPLES) if EXAMPLES.is_dir() else None
        self.run_limit = Limit(options.seconds, "--seconds")
        self.search_limit = Limit(options.search_seconds, "--search-seconds")
        self.questions = {
            "begin": self.begin, "open": self.open, "save": self.save, "run": self.run, "pulses": self.pulses,
            "verify": self.verify, "compile": self.compile, "trace": self.trace, "program": self.program,
            "next": self.next, "transitions": self.transitions, "explore": self.explore, "sweep": self.sweep,
            "claims": self.claims, "properties": self.properties,
        }

    def shown_examples(self):
        """The examples of the menu, by group; the folders of solutions are left out."""
        names = [it for it in (self.examples.names() if self.examples else []) if HIDDEN not in it.split("/")]
        texts = {name: self.examples.read(name) for name in names}
        found = [{"name": it, "caption": caption(text), "group": group(it, text)} for it, text in texts.items()]
        order = list(GROUPS.values())
        return sorted(found, key=lambda it: order.index(it["group"]) if it["group"] in order else len(order))

    def begin(self, _body, _is_gone):
        examples = self.shown_examples()
        files = {"folder": self.folder.path.name or str(self.folder.path), "files": self.folder.names()}
        return {**files, "examples": examples, "opened": self.opened, "colours": list(COLOURS)}

    def open(self, body, _is_gone):
        place = text(body, "place", "folder|examples")
        folder = self.folder if place == "folder" else self.examples
        if folder is None:
            raise Refusal(HTTPStatus.NOT_FOUND, "there is no folder examples beside tools/lab.py")
        name = text(body, "name")
        try:
            return {"text": folder.read(name).decode(), "claims": folder.claims_beside(name)}
        except UnicodeDecodeError:
            raise Refusal(HTTPStatus.FORBIDDEN, f"{name} is no text in UTF-8") from None

    def save(self, body, _is_gone):
        given = text(body, "text").encode(errors="replace")
        if len(given) > MAX_SCENARIO:
            raise Refusal(HTTPStatus.BAD_REQUEST, "the text has more than 1 MiB, the limit of a scenario")
        self.folder.save(text(body, "name"), given, body.get("replace") is True)
        return {"files": self.folder.names()}

    def asked(self, words, body, limit, is_gone):
        return self.jobs.run(words, text(body, "text").encode(errors="replace"), limit, is_gone)

    def run(self, body, is_gone):
        """All pulses of a run; the first ones with memories and messages, which `pulses` tells of those looked at."""
        whole = number(body, "whole", 0, MAX_PULSES) if "whole" in body else 0
        answer = self.asked(["run", "--json"], body, self.run_limit, is_gone)
        if answer.status != 0 or answer.ended:
            return answer.told()
        frame, *pulses, last = answer.out.splitlines()
        # Put together from lines that are JSON already: of many nodes and pulses they are long.
        told, inside = b",".join(outline(it) for it in pulses), b",".join(pulses[:whole])
        return b'{"status":0,"ended":"","frame":%s,"pulses":[%s],"inside":[%s],"last":%s}' % (frame, told, inside, last)

    def pulses(self, body, is_gone):
        first = number(body, "from", 1, MAX_PULSES)
        last = number(body, "until", first, MAX_PULSES)
        words = ["run", "--json", f"--from={first}", f"--until={last}"]
        return self.asked(words, body, self.run_limit, is_gone).told()

    def next(self, body, is_gone):
        """One pulse of each of some texts: where the choices of an adversary lead."""
        texts, pulse = body.get("texts"), number(body, "pulse", 1, MAX_PULSES)
        if not isinstance(texts, list) or not 1 <= len(texts) <= MAX_NEXT:
            raise Refusal(HTTPStatus.BAD_REQUEST, f"texts is a list of 1 to {MAX_NEXT} scenarios")
        words, answers = ["run", "--json", f"--from={pulse}", f"--until={pulse}"], []
        for it in texts:
            answers.append(self.asked(words, {"text": it}, self.run_limit, is_gone))
            if answers[-1].ended:
                break
        return {"answers": [it.told() for it in answers]}

    def transitions(self, body, is_gone):
        """The clocks that `explore` has after the state of a pulse, or why it has none."""
        pulse, correct, free = number(body, "pulse", 1, MAX_PULSES - 1), nodes(body, "correct"), nodes(body, "free")
        words = ["run", "--json", f"--from={pulse}", f"--until={pulse}"]
        told, programs = self.asked(words, body, self.run_limit, is_gone), {}
        if told.status != 0 or told.ended:
            return told.told()
        frame, state = map(json.loads, told.out.splitlines()[:2])
        if frame["memory"] == MAX_MEMORY:
            return {"why": f"each node has {MAX_MEMORY} bytes of memory, and the search needs more"}
        for node in correct:
            told = self.asked(["dis", f"--node={pulse + 1}:{node}"], body, self.run_limit, is_gone)
            programs[node] = told.out.decode()
        bench = bench_of(frame, state, programs, free).encode()
        mail = text(body, "mail", "[0-9.,]+")
        words = ["explore", "--ask=stabilisation", "--graph=dot", f"--states={MAX_FOLLOWING}", f"--mail={mail}"]
        told = self.jobs.run(words, bench, self.run_limit, is_gone)
        if told.ended or told.status not in FINISHED:
            return {"why": told.ended or told.out.decode().strip().splitlines()[-1]}
        loaded = [it for it in range(frame["nodes"]) if it not in free]
        return {"why": "", "clocks": following(told.out.decode(), loaded, correct)}

    @staticmethod
    def shape(body):
        return [f"--nodes={number(body, 'nodes', 1, MAX_NODES)}", f"--memory={number(body, 'memory', 8, MAX_MEMORY)}"]

    def verify(self, body, is_gone):
        words = ["verify", "--text", "--explain", *self.shape(body)]
        return self.asked(words, body, self.run_limit, is_gone).told()

    def compile(self, body, is_gone):
        """Whether a text is a rule that fits, and what `verify` says of its program."""
        shape, faults = self.shape(body), number(body, "faults", 0, MAX_NODES - 1)
        words = ["compile", *shape, f"--faults={faults}", f"--modulus={number(body, 'modulus', 2, MAX_MODULUS)}"]
        image = self.asked(words, body, self.run_limit, is_gone)
        if image.status != 0 or image.ended:
            return image.told()
        return self.jobs.run(["verify", *shape], image.out, self.run_limit, is_gone).told()

    @staticmethod
    def place(body):
        return f"{number(body, 'pulse', 1, MAX_PULSES)}:{number(body, 'node', 0, MAX_NODES - 1)}"

    def trace(self, body, is_gone):
        """The steps of a node's run in a pulse; those of a rule's program below its lines."""
        return self.asked(["run", f"--trace={self.place(body)}"], body, self.run_limit, is_gone).told()

    def program(self, body, is_gone):
        """The program that a node runs in a pulse; that of a rule with its lines."""
        words = ["dis", f"--node={self.place(body)}", *(["--list"] if body.get("list") is True else [])]
        return self.asked(words, body, self.run_limit, is_gone).told()

    def explore(self, body, is_gone):
        words = ["explore", f"--states={number(body, 'states', 1, MAX_STATES)}"]
        if "depth" in body:
            words.append(f"--depth={number(body, 'depth', 1, MAX_STATES)}")
        if "odds" in body:
            words.append(f"--odds={number(body, 'odds', 1, MAX_ODDS)}")
        if "mail" in body:
            words.append(f"--mail={text(body, 'mail', '[0-9.,]+')}")
        if "ask" in body:
            words.append(f"--ask={text(body, 'ask', '[a-z]+')}")
        if "bytes" in body:
            words += ["--start=any", f"--bytes={text(body, 'bytes', '[0-9.,]+')}"]
        elif "cells" in body:
            words += ["--start=any", f"--cells={text(body, 'cells', '[0-9.,=]+')}"]
        elif "start" in body:
            words.append(f"--start={text(body, 'start', 'every')}")
        return self.asked(words, body, self.search_limit, is_gone).told()

    def claims(self, body, is_gone):
        """What tools/all_sizes.py says of claims about a rule, and the scenario of the first that it refutes."""
        with tempfile.TemporaryDirectory() as room:
            rule, claims, found = (pathlib.Path(room) / it for it in ("clock.rule", "page.claims", "refuted.toml"))
            rule.write_text(text(body, "rule"), encoding="utf-8", errors="replace")
            claims.write_text(text(body, "claims"), encoding="utf-8", errors="replace")
            words = [ALL_SIZES, "--scenario", str(found), str(rule), str(claims)]
            told = self.jobs.run(words, b"", self.search_limit, is_gone).told()
            return {**told, "scenario": found.read_text(encoding="utf-8") if found.exists() else None}

    def properties(self, body, is_gone):
        """The verdicts on properties in each pulse of a run, and their answers, as lines of JSON."""
        with tempfile.NamedTemporaryFile(suffix=".claims") as file:
            file.write(text(body, "claims").encode(errors="replace"))
            file.flush()
            return self.asked(["run", "--json", "--claims", file.name], body, self.run_limit, is_gone).told()

    def sweep(self, body, is_gone):
        first = number(body, "first", 0, MAX_KEY)
        words = ["sweep", f"--keys={first}..{number(body, 'last', first, MAX_KEY)}"]
        return self.asked(words, body, self.search_limit, is_gone).told()


# Requests.


class Server(http.server.ThreadingHTTPServer):
    daemon_threads, block_on_close, request_queue_size = True, False, 256

    def __init__(self, port, lab):
        self.lab, self.token = lab, secrets.token_urlsafe(24)
        self.room = threading.BoundedSemaphore(MAX_CONNECTIONS)
        self.files = {it.name: it for it in PAGE.iterdir() if it.suffix in KINDS}
        super().__init__(("127.0.0.1", port), Request)
        self.hosts = {f"127.0.0.1:{self.server_port}", f"localhost:{self.server_port}"}

    def process_request(self, request, client_address):
        if self.room.acquire(blocking=False):
            super().process_request(request, client_address)
        else:
            self.shutdown_request(request)

    def process_request_thread(self, request, client_address):
        try:
            super().process_request_thread(request, client_address)
        finally:
            self.room.release()

    def handle_error(self, request, client_address):
        """A connection that the page has left is no fault."""
        if not isinstance(sys.exc_info()[1], OSError):
            super().handle_error(request, client_address)


class Request(http.server.BaseHTTPRequestHandler):
    protocol_version, timeout, server_version, sys_version = "HTTP/1.1", IDLE_SECONDS, "clockbed-lab", ""

    def log_message(self, *_):
        """Says nothing: an address has the token."""

    def is_gone(self):
        """Whether the other end has closed the connection."""
        look = select.poll()
        look.register(self.connection, select.POLLIN)
        try:
            return bool(look.poll(0)) and self.connection.recv(1, socket.MSG_PEEK) == b""
        except OSError:
            return True

    def do_GET(self):
        name = OPEN_FILES.get(self.path.partition("?")[0][1:])
        if name is None or self.headers.get("Host") not in self.server.hosts:
            self.answer(self.file)
        else:
            self.send(HTTPStatus.OK, *self.content(name))

    def do_POST(self):
        self.answer(self.question)

    def answer(self, by):
        try:
            kind, body, status = *by(self.checked_path()), HTTPStatus.OK
        except Refusal as why:
            kind, body, status = "text/plain", str(why).encode(), why.status
        except ConnectionAbortedError:
            self.close_connection = True
            return
        except OSError as why:
            kind, body, status = "text/plain", reason(why).encode(), HTTPStatus.NOT_FOUND
        self.send(status, kind, body)

    def checked_path(self):
        """The path after the token; rejects every page but the lab's own."""
        if self.headers.get("Host") not in self.server.hosts:
            raise self.closing(HTTPStatus.FORBIDDEN, "The header Host names another server.\n")
        origin = self.headers.get("Origin")
        if (origin is not None or self.command != "GET") and origin not in {f"http://{it}" for it in self.server.hosts}:
            raise self.closing(HTTPStatus.FORBIDDEN, "The header Origin names another page.\n")
        token, slash, path = self.path[1:].partition("/")
        if not slash or not hmac.compare_digest(token.encode(), self.server.token.encode()):
            raise self.closing(HTTPStatus.FORBIDDEN, NO_TOKEN)
        return path

    def closing(self, status, why):
        """A refusal before the body was read: the connection ends after it."""
        self.close_connection = True
        self.drain()
        return Refusal(status, why)

    def drain(self):
        """Reads what is left of a body up to a bound, so that the other end gets to read the answer."""
        length = self.headers.get("Content-Length", "0")
        left = min(int(length), MAX_DRAINED) if length.isdecimal() else 0
        while left > 0:
            some = self.rfile.read(min(left, 65536))
            if not some:
                break
            left -= len(some)

    def file(self, path):
        return self.content(path or "lab.html")

    def content(self, name):
        found = self.server.files.get(name)
        if found is None:
            raise Refusal(HTTPStatus.NOT_FOUND, "The lab has no such file.\n")
        return KINDS[found.suffix] + "; charset=utf-8", found.read_bytes()

    def question(self, path):
        ask = self.server.lab.questions.get(path)
        if ask is None:
            raise self.closing(HTTPStatus.NOT_FOUND, "The lab answers no such question.\n")
        answer = ask(self.body(), self.is_gone)
        return "application/json", answer if isinstance(answer, bytes) else json.dumps(answer).encode()

    def body(self):
        length = self.headers.get("Content-Length", "")
        if not re.fullmatch(r"[0-9]{1,12}", length) or "Transfer-Encoding" in self.headers:
            raise self.closing(HTTPStatus.LENGTH_REQUIRED, "A request needs the header Content-Length.\n")
        if int(length) > MAX_BODY:
            what = f"The request has {length} bytes, and the limit is {MAX_BODY}.\n"
            raise self.closing(HTTPStatus.REQUEST_ENTITY_TOO_LARGE, what)
        if self.headers.get_content_type() != "application/json":
            raise self.closing(HTTPStatus.UNSUPPORTED_MEDIA_TYPE, "A request is application/json.\n")
        try:
            body = json.loads(self.rfile.read(int(length)))
        except (ValueError, RecursionError):
            body = None
        if not isinstance(body, dict):
            raise Refusal(HTTPStatus.BAD_REQUEST, "The request is no JSON object.\n")
        return body

    def send(self, status, kind, body):
        self.send_response(status)
        headers = {
            "Content-Type": kind, "Content-Length": len(body), "Content-Security-Policy": POLICY,
            "X-Content-Type-Options": "nosniff", "Referrer-Policy": "no-referrer", "Cache-Control": "no-store",
            "Cross-Origin-Resource-Policy": "same-origin", "Cross-Origin-Opener-Policy": "same-origin",
        }
        for name, value in headers.items():
            self.send_header(name, str(value))
        if self.close_connection:
            self.send_header("Connection", "close")
        self.end_headers()
        self.wfile.write(body)


# The start.


def found_program():
    """The program that CLOCKBED_PROGRAM names, or the built one, or that of a release archive."""
    named = os.environ.get("CLOCKBED_PROGRAM")
    if named is not None:
        path, fix = pathlib.Path(named), "CLOCKBED_PROGRAM has to name the program"
    elif OF_ARCHIVE.is_file() and OF_ARCHIVE.open("rb").read(len(ELF)) == ELF:
        path, fix = OF_ARCHIVE, "unpack the archive again"
    elif UNPROVED.is_file() and not BUILT.is_file():
        is_optimised = OPTIMISED.is_file() and OPTIMISED.stat().st_mtime >= UNPROVED.stat().st_mtime
        path, fix = OPTIMISED if is_optimised else UNPROVED, "remove it, and ./clockbed --version builds it again"
        print("lab: its answers are from code that wasn't proved; ./clockbed --prove proves it", file=sys.stderr)
    else:
        path, fix = BUILT, "./clockbed --version builds it without a proof, ./clockbed --prove with one"
    if not path.is_file() or not os.access(path, os.X_OK):
        sys.exit(f"lab: there is no program at {path}: {fix}")
    path = os.path.realpath(path)
    try:
        done = subprocess.run([path, "--version"], capture_output=True, timeout=RUN_SECONDS, check=False)
    except (OSError, subprocess.TimeoutExpired) as why:
        sys.exit(f"lab: {path} doesn't run ({why}): {fix}")
    if done.returncode != 0 or not done.stdout.startswith(b"clockbed "):
        sys.exit(f"lab: {path} is not clockbed: {fix}")
    return path


def found_folder(named):
    """The folder of the lab, and the scenario that it opens first, if one is named: its place and name."""
    path = pathlib.Path(named).resolve()
    is_example = path.is_relative_to(EXAMPLES.resolve())
    try:
        if path.is_dir():
            return NewFolder(pathlib.Path.cwd() / OWN) if is_example else Folder(path), None
        if path.is_file() and path.suffix == ".toml" and is_example:
            opened = {"place": "examples", "name": str(path.relative_to(EXAMPLES.resolve()))}
            return NewFolder(pathlib.Path.cwd() / OWN), opened
        if path.is_file() and path.suffix == ".toml":
            return Folder(path.parent), {"place": "folder", "name": path.name}
    except OSError as why:
        sys.exit(f"lab: {named}: {why.strerror}: name a folder that can be read")
    sys.exit(f"lab: {named} is neither a folder nor a scenario that ends in .toml: name one of these")


def read_words():
    words = argparse.ArgumentParser(description=__doc__, formatter_class=argparse.RawDescriptionHelpFormatter)
    words.add_argument(
        "named", nargs="?", default=".", metavar="FOLDER | SCENARIO",
        help="Folder of the scenarios, or the scenario to open first [default: the current folder]",
    )
    words.add_argument(
        "--port", type=int, metavar="N",
        help=f"Port to listen on [0..={MAX_PORT}; 0: any free one; default: {USUAL_PORT}, or any free one]",
    )
    limit = f"Time limit of each {{}} in seconds [at most {MAX_SECONDS}; default: {{}}]"
    words.add_argument("--seconds", type=float, default=RUN_SECONDS, metavar="N", help=limit.format("run", RUN_SECONDS))
    words.add_argument(
        "--search-seconds", type=float, default=SEARCH_SECONDS, metavar="N",
        help=limit.format("exploration and sweep", SEARCH_SECONDS),
    )
    options = words.parse_args()
    if options.port is not None and not 0 <= options.port <= MAX_PORT:
        words.error(f"--port {options.port} is out of 0..={MAX_PORT}: choose another, or leave --port out")
    if not (0 < options.seconds <= MAX_SECONDS and 0 < options.search_seconds <= MAX_SECONDS):
        words.error(f"a time limit is above 0 and at most {MAX_SECONDS} seconds")
    return options


def listening(port, lab):
    """A server at this port; if none is asked for, at the usual one or at any that is free."""
    try:
        return Server(USUAL_PORT if port is None else port, lab)
    except OSError as why:
        if port is None:
            return Server(0, lab)
        sys.exit(f"lab: can't listen on port {port} ({why.strerror}): choose another by --port N, or leave --port out")


def main():
    options = read_words()
    jobs = Jobs(found_program())
    folder, opened = found_folder(options.named)
    server = listening(options.port, Lab(jobs, folder, opened, options))
    ended = threading.Event()
    for it in (signal.SIGINT, signal.SIGTERM, signal.SIGHUP):
        signal.signal(it, lambda *_: ended.set())
    threading.Thread(target=server.serve_forever, daemon=True).start()
    print(f"http://127.0.0.1:{server.server_port}/{server.token}/", flush=True)
    print("Open this address in a browser on this machine. Ctrl-C ends the lab.", file=sys.stderr, flush=True)
    ended.wait()
    server.shutdown()
    server.server_close()
    jobs.close()
    return 0


if __name__ == "__main__":
    sys.exit(main())
