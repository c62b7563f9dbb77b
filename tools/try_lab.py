#!/usr/bin/env python3
"""Tries tools/lab.py: its server by requests, and its page in a headless Chromium by real keys and clicks.

    tools/try_lab.py [--seconds N] [--pictures FOLDER] [--server | --page]

What the page shows is compared with what the program answers. FOLDER becomes pictures of five states. BROWSER names the
browser (chromium), CLOCKBED_PROGRAM another program than the built one, and N the time limit of a run, for a slow one.
Without a browser the page is not tried, and a line says so. The script installs nothing.
"""
import argparse
import http.client
import itertools
import json
import os
import pathlib
import re
import shlex
import shutil
import signal
import socket
import subprocess
import sys
import tempfile
import time
from concurrent.futures import ThreadPoolExecutor

sys.dont_write_bytecode = True
from built_program import BUILT, TOP
from try_class import try_class
from try_play import Browser

try:
    import tomllib
except ImportError:
    tomllib = None

LAB = TOP / "tools/lab.py"
EXAMPLES = TOP / "examples"
MIB = 1 << 20
AT_ONCE, PATIENCE, BUSY_SECONDS = 200, 60, 0.6
FOUR = (EXAMPLES / "four_clocks.toml").read_text(encoding="utf-8")
# Compared cell by cell: the built-in clock and say, a program that reads its messages, and a clock of one's own.
COMPARED = ("three_part.toml", "splitter.toml", "clocks/greatest_led.toml")
# The keys of the keyboard that have names: the virtual code, and the text if there is one.
KEYS = {
    "ArrowRight": (39, None), "ArrowLeft": (37, None), "ArrowUp": (38, None), "ArrowDown": (40, None),
    "Home": (36, None), "End": (35, None), "Tab": (9, None), "Escape": (27, None), "Backspace": (8, None),
    "Enter": (13, "\r"), " ": (32, " "),
}
CONTROL, SHIFT = 2, 8
MUCH = f"""version = 2
nodes = 64
faults = 21
modulus = 12
memory = 8
pulses = 1000
coins = "chacha"
key = 1

[[load]]
pulse = 1
nodes = {list(range(64))}
program = "clock"
"""


class Trial:
    """Counts what was tried, and prints what is wrong."""

    def __init__(self):
        self.tried, self.wrong = 0, 0

    def equal(self, what, shown, wanted):
        self.tried += 1
        if shown != wanted:
            self.wrong += 1
            print(f"wrong: {what}: {str(shown)[:400]!r}, and not {str(wanted)[:400]!r}", flush=True)

    def holds(self, what, is_so, shown=""):
        self.equal(what if is_so else f"{what} ({str(shown)[:300]})", bool(is_so), True)


def program():
    return os.path.realpath(os.environ.get("CLOCKBED_PROGRAM", BUILT))


def asked(words, given):
    """What the program writes for these words and this input."""
    done = subprocess.run([program(), *words], input=given.encode(), capture_output=True, check=False)
    return done.stdout.decode()


def lines_of(scenario):
    frame, *pulses, last = map(json.loads, asked(["run", "--json"], scenario).splitlines())
    return frame, pulses, last


def until(is_so, seconds=PATIENCE):
    """Waits until this holds; says whether it does."""
    end = time.monotonic() + seconds
    while time.monotonic() < end:
        if is_so():
            return True
        time.sleep(0.03)
    return False


class Served:
    """A lab that runs on a folder, with the address that it printed."""

    def __init__(self, *words, environment=None, where=None):
        self.process = subprocess.Popen(
            [sys.executable, str(LAB), *map(str, words)], stdout=subprocess.PIPE, stderr=subprocess.PIPE, text=True,
            cwd=where,
            env={**os.environ, "CLOCKBED_PROGRAM": program(), **(environment or {})},
        )
        self.address = self.process.stdout.readline().strip()
        found = re.fullmatch(r"http://127\.0\.0\.1:(\d+)/([\w-]{20,})/", self.address)
        if not found:
            raise SystemExit(f"try_lab: no address: {self.process.stderr.read()}")
        self.port, self.token = int(found[1]), found[2]

    def request(self, path, body=None, method="POST", **headers):
        """The status and the body of an answer."""
        link = http.client.HTTPConnection("127.0.0.1", self.port, timeout=PATIENCE)
        origin = {"Origin": f"http://127.0.0.1:{self.port}", "Content-Type": "application/json"}
        sent = {**(origin if method == "POST" else {}), **{name.replace("_", "-"): it for name, it in headers.items()}}
        try:
            link.request(method, path, body, {name: it for name, it in sent.items() if it is not None})
            answer = link.getresponse()
            return answer.status, answer.read().decode()
        except (ConnectionError, http.client.HTTPException, socket.timeout) as why:
            return 0, repr(why)
        finally:
            link.close()

    def ask(self, what, **body):
        status, text = self.request(f"/{self.token}/{what}", json.dumps(body))
        return status, json.loads(text) if status == 200 else text

    def programs(self):
        """The processes of the program that this lab has started and that still run."""
        children = pathlib.Path(f"/proc/{self.process.pid}/task")
        found = [it.read_text().split() for it in children.glob("*/children")]
        return [int(it) for some in found for it in some]

    def end(self, by=signal.SIGINT):
        self.process.send_signal(by)
        try:
            return self.process.wait(timeout=10)
        except subprocess.TimeoutExpired:
            self.process.kill()
            return None


# The server.


def try_rejections(trial, lab):
    """Whoever isn't the page of the lab is rejected."""
    here, good = f"/{lab.token}/", json.dumps({"text": FOUR})
    rejected = {
        "a wrong token": lab.request("/wrongtokenwrongtokenwrong/run", good),
        "no token": lab.request("/run", good),
        "a wrong token for the page": lab.request(f"/{lab.token}x/", method="GET"),
        "another Host": lab.request(here + "run", good, Host="evil.example"),
        "another Host for the page": lab.request(here, method="GET", Host=f"evil.example:{lab.port}"),
        "another Origin": lab.request(here + "run", good, Origin="http://evil.example"),
        "the Origin null": lab.request(here + "run", good, Origin="null"),
        "no Origin": lab.request(here + "run", good, Origin=None),
        "another port as Origin": lab.request(here + "run", good, Origin=f"http://127.0.0.1:{lab.port + 1}"),
    }
    for what, (status, _) in rejected.items():
        trial.equal(what, status, 403)
    trial.equal("a body of 3 MiB", lab.request(here + "run", " " * (3 * MIB))[0], 413)
    trial.equal("a text as a form sends it", lab.request(here + "run", good, Content_Type="text/plain")[0], 415)
    trial.equal("no JSON", lab.request(here + "run", "{")[0], 400)
    trial.equal("a list", lab.request(here + "run", "[]")[0], 400)
    trial.equal("an unknown question", lab.request(here + "shell", "{}")[0], 404)
    trial.equal("a file beside the page", lab.request(here + "../lab.py", method="GET")[0], 404)
    trial.equal("the method OPTIONS", lab.request(here + "run", method="OPTIONS")[0], 501)
    options = {"mail": "--states=5", "depth": "1;ls", "odds": "0", "bytes": "x", "cells": "0=x", "ask": "--both"}
    for name, value in options.items():
        trial.equal(f"{name} {value}", lab.ask("explore", text=FOUR, states=5, **{name: value})[0], 400)
    trial.equal("the page itself", lab.request(here, method="GET")[0], 200)
    for path in ("/", "/link.js", "/kept.js"):
        status, told = lab.request(path, method="GET")
        trial.holds(f"{path} is open and has no token", status == 200 and lab.token not in told, (status, told))
        trial.equal(f"{path} by another Host", lab.request(path, method="GET", Host="evil.example")[0], 403)
    trial.equal("properties that are no text", lab.ask("properties", text=FOUR, claims=1)[0], 400)
    trial.equal("no text to run", lab.ask("next", texts=[], pulse=1)[0], 400)
    trial.equal("too many texts", lab.ask("next", texts=[FOUR] * 257, pulse=1)[0], 400)
    trial.equal("a text that is none", lab.ask("next", texts=[1], pulse=1)[0], 400)
    for name, value in {"correct": [], "free": [64], "mail": "--json", "pulse": 0}.items():
        asked = {"text": FOUR, "pulse": 1, "correct": [0, 1, 2], "free": [3], "mail": "0..8", name: value}
        trial.equal(f"transitions with {name} {value}", lab.ask("transitions", **asked)[0], 400)


def try_folder(trial, lab, folder):
    """No path leaves the folder, and nothing is replaced unasked."""
    secret = folder.parent / "secret.toml"
    secret.write_text("secret = 1\n")
    (folder / "link.toml").symlink_to(secret)
    (folder / "linked").symlink_to(folder.parent)
    (folder / "pipe.toml").mkdir()
    paths = [
        "../../etc/passwd", "../secret.toml", "/etc/passwd", "./../secret.toml", "a/../../secret.toml", "link.toml"
    ]
    paths += [
        "linked/secret.toml",
        "",
        ".",
        "..",
        ".hidden.toml",
        "mine.txt",
        "a\0.toml", "\ud800.toml",
        "pipe.toml",
        "..\\secret.toml",
        "x" * 9999,
    ]
    for path in paths:
        status, told = lab.ask("open", place="folder", name=path)
        trial.holds(
            f"opening {path[:40]!r} is rejected", status in (403, 404) and "secret = 1" not in told, (status, told)
        )
        status, told = lab.ask("save", name=path, text="x = 1", replace=True)
        trial.holds(f"saving {path[:40]!r} is rejected", status in (403, 404), (status, told))
    trial.equal("the file outside", secret.read_text(), "secret = 1\n")
    trial.equal("a save", lab.ask("save", name="mine.toml", text=FOUR)[0], 200)
    trial.equal("a save over a file", lab.ask("save", name="mine.toml", text="x")[0], 409)
    opened = lab.ask("open", place="folder", name="mine.toml")
    trial.equal("what was saved", opened, (200, {"text": FOUR, "claims": ""}))
    trial.equal("a save that replaces", lab.ask("save", name="mine.toml", text="x", replace=True)[0], 200)
    files = lab.ask("begin")[1]["files"]
    trial.holds(
        "only plain files are listed",
        "mine.toml" in files and not {"link.toml", "linked/secret.toml"} & set(files),
        files,
    )
    trial.equal("examples are not written", lab.ask("save", name="../examples/x.toml", text="x")[0], 403)


def try_many(trial, lab):
    """200 requests at once: each is answered, and the lab lives on."""
    begun = time.monotonic()
    with ThreadPoolExecutor(AT_ONCE) as workers:
        told = list(workers.map(lambda _: lab.ask("run", text=FOUR), range(AT_ONCE)))
    right = [
        status == 200 and answer["last"] == {"agreed": 10, "in_step_since": 1, "of": 10} for status, answer in told
    ]
    trial.equal(f"{AT_ONCE} requests at once", sum(right), AT_ONCE)
    trial.holds("no process is left", until(lambda: not lab.programs()), lab.programs())
    print(f"try_lab: {AT_ONCE} requests at once took {time.monotonic() - begun:.1f} s", flush=True)


def slow_question(lab):
    """A question that takes long, on a connection of its own."""
    body = json.dumps({"text": explored(7), "states": 10**9})
    link = socket.create_connection(("127.0.0.1", lab.port))
    here = f"127.0.0.1:{lab.port}"
    head = f"POST /{lab.token}/explore HTTP/1.1\r\nHost: {here}\r\nOrigin: http://{here}\r\n"
    link.sendall(f"{head}Content-Type: application/json\r\nContent-Length: {len(body)}\r\n\r\n{body}".encode())
    return link


def explored(nodes):
    faults = (nodes - 1) // 3
    numbers = f'nodes = {nodes}\nfaults = {faults}\nmodulus = 60000\nmemory = 8\npulses = 10\ncoins = "zeros"\n'
    return f'{numbers}\n[[load]]\npulse = 1\nnodes = {list(range(nodes - faults))}\nprogram = "clock"\n'


def try_ends(trial, folder):
    """A process ends if its page goes, at its time limit, and with the lab."""
    lab = Served("--search-seconds", 2, folder)
    link = slow_question(lab)
    trial.holds("a slow question runs", until(lab.programs))
    time.sleep(BUSY_SECONDS)
    link.close()
    trial.holds("it ends if the page goes", until(lambda: not lab.programs(), 5), lab.programs())
    status, answer = lab.ask("explore", text=explored(7), states=10**9)
    trial.holds("the time limit is told", status == 200 and "more than 2 seconds" in answer["ended"], answer)
    trial.holds("no process is left at the limit", not lab.programs(), lab.programs())
    for by in (signal.SIGINT, signal.SIGTERM):
        link = slow_question(lab)
        trial.holds("a slow question runs", until(lab.programs))
        left = lab.programs()
        trial.equal(f"the lab ends by {by.name}", lab.end(by), 0)
        trial.holds(f"no process is left after {by.name}", until(lambda: not any(map(is_alive, left)), 5), left)
        link.close()
        lab = Served(folder)
    lab.end()


def is_alive(process):
    return pathlib.Path(f"/proc/{process}").exists()


def refused_start(words, **environment):
    done = subprocess.run(
        [sys.executable, str(environment.pop("LAB_PATH", LAB)), *map(str, words)], capture_output=True, text=True,
        check=False, timeout=PATIENCE, env={
            **{k: v for k, v in os.environ.items() if k != "CLOCKBED_PROGRAM"}, **environment
        },
    )
    return done.returncode, done.stdout, done.stderr


def copy_lab(top):
    """Copies what the lab needs beside the program: its tools, and the package that they use."""
    for part in ("tools", "python"):
        shutil.copytree(TOP / part, top / part, ignore=shutil.ignore_patterns("__pycache__"))


def try_starts(trial, lab, folder):
    """What keeps a lab from starting is one line that says what to do."""
    no_program = folder / "mine.toml"
    starts = {
        "a port that is taken": (["--port", lab.port, folder], {"CLOCKBED_PROGRAM": program()}, "--port N"),
        "a program that is missing": ([folder], {"CLOCKBED_PROGRAM": "/nowhere/clockbed"}, "CLOCKBED_PROGRAM"),
        "a file that is no program": ([folder], {"CLOCKBED_PROGRAM": str(no_program)}, "CLOCKBED_PROGRAM"),
        "another program": ([folder], {"CLOCKBED_PROGRAM": "/bin/true"}, "CLOCKBED_PROGRAM"),
        "a folder that is missing": ([folder / "nowhere"], {"CLOCKBED_PROGRAM": program()}, "folder"),
    }
    bare = folder.parent / "bare"
    copy_lab(bare)
    starts["a program that isn't built"] = ([folder], {"LAB_PATH": str(bare / "tools/lab.py")}, "./clockbed --prove")
    for what, (words, environment, fix) in starts.items():
        status, out, err = refused_start(words, **environment)
        is_so = status == 1 and not out and err.startswith("lab: ") and err.count("\n") == 1 and fix in err
        trial.holds(what, is_so, (status, out, err))


def try_own_folder(trial, room):
    """A lab of the examples saves into a folder of one's own, which its first save makes."""
    here = room / "here"
    here.mkdir()
    lab = Served(EXAMPLES / "explore/four_nodes.toml", where=here)
    try:
        begun = lab.ask("begin")[1]
        trial.equal("the example is opened", begun["opened"], {"place": "examples", "name": "explore/four_nodes.toml"})
        trial.equal("the folder of one's own", (begun["folder"], begun["files"]), ("my_scenarios", []))
        trial.equal("no file is there", lab.ask("open", place="folder", name="mine.toml")[0], 404)
        trial.equal("a path out of it", lab.ask("save", name="../mine.toml", text=FOUR)[0], 403)
        trial.holds("nothing is made for it", not (here / "my_scenarios").exists())
        trial.equal("a save", lab.ask("save", name="mine.toml", text=FOUR), (200, {"files": ["mine.toml"]}))
        trial.equal("what is saved", (here / "my_scenarios/mine.toml").read_text(), FOUR)
    finally:
        trial.equal("Ctrl-C ends the lab of examples", lab.end(), 0)


def try_archive(trial, room):
    """In the form of a release archive the lab finds the program beside the folder tools."""
    top = room / "archive"
    copy_lab(top)
    shutil.copytree(EXAMPLES, top / "examples")
    shutil.copy(program(), top / "clockbed")
    words = [sys.executable, "tools/lab.py", "examples"]
    bare = {name: it for name, it in os.environ.items() if name != "CLOCKBED_PROGRAM"}
    streams = {"stdout": subprocess.PIPE, "stderr": subprocess.DEVNULL}
    with subprocess.Popen(words, cwd=top, text=True, env=bare, **streams) as lab:
        trial.holds("a lab of an archive prints its address", lab.stdout.readline().startswith("http://127.0.0.1:"))
        lab.send_signal(signal.SIGINT)


def try_server(trial, options):
    room = pathlib.Path(tempfile.mkdtemp())
    folder = room / "folder"
    folder.mkdir()
    lab = Served("--seconds", options.seconds, folder)
    try:
        try_rejections(trial, lab)
        try_folder(trial, lab, folder)
        try_starts(trial, lab, folder)
        try_many(trial, lab)
        try_ends(trial, folder)
        try_own_folder(trial, room)
        try_archive(trial, room)
        trial.equal("the lab lives", lab.request(f"/{lab.token}/", method="GET")[0], 200)
    finally:
        trial.equal("Ctrl-C ends the lab", lab.end(), 0)
        shutil.rmtree(room, ignore_errors=True)


# The page.


class Address:
    def __init__(self, text):
        self.text = text

    def as_uri(self):
        return self.text


class Page(Browser):
    """The page of a lab in the browser."""

    def __init__(self, room, lab):
        super().__init__(room, Address(lab.address))
        self.size(1280, 800)
        self.is_shown()

    def size(self, wide, high, is_dark=False):
        self.ask("Emulation.setDeviceMetricsOverride", width=wide, height=high, deviceScaleFactor=1, mobile=False)
        scheme = {"name": "prefers-color-scheme", "value": "dark" if is_dark else "light"}
        self.ask("Emulation.setEmulatedMedia", features=[scheme])

    def is_so(self, script):
        return self.value(f"Boolean({script})") is True

    def until(self, script):
        return until(lambda: self.is_so(script))

    def is_shown(self):
        """Waits until the run of the text is shown with what is inside; says whether it is."""
        return self.until("lab.state.run && !lab.state.isStale && lab.state.run.inside.has(lab.state.at)")

    def key(self, key, modifiers=0, times=1):
        code, text = KEYS.get(key) or (ord(key.upper()), None if modifiers & CONTROL else key)
        words = {"key": key, "windowsVirtualKeyCode": code, "modifiers": modifiers}
        for _ in range(times):
            self.ask(
                "Input.dispatchKeyEvent",
                type="keyDown" if text else "rawKeyDown",
                **words,
                **({"text": text} if text else {}),
            )
            self.ask("Input.dispatchKeyEvent", type="keyUp", **words)

    def write(self, text):
        for letter in text:
            self.key("Enter" if letter == "\n" else letter)

    def put(self, selector, text):
        """Focuses a field, and writes this in place of what is there."""
        self.value(
            f"(() => {{ const it = document.querySelector({json.dumps(selector)}); it.focus(); it.select(); }})()"
        )
        self.ask("Input.insertText", text=text) if text else self.key("Backspace")

    def click(self, selector, part=0.5):
        self.value(f"document.querySelector({json.dumps(selector)}).scrollIntoView({{ block: 'nearest' }})")
        super().click(selector, part)

    def choose(self, selector, value):
        change = f"it.value = {json.dumps(value)}; it.dispatchEvent(new Event('change'))"
        self.value(f"(() => {{ const it = document.querySelector({json.dumps(selector)}); {change}; }})()")

    def text(self, selector):
        return self.value(f"document.querySelector({json.dumps(selector)})?.textContent")

    def texts(self, selector):
        return self.value(f"[...document.querySelectorAll({json.dumps(selector)})].map((it) => it.textContent)")

    def scenario(self):
        return self.value("document.querySelector('#text textarea').value")

    def open(self, text):
        """Opens a text, as a link does."""
        self.value(f"lab.tell('open', {json.dumps(text)}, '')")
        return self.is_shown()

    def edit(self, text):
        """Writes another scenario, as one who pastes it."""
        self.put("#text textarea", text)

    def show(self, pulse, node):
        """Shows a pulse and a node by keys, from wherever the page is."""
        self.value("document.activeElement.blur()")
        at, of = self.value("[lab.state.at, lab.state.node]")
        self.key("ArrowRight" if pulse > at else "ArrowLeft", times=abs(pulse - at))
        self.key("ArrowDown" if node > of else "ArrowUp", times=abs(node - of))
        return self.is_shown()

    def exceptions(self):
        return [it["params"] for it in self.events if it.get("method") == "Runtime.exceptionThrown"]


def ring(page):
    """What the ring shows of each node: its text, its coin and whether it has the edge of a settled one."""
    parts = [
        "it.querySelector('.clock').textContent", "it.querySelectorAll('.small')[1]?.textContent",
        "it.classList.contains('settled')",
    ]
    return page.value(f"[...document.querySelectorAll('#ring .node')].map((it) => [{', '.join(parts)}])")


def ring_wanted(pulse, names, modulus):
    def text(node):
        clock = pulse["clocks"][node]
        return names[node] if clock is None else "!" if clock >= modulus else str(clock)

    def program_of(node):
        return "clock" if pulse["clocks"][node] is not None else names[node]

    coins = enumerate(pulse["coins"])
    return [[text(node), f"{program_of(node)}, coin {coin}", pulse["settled"][node]] for node, coin in coins]


def names_after(names, pulse):
    """The names of the programs of all nodes after this pulse's loads."""
    for done in pulse["staged"]:
        if "load" in done:
            names[done["load"]] = done["program"]
        elif "unload" in done:
            names[done["unload"]] = "empty"
    return list(names)


def compare_arrows(trial, page, what, pulse):
    shown = "it.dataset.from + ' ' + it.dataset.to + ' ' + it.querySelector('.number').textContent"
    told = page.value(f"[...document.querySelectorAll('#ring .arrow')].map((it) => {shown})")
    sent = pulse["sent"]
    wanted = [f"{i} {j} {it}" for i, row in enumerate(sent) for j, it in enumerate(row) if it is not None and i != j]
    trial.equal(f"{what}: arrows", told, wanted)
    two_faced = page.value(
        "[...document.querySelectorAll('#ring .node:has(circle.two-faced)')].map((it) => Number(it.dataset.node))"
    )
    several = [i for i, row in enumerate(sent) if len({it for j, it in enumerate(row) if i != j}) > 1]
    trial.equal(f"{what}: equivocation", two_faced, several)


def compare_node(trial, page, what, pulse, before, node):
    """The panel of a node: facts, bytes and messages."""
    facts = dict(zip(page.texts("#node dt"), page.texts("#node dd")))
    clock = pulse["clocks"][node]
    wanted = {"clock": "-" if clock is None else str(clock), "settled": "yes" if pulse["settled"][node] else "no"}
    wanted.update({"coin": str(pulse["coins"][node]), "steps": str(pulse["steps"][node])})
    trial.equal(f"{what}: facts", {name: facts.get(name) for name in wanted}, wanted)
    if "mark" in facts:
        mark = int.from_bytes(bytes.fromhex(pulse["memory"][node])[4:8], "little")
        trial.equal(f"{what}: mark", facts["mark"], str(mark))
    trial.equal(f"{what}: memory", "".join(page.texts("#bytes code")), pulse["memory"][node])
    word = lambda it: "-" if it is None else str(it)
    rows = page.value(
        "[...document.querySelectorAll('#mail tbody tr')].map((it) => [...it.cells].map((it) => it.textContent))"
    )
    received = [row[node] for row in before] if before else [None] * len(pulse["sent"])
    told = [[str(j), word(received[j]), word(sent)] for j, sent in enumerate(pulse["sent"][node])]
    trial.equal(f"{what}: messages", rows, told)


# The colours of a pulse's cells in the picture, and of the bar under it.
CELLS = """(pulse) => {
  const { run } = lab.state, canvas = document.getElementById('picture'), pen = canvas.getContext('2d');
  const wide = canvas.width / run.frame.pulses, high = Math.max(2, Math.min(16, Math.floor(150 / run.frame.nodes)));
  // A cell that is wide enough has a number in its middle.
  const x = Math.floor((pulse - (wide < 24 ? 0.5 : 0.12)) * wide);
  const at = (y) => [...pen.getImageData(x, y, 1, 1).data].join(' ');
  const cells = run.pulses[0].clocks.map((_, node) => at(9 + Math.floor((node + 0.5) * high)));
  return [cells, at(9 + high * run.frame.nodes + 3)];
}"""


def compare_timeline(trial, page, name, pulses):
    """Each cell of the timeline has the colour that the ring has there, and bars are where agree is no."""
    colours = {}
    for pulse in pulses:
        cells, bar = page.value(f"({CELLS})({pulse['pulse']})")
        trial.equal(f"{name} pulse {pulse['pulse']}: bar", bar == "0 0 0 0", pulse["agree"] is not False)
        page.show(pulse["pulse"], 0)
        fills = page.value("[...document.querySelectorAll('#ring .body')].map((it) => it.getAttribute('fill'))")
        for cell, fill in zip(cells, fills):
            if fill != "#ffffff":
                colours.setdefault(fill, set()).add(cell)
    trial.holds(f"{name}: one colour for one fill", all(len(it) == 1 for it in colours.values()), colours)


def compare_run(trial, page, name):
    """Each pulse and each node of an example, cell by cell."""
    page.choose("#examples", name)
    trial.holds(
        f"{name} opens",
        page.until(f"lab.state.run.text === {json.dumps((EXAMPLES / name).read_text())}") and page.is_shown(),
    )
    frame, pulses, last = lines_of((EXAMPLES / name).read_text())
    names, before = ["empty"] * frame["nodes"], None
    for pulse in pulses:
        names, what = names_after(names, pulse), f"{name} pulse {pulse['pulse']}"
        page.show(pulse["pulse"], 0)
        trial.equal(f"{what}: place", page.text("#where"), f"pulse {pulse['pulse']} of {frame['pulses']}")
        trial.equal(f"{what}: ring", ring(page), ring_wanted(pulse, names, frame["modulus"]))
        word = {True: "yes", False: "no", None: "none"}
        wanted = f"agree {word[pulse['agree']]}" + (f", counts {word[pulse['counts']]}" if "counts" in pulse else "")
        trial.equal(f"{what}: verdict", page.text("#verdict"), wanted)
        compare_arrows(trial, page, what, pulse)
        for node in range(frame["nodes"]):
            page.show(pulse["pulse"], node)
            compare_node(trial, page, f"{what} node {node}", pulse, before, node)
        before = pulse["sent"]
    trial.holds(f"{name}: summary", page.text("#summary").startswith(f"{last['agreed']} of {last['of']} pulses agree"))
    compare_timeline(trial, page, name, pulses)


def try_examples(trial, page):
    """Every example opens: its run is shown, or the program's own words are."""
    names = page.value("[...document.querySelectorAll('#examples option')].map((it) => it.value)")[2:]
    wanted = [it.relative_to(EXAMPLES) for it in EXAMPLES.rglob("*.toml") if "solutions" not in it.parts]
    trial.equal("the menu of examples", sorted(names), sorted(map(str, wanted)))
    groups = page.value("[...document.querySelectorAll('#examples optgroup')].map((it) => it.label)")
    trial.equal("its first groups", groups[:3], ["Start", "Attacks and wrong programs", "Clocks of several rules"])
    captions = page.value("[...document.querySelectorAll('#examples option')].map((it) => it.textContent)")[2:]
    trial.holds("each example has a caption", all(re.match(r"\S+: \S", it) for it in captions), captions)
    for name in names:
        text = (EXAMPLES / name).read_text()
        page.choose("#examples", name)
        trial.holds(
            f"{name} is opened", page.until(f"document.querySelector('#text textarea').value === {json.dumps(text)}")
        )
        page.until("!lab.state.isRunning")
        told = asked(["run"], text)
        if told.startswith("refused"):
            trial.holds(f"{name} is rejected", page.until("!document.getElementById('rejected').hidden"))
            trial.equal(f"{name}: its refusal", page.text("#rejected p"), told.strip())
        else:
            trial.holds(
                f"{name} is shown", page.until(f"lab.state.run.text === {json.dumps(text)}"), page.text("#rejected")
            )
            trial.equal(
                f"{name}: its last line",
                page.text("#summary").split(" pulses")[0],
                re.search(r"agreed (\d+ of \d+)", told)[1],
            )
        if tomllib:
            trial.equal(f"{name}: its entries", page.value(ENTRIES), entries_wanted(text))


# What the page's reader of scenarios makes of the text: the top keys and the entries, with their values.
ENTRIES = """(() => {
  const plain = (keys) => Object.fromEntries(Object.entries(keys).map(([name, it]) => [name, it.value]));
  const found = lab.read(document.querySelector('#text textarea').value);
  return found && [plain(found.top), found.entries.map((it) => [it.name, plain(it.keys)])];
})()"""


def entries_wanted(text):
    try:
        whole = tomllib.loads(text)
    except tomllib.TOMLDecodeError:
        return None
    order = re.findall(r"^\[\[(\w+)\]\]", text, re.MULTILINE)
    taken = {name: iter(whole[name]) for name in set(order)}
    return [
        {name: it for name, it in whole.items() if name not in taken}, [[name, next(taken[name])] for name in order]
    ]


def try_notes(trial, page):
    """A scenario is broken: the note stands at its line, and the last good run stays."""
    page.open(FOUR)
    page.edit(FOUR.replace("modulus", "modulos"))
    trial.holds("a wrong key is rejected", page.until("!document.getElementById('rejected').hidden"))
    line = 1 + FOUR[: FOUR.index("modulus")].count("\n")
    trial.equal("the line that is marked", page.text("#text .numbers .wrong"), str(line))
    trial.equal("the note at the line", page.text("#text .note"), "refused scenario UnknownKey top")
    top = page.value("document.querySelector('#text .note').style.top")
    trial.equal("the place of the note", top, f"{(line - 1) * 18}px")
    trial.equal("what is said", page.texts("#rejected p"), [
        "refused scenario UnknownKey top", f"note: line {line}: unknown key modulos; did you mean modulus?"])
    trial.holds("the last good run stays", page.is_so("document.querySelectorAll('#ring .node').length === 4"))
    wanted = "The text is rejected. This is the last run that was accepted."
    trial.equal("it is named so", page.text("#stale"), wanted)
    trial.holds("the form waits", page.is_so("document.getElementById('load').disabled"))
    page.click("#to-line")
    caret = page.value("document.querySelector('#text textarea').selectionStart")
    trial.equal("the caret at the line", 1 + page.scenario()[:caret].count("\n"), line)
    page.edit(FOUR)
    trial.holds(
        "a corrected text is shown", page.is_shown() and page.is_so("document.getElementById('rejected').hidden")
    )
    trial.holds("the form waits no more", page.is_so("!document.getElementById('load').disabled"))
    try_rejected_load(trial, page)


def try_rejected_load(trial, page):
    """A change that the program rejects has no word of success."""
    page.show(1, 3)
    page.put("#image", "00 " * 9)
    page.click("#corrupt")
    wanted = "A memory is at most 8 bytes, each as two hexadecimal digits."
    trial.equal("a memory that is too long", page.text("#said"), wanted)
    page.value("document.getElementById('program').open = true")
    page.put("#program-editor textarea", "for j: sned 1 to j\n")
    page.choose("#kind", "text")
    page.click("#load")
    trial.holds("a wrong rule is rejected", page.until("!document.getElementById('rejected').hidden"))
    wanted = "This change has no run: see under the text. Ctrl+Z undoes it."
    trial.equal("what is said of it", page.text("#said"), wanted)
    page.click("#undo")
    trial.holds("an undo brings the run back", page.is_shown() and page.scenario() == FOUR, page.scenario())


# A program that takes long for a run of 1,000 pulses alone, whatever the machine.
SLOW = """#!/bin/sh
if [ "$1" = run ] && grep -q "pulses = 1000"; then exec sleep 60; fi
exec {program} "$@" < /proc/self/fd/0
"""


def try_limit(trial, _page, folder):
    """A run past the limit is no rejected text, and the page says how to raise the limit."""
    slow = folder.parent / "slow"
    slow.write_text(SLOW.format(program=shlex.quote(program())))
    slow.chmod(0o755)
    lab = Served("--seconds", 2, folder, environment={"CLOCKBED_PROGRAM": str(slow)})
    page = Page(folder.parent / "limited", lab)
    try:
        page.edit(MUCH)
        trial.holds("a long run ends", page.until("!document.getElementById('rejected').hidden"))
        wanted = "clockbed run took more than 2 seconds, the limit of this lab, and was ended: "
        wanted += "start the lab with --seconds 20 to allow more"
        trial.equal("what is said", page.texts("#rejected p"), [wanted])
        wanted = "This text has no run yet. This is the last run that was finished."
        trial.equal("the run before stays", page.text("#stale"), wanted)
    finally:
        page.close()
        trial.equal("Ctrl-C ends the limited lab", lab.end(), 0)


def try_hands(trial, page):
    """A say is loaded from pulse 3 on: the page shows what the program answers for the text in the editor."""
    page.open(FOUR)
    page.show(3, 2)
    page.choose("#kind", "say")
    for to, value in enumerate(["5", "0", "", "7"]):
        page.put(f"#values label:nth-child({to + 1}) input", value)
    page.click("#load")
    trial.holds(
        "the load is in the text", page.until("lab.state.run.text.includes('values = [5, 0, -1, 7]')"), page.scenario()
    )
    wanted = FOUR + '\n[[load]]\npulse = 3\nnodes = [2]\nprogram = "say"\nvalues = [5, 0, -1, 7]\n'
    trial.equal("the text after the load", page.scenario(), wanted)
    page.is_shown()
    report = asked(["run"], page.scenario()).splitlines()[1:-1]
    for pulse, line in enumerate(report, 1):
        page.show(pulse, 2)
        clocks = [it if it.isdecimal() else "-" for it, _, _ in ring(page)]
        trial.equal(
            f"after the load, pulse {pulse}",
            f"clocks {' '.join(clocks)} ",
            re.search(r"clocks .*? (?=settled)", line)[0],
        )
    try_other_hands(trial, page, wanted)


def try_other_hands(trial, page, loaded):
    page.show(3, 2)
    page.put("#values label:nth-child(1) input", "6")
    page.click("#load")
    trial.equal("a second load takes the place of the first", page.scenario(), loaded.replace("[5, 0", "[6, 0"))
    page.is_shown()
    hands = {
        "#unload": "[[unload]]\npulse = 3\nnode = 2\n",
        "#corrupt": "[[corrupt]]\npulse = 3\nnode = 2\nimage = [1, 2, 0, 0, 0, 0, 0, 0]\n",
        "#coin-1": "[[coin]]\npulse = 3\nnode = 2\nvalue = 1\n",
    }
    for selector, entry in hands.items():
        page.put("#image", "0102")
        page.click(selector)
        trial.holds(f"{selector} is in the text", entry in page.scenario(), page.scenario())
        trial.holds(f"{selector} runs", page.is_shown(), page.text("#rejected"))
    trial.holds("an unload takes the load before it out", "say" not in page.scenario(), page.scenario())
    trial.equal("no error", page.is_so("document.getElementById('rejected').hidden"), True)
    page.choose("#kind", "echo")
    page.click("#load")
    trial.holds(
        "a load takes the unload before it out", page.is_shown() and "unload" not in page.scenario(), page.scenario()
    )
    trial.equal("the program of the node", ring(page)[2][0], "echo")
    page.choose("#kind", "noise")
    page.click("#load")
    trial.holds("noise runs", page.is_shown() and 'program = "noise"' in page.scenario(), page.scenario())
    trial.holds("it has its version and key", "version = 4\nfaults" in page.scenario(), page.scenario())
    trial.holds("the new version and key are told", "version 4 and a key" in page.text("#said"), page.text("#said"))
    trial.equal("the noise of the node", ring(page)[2][0], "noise")
    for _ in range(7):
        page.click("#undo")
    trial.equal("seven undos", page.scenario(), FOUR)
    page.click("#redo")
    trial.equal("a redo", page.scenario(), loaded)


# The steps of a rule are below its lines, and once more all together.
STEPS_SHOWN = "#trace > .scroll, #trace > .all"


def try_traces(trial, page):
    """The trace of each node ends as its run did: as many steps, and the page says no error."""
    page.value("document.getElementById('why').open = true")
    for name, nodes in (
        ("splitter.toml", (0, 3)),
        ("one_corrupted.toml", (2,)),
        ("echo.toml", (3,)),
        ("clocks/middle_liar.toml", (0, 3)),
        ("clocks/convergence.toml", (0, 3)),
    ):
        page.open((EXAMPLES / name).read_text())
        frame, pulses, _ = lines_of((EXAMPLES / name).read_text())
        for pulse in pulses[:6]:
            for node in nodes:
                page.show(pulse["pulse"], node)
                steps = pulse["steps"][node]
                what = f"{name}: trace of node {node} in pulse {pulse['pulse']}"
                shown = f"document.querySelectorAll(':is({STEPS_SHOWN}) tbody tr').length === {steps} && "
                shown += f"document.querySelector('#trace').textContent.includes('memory {pulse['memory'][node]}')"
                trial.holds(what, page.until(shown), page.text("#trace"))
        trial.equal(f"{name}: nodes of the frame", len(ring(page)), frame["nodes"])
    page.value("document.getElementById('why').open = false")


RULE = """# The greatest, plus one
let best = 0
for j:
    if mail[j] < M and mail[j] > best: best = mail[j]
clock = (best + 1) % M
send clock
"""


def try_rules(trial, page):
    """A rule of one's own is checked and loaded, and the page says by which line its node moved."""
    page.open(FOUR)
    page.value("document.getElementById('program').open = true")
    page.choose("#program-kind", "rule")
    page.put("#program-editor textarea", RULE.replace("best = 0", "best == 0"))
    marked = "document.querySelector('#program-editor .numbers .wrong')?.textContent === '2'"
    trial.holds("a wrong rule is rejected at its line", page.until(marked), page.text("#program-said"))
    page.put("#program-editor textarea", RULE)
    accepted = page.until("document.querySelector('#program-said .right')")
    trial.holds("a rule is accepted", accepted, page.text("#program-said"))
    words = f"{shlex.quote(program())} compile --memory=8 | {shlex.quote(program())} verify --memory=8"
    told = subprocess.run(["sh", "-c", words], input=RULE, capture_output=True, text=True, check=True).stdout
    trial.equal("its verdict", page.text("#program-said .right"), told.strip())
    page.show(3, 2)
    page.choose("#kind", "text")
    page.click("#load")
    trial.holds("it is loaded", page.is_shown() and ring(page)[2][0] == "rule", page.text("#rejected"))
    trial.holds("the new version is told", "version 4" in page.text("#said"), page.text("#said"))
    try_lines(trial, page)


def try_lines(trial, page):
    """The folds of a rule have all steps of the trace, and the sentence has the numbers of the run."""
    page.open((EXAMPLES / "clocks/greatest_led.toml").read_text())
    page.value("document.getElementById('why').open = true")
    for pulse in (3, 4):
        page.show(pulse, 0)
        told = asked(["run", f"--trace={pulse}:0"], page.scenario())
        steps = re.findall(r"^step (\d+)", told, re.MULTILINE)
        best = re.findall(r"-> r7 = (\d+)$", told, re.MULTILINE)[-1]
        page.until(f"document.getElementById('because')?.textContent.includes('where best is {best}.')")
        trial.holds("the sentence", f"where best is {best}." in page.text("#because"), page.text("#because"))
        folded = page.texts("#trace > .of-line .steps tbody td:first-child")
        trial.equal("all steps are under their lines", folded, steps)
    page.open(page.value("lab.start"))
    page.show(4, 0)
    wanted = ["program", "clock", "mark", "settled", "coin", "steps"]
    trial.equal("the words of the memory", page.texts("#node dt"), wanted)
    page.value("document.getElementById('why').open = false")


# A clock that counts while all three messages have its value, with a name that rules don't know in the first.
UNKNOWN = "let same = sum j: mail[j] == clock\nsend clock\n"
COUNTS = """let same = count j: mail[j] == clock
if same >= 3: clock = (clock + 1) % M
else: clock = 0
send clock
"""


def try_own_clock(trial, page):
    """A rule becomes the clock of all nodes by one load, and the page says why node 0 falls back."""
    page.open(page.value("lab.start"))
    page.value("document.getElementById('program').open = true")
    page.choose("#program-kind", "rule")
    page.put("#program-editor textarea", UNKNOWN)
    hinted = page.until("document.querySelector('#program-said .soft')?.textContent.includes('count j')")
    trial.holds("an unknown name is followed by the known ones", hinted, page.text("#program-said"))
    trial.equal("the end of the note is at the line", page.text("#program-editor .note"), "unknown name sum")
    page.put("#program-editor textarea", COUNTS)
    page.show(1, 2)
    page.choose("#kind", "own")
    page.click("#load")
    page.is_shown()
    frame, _, last = lines_of(page.scenario())
    trial.equal("all nodes run the rule as their clock", (frame["clock"], last["agreed"], last["of"]), ("own", 13, 13))
    wanted = "The clock is the program text now; node 2 runs it from pulse 1 on. Ctrl+Z undoes it."
    trial.equal("what is said of it", page.text("#said"), wanted)
    page.show(5, 2)
    page.choose("#kind", "say")
    page.put("#values label:nth-child(1) input", "7")
    page.click("#load")
    page.is_shown()
    page.show(6, 0)
    page.value("document.getElementById('why').open = true")
    wanted = "Line 3 of the rule: same >= 3 doesn't hold, as same is 2. So the clock falls back from 4 to 0."
    page.until("document.getElementById('because')")
    trial.equal("why node 0 falls back", page.text("#because"), wanted)
    wanted = "Node 0 received what was sent in pulse 5: 4 from nodes 0 and 1; 7 from node 2."
    trial.equal("what it received", page.text("#heard"), wanted)
    page.click("#undo")
    trial.equal("an undone change is said no more", page.text("#said"), "")
    page.value("document.getElementById('why').open = false")


def next_of(row):
    """The clocks of a row of next states of the attack in pulse 2, and what its choice adds to the scenario."""
    clocks, sent, coins = re.match(r"clocks (.*), agree \w+: node 2 sends ([^;]*)(.*)", row).groups()
    messages = dict(reversed(it.split(" to ")) for it in sent.split(", "))
    values = [-1 if messages.get(str(to), "none") == "none" else int(messages[str(to)]) for to in range(3)]
    edit = f'\n[[load]]\npulse = 2\nnodes = [2]\nprogram = "say"\nvalues = {values}\n'
    for coin, node in re.findall(r"coin (\d) of node (\d)", coins):
        edit += f"\n[[coin]]\npulse = 3\nnode = {node}\nvalue = {coin}\n"
    return clocks, edit


def next_clocks(scenario):
    """The clocks of nodes 0 and 1 in pulse 3, for all messages of node 2 in pulse 2 and all coins."""
    found = set()
    for one, other, coins in itertools.product(range(-1, 9), range(-1, 9), ((0, 0), (0, 1), (1, 0), (1, 1))):
        edit = f'\n[[load]]\npulse = 2\nnodes = [2]\nprogram = "say"\nvalues = [{one}, {other}, -1]\n'
        for node, coin in enumerate(coins):
            edit += f"\n[[coin]]\npulse = 3\nnode = {node}\nvalue = {coin}\n"
        told = lines_of(scenario + edit)[1][2]["clocks"]
        found.add(f"{told[0]} {told[1]}")
    return found


def try_next(trial, page):
    """Each next state is what the program answers, a click takes it, and one undo takes it back."""
    attack(page)
    page.show(2, 2)
    before = page.scenario()
    page.value("document.getElementById('next-part').open = true")
    page.click("#next")
    trial.holds("next states are shown", page.until("document.querySelector('#nexts li')"), page.text("#nexts"))
    rows = page.texts("#nexts li span")
    for row in rows:
        clocks, edit = next_of(row)
        told = lines_of(before + edit)[1][2]["clocks"]
        trial.equal(f"the next state of {row}", clocks, f"{told[0]} {told[1]}")
    shown = {next_of(it)[0] for it in rows}
    trial.equal("the next states are those of all messages and coins", shown, next_clocks(before))
    trial.equal("a state is shown once", len(rows), len(shown))
    page.click("#nexts li:last-child button")
    trial.holds("a choice is taken", page.until("lab.state.at === 3 && !lab.state.isStale"), page.text("#where"))
    wanted = next_of(rows[-1])[0].split()
    trial.equal("it leads there", [it for it, _, _ in ring(page)][:2], wanted)
    page.click("#undo")
    trial.equal("one undo takes it back", page.scenario(), before)
    page.value("document.getElementById('next-part').open = false")


def decided(rule, claims):
    """What tools/all_sizes.py prints for these claims, as lines."""
    with tempfile.TemporaryDirectory() as room:
        paths = [pathlib.Path(room) / it for it in ("clock.rule", "page.claims")]
        for path, text in zip(paths, (rule, claims)):
            path.write_text(text, encoding="utf-8")
        words = [sys.executable, str(TOP / "tools/all_sizes.py"), *map(str, paths)]
        return subprocess.run(words, capture_output=True, text=True, check=False).stdout.strip().split("\n")


def try_sizes(trial, page):
    """The theorem answers for the built-in clock alone, and claims have the answers of tools/all_sizes.py."""
    page.open((EXAMPLES / "explore/four_nodes.toml").read_text())
    page.click("#sizes-tab")
    page.click("#theorem")
    trial.holds("the theorem is shown", page.until("document.querySelector('#theorem-said .answer')"))
    wanted = asked(["explore", "--states", "1"], page.scenario()).strip().split("\n")
    trial.equal("it is what explore says", page.texts("#theorem-said p"), wanted)
    page.click("#decide")
    trial.holds("a clock without a rule is told", page.until(shows("#decided", "has no rule")), page.text("#decided"))
    page.open(page.value("lab.start"))
    page.click("#theorem")
    trial.holds("no theorem is told", page.until(shows("#theorem-said", "No theorem")), page.text("#theorem-said"))
    if tomllib is None:
        return
    claims, rule = page.value("document.getElementById('claims').value"), tomllib.loads(page.scenario())["rule"]
    agreement = (EXAMPLES / "properties/agreement.claims").read_text()
    right = claims, agreement
    wrong = [it.replace("3 * f", "2 * f") for it in right] + [it.replace("p.clock ==", "p.clok ==") for it in right]
    for text in (*right, *wrong):
        page.put("#claims", text)
        page.click("#decide")
        page.until("document.getElementById('decide-cancel').disabled")
        lines = page.texts("#decided p")
        trial.equal("the answer to a claim", lines[: len(decided(rule, text))], decided(rule, text))
        if page.value("Boolean(document.getElementById('refutation'))"):
            page.click("#refutation")
            trial.holds("a counterexample runs", page.is_shown() and "# Byzantine" in page.scenario(), page.scenario())
            page.open(page.value("lab.start"))
    page.put("#claims", claims)
    page.click("#node-tab")


# The verdict that each cell of the rows of properties shows: a no is red, a yes is green, and none has no colour.
JUDGED = """[...document.querySelectorAll('#judged canvas')].map((it) => {
  const { data } = it.getContext('2d').getImageData(0, 1, it.width, 1);
  const word = (at) => (data[at + 3] === 0 ? 'none' : data[at] > data[at + 1] ? 'no' : 'yes');
  return Array.from({ length: it.width }, (_, at) => word(4 * at));
})"""


def try_properties(trial, page):
    """An example with properties has a row for each, and a wrong property is told."""
    path = EXAMPLES / "properties/vote.toml"
    claims = path.with_suffix(".claims")
    page.choose("#examples", "properties/vote.toml")
    trial.holds("the example's properties are judged", page.until("document.querySelector('#judged canvas')"))
    trial.equal("they are in the field", page.value("document.getElementById('properties').value"), claims.read_text())
    lines = list(map(json.loads, asked(["run", "--json", "--claims", str(claims)], path.read_text()).splitlines()))
    pulses, found = [it["claims"] for it in lines if "claims" in it], [it for it in lines if "claim" in it]
    trial.equal("a cell for each pulse", page.value(JUDGED), [list(it) for it in zip(*pulses)])
    titles = page.value("[...document.querySelectorAll('#judged canvas')].map((it) => it.title.split('\\n')[0])")
    trial.equal("the property is its row's title", titles, [f"line {it['line']}: {it['claim']}" for it in found])
    page.put("#properties", "always p.tick == 0")
    refused = page.until(shows("#properties-said", "refused claims UnknownName line 1"))
    trial.holds("a wrong property is told", refused, page.text("#properties-said"))
    page.choose("#examples", "four_clocks.toml")
    trial.holds("another example has none", page.until("document.getElementById('properties').value === ''"))
    trial.holds("and no row", page.until("!document.querySelector('#judged canvas')"))


def shows(selector, words):
    return f"document.querySelector({json.dumps(selector)}).textContent.includes({json.dumps(words)})"


def try_time(trial, page):
    """The diagram has an arrow for each message of the chosen node, and a click on an event shows it."""
    page.open((EXAMPLES / "splitter.toml").read_text())
    page.show(9, 3)
    page.click("#time-tab")
    first, last = map(int, re.findall(r"\d+", page.text("#time-name"))[1:])
    trial.holds("the pulse shown is in the diagram", first <= 9 <= last, (first, last))
    pulses = lines_of(page.scenario())[1][first - 1 : last - 1]
    told = [it["sent"][i][j] for it in pulses for i in range(4) for j in range(4) if 3 in (i, j)]
    numbers = page.texts("#time .number")
    trial.equal("the messages of node 3", numbers, [str(it) for it in told if it is not None])
    page.click(f"#time .event[data-pulse='{first}'][data-node='1'] circle")
    trial.equal("a click shows an event", page.value("[lab.state.at, lab.state.node]"), [first, 1])
    page.click("#node-tab")


def try_editor(trial, page):
    """The colours are those of the text that is seen, and a word is completed by keys."""
    page.open(page.value("lab.start"))
    lines = page.scenario().split("\n")
    shown = page.texts("#text .colours > div")
    trial.equal("the lines that are coloured", shown, lines[: len(shown)])
    kind = "(it) => it.firstElementChild?.className"
    kinds = page.value(f"[...document.querySelectorAll('#text .colours > div')].map({kind})")
    trial.equal("the kind of a key and of a rule's word", [kinds[4], kinds[13]], ["name", "name"])
    at = page.scenario().index("if support <") + len("if sup")
    page.value("document.querySelector('#text textarea').focus()")
    page.value(f"document.activeElement.setSelectionRange({at}, {at + len('port')})")
    page.key("Backspace")
    page.key(" ", CONTROL)
    trial.equal("the words that begin so", page.texts("#text .completion li"), ["support"])
    page.key("Enter")
    trial.equal("the word is completed", page.scenario(), page.value("lab.start"))
    for before, first in (("let v = ", "count"), ("rule = '''\n", "state")):
        at = page.scenario().index(before) + len(before)
        page.value(f"document.activeElement.setSelectionRange({at}, {at})")
        page.key(" ", CONTROL)
        trial.equal("the word that fits first", page.text("#text .completion li"), first)
        page.key("Escape")


def try_steps(trial, page):
    """A counterexample of a rule is shown as steps: the clocks of each pulse, and why each moved."""
    page.open(page.value("lab.start"))
    page.click("#explore-tab")
    page.click("#explore")
    page.until("document.getElementById('counterexample')")
    page.click("#counterexample")
    page.is_shown()
    _, pulses, _ = lines_of(page.scenario())
    shown = page.until(f"document.querySelectorAll('#steps li').length === {3 * len(pulses)}")
    heads = [re.match(r"Pulse \d+: clocks (.*), agree", it)[1] for it in page.texts("#steps .step button")]
    clocks = [" ".join("-" if it is None else str(it) for it in pulse["clocks"]) for pulse in pulses]
    trial.equal("the clocks of the steps", heads, clocks)
    reasons = [it for it in page.texts("#steps li") if re.match(r"Node [01]\. Line \d", it)]
    trial.holds("each clock has its line", shown and len(reasons) == 2 * len(pulses), page.text("#steps"))
    page.click("#node-tab")


def try_exploration(trial, page):
    """A counterexample of three nodes is found, opened and played."""
    page.click("#explore-tab")
    page.open(
        explored(4).replace("nodes = 4", "nodes = 3").replace("[0, 1, 2]", "[0, 1]").replace(
            "modulus = 60000", "modulus = 8"
        ),
    )
    page.click("#explore")
    trial.holds(
        "a counterexample is found", page.until("document.getElementById('counterexample')"), page.text("#explored")
    )
    told = asked(["explore", "--states=2000"], page.scenario())
    trial.equal("what explore says", page.text("#explored .answer"), told.splitlines()[0].removeprefix("# "))
    page.click("#counterexample")
    page.until("lab.state.run.frame.pulses === 3")
    trial.holds("it is opened at the pulse in question", page.is_shown() and page.text("#where") == "pulse 3 of 3")
    trial.equal("the counterexample's text", page.scenario(), told)
    trial.equal("its verdict", page.text("#verdict"), "agree no")
    trial.equal("the nodes that diverge", page.value("[...document.querySelectorAll('#ring .diverging')].length"), 2)
    page.choose("#speed", "5")
    page.click("#play")
    trial.holds("it plays to the end", page.until("lab.state.at >= 2") and page.until("lab.state.at === 3"))
    trial.holds("and stops there", page.until("document.getElementById('play').textContent === 'Play'"))
    try_lasso(trial, page)
    try_counter(trial, page)


def try_counter(trial, page):
    """A counter is asked for its stabilisation alone, from any start of its one byte."""
    page.open((TOP / "examples/explore/counter_of_2.toml").read_text(encoding="utf-8"))
    page.choose("#question", "stabilisation")
    page.choose("#start", "any")
    page.put("#start-bytes", "4=0..2")
    page.click("#explore")
    shown = "document.getElementById('explored').textContent.includes('stabilises within 7 pulses')"
    trial.holds("the counter's stabilisation time", page.until(shown), page.text("#explored"))
    page.choose("#question", "both")
    try_every_start(trial, page)
    page.choose("#start", "zero")
    try_odds(trial, page)


def try_every_start(trial, page):
    """All memories and all messages of the built-in clocks."""
    page.open((TOP / "examples/explore/four_nodes.toml").read_text(encoding="utf-8"))
    page.choose("#start", "every")
    page.click("#explore")
    shown = "document.getElementById('explored').textContent.includes('730 states')"
    trial.holds("every start", page.until(shown), page.text("#explored"))


def try_odds(trial, page):
    """The odds of the built-in clocks, which aren't asked with agreement alone."""
    page.open((TOP / "examples/explore/four_nodes.toml").read_text(encoding="utf-8"))
    page.put("#odds", "8")
    page.click("#explore")
    shown = "document.getElementById('explored').textContent.includes('odds: at least')"
    trial.holds("odds", page.until(shown), page.text("#explored"))
    told = asked(["explore", "--states=2000", "--odds=8"], page.scenario())
    trial.holds("the odds that explore tells", told.splitlines()[-1] in page.text("#explored"), page.text("#explored"))
    page.choose("#question", "agreement")
    trial.holds("no odds of agreement", page.value("document.getElementById('odds').disabled"), "enabled")
    page.choose("#question", "both")
    page.put("#odds", "")


def held_off():
    """A clock of one's own that counts by two, so that it never synchronises."""
    clock = "ldxw r7, [r1+0]\nadd64 r7, 2\nmod64 r7, 4\nstxw [r1+0], r7\nmov64 r0, 0\nexit\n"
    head = explored(4).replace("nodes = 4", "version = 3\nnodes = 3").replace("modulus = 60000", "modulus = 4")
    return head.replace("\n\n", f"\nclock = '''\n{clock}'''\n\n", 1).replace("[0, 1, 2]", "[0, 1]")


def try_lasso(trial, page):
    """A run that is kept from synchronising for ever plays round."""
    page.open(held_off())
    page.click("#explore")
    trial.holds(
        "a lasso is found", page.until("document.getElementById('counterexample')"), page.text("#explored")
    )
    page.click("#counterexample")
    page.until("lab.state.run.loop")
    page.is_shown()
    first, last = page.value("[lab.state.run.loop.from, lab.state.run.loop.until]")
    told = asked(["explore"], held_off())
    trial.holds("it is the one that explore names", f"# pulses {first} to {last} " in told, told)
    trial.equal("it is opened at its first pulse", page.text("#where").split(" of")[0], f"pulse {first}")
    page.choose("#speed", "15")
    page.click("#play")
    trial.holds("it plays round", all(page.until(f"lab.state.at === {it}") for it in (last, first, last, first)))
    page.click("#play")
    page.choose("#speed", "1")


def try_cancel(trial, page, lab):
    """A search is cancelled: its process ends."""
    page.open(explored(7))
    page.until("document.querySelectorAll('#correct input').length === 7")
    page.click("#explore")
    trial.holds("a long search runs", until(lab.programs))
    page.click("#explore-cancel")
    trial.holds("a cancelled search ends", until(lambda: not lab.programs(), 5), lab.programs())
    trial.holds(
        "it is said",
        page.until("document.getElementById('explored').textContent.includes('cancelled')"),
        page.text("#explored"),
    )


def try_program(trial, page):
    """A program that is rejected is explained at its line."""
    page.open(FOUR)
    page.value("document.getElementById('program').open = true")
    page.choose("#program-kind", "asm")
    text = "# counts on\nldxw r2, [r1+0]\nadd64 r2, 1\nmov64 r1, 3\ncall send\nmov64 r0, 0\nexit\n"
    page.put("#program-editor textarea", text)
    reason = "rule 9, BadArgument: r2 may be 4294967296, and a number sent is below 4294967296"
    trial.holds(
        "a program is rejected", page.until("document.querySelector('#program-said .row')"), page.text("#program-said")
    )
    said = page.texts("#program-said > p")
    trial.equal(
        "why it is rejected",
        said,
        ["refused rule 9 slot 3", "line 5 slot 3 call send # r1 = 3, r2 = 1..4294967296", reason],
    )
    trial.equal(
        "the note at the line",
        [page.text("#program-editor .note"), page.text("#program-editor .numbers .wrong")],
        [reason, "5"],
    )
    page.put("#program-editor textarea", text.replace("add64", "add32"))
    trial.holds("a corrected program is accepted", page.until("document.querySelector('#program-said .right')"))
    trial.equal("its verdict", page.text("#program-said .right"), "accepted slots 6 announced 6")
    page.click("#node-tab")
    page.show(2, 3)
    page.choose("#kind", "text")
    page.click("#load")
    trial.holds("it is loaded", page.is_shown() and ring(page)[3][0] == "asm", page.text("#rejected"))
    page.choose("#examples", "splitter_jumps_back.toml")
    page.until("document.getElementById('explain')")
    page.click("#explain")
    trial.holds(
        "a rejected load is explained",
        page.until("document.querySelector('#program-said .row')?.textContent.startsWith('line 11 slot 10 ')"),
    )


def try_sweep(trial, page):
    """Stabilisation times of some seeds: each bar has as many as the program's lines, and a click opens one."""
    text = (EXAMPLES / "luck/four.toml").read_text().replace("pulses = 1000", "pulses = 60")
    page.open(text)
    page.click("#sweep-tab")
    page.put("#keys", "12")
    page.click("#sweep")
    trial.holds(
        "a sweep ends",
        page.until("document.getElementById('swept').textContent.startsWith('12 of 12')"),
        page.text("#swept"),
    )
    rows = [it.split(",") for it in asked(["sweep", "--keys=1..12"], text).splitlines()[1:]]
    labels = page.value("[...document.querySelectorAll('#plot .bar')].map((it) => it.getAttribute('aria-label'))")
    told = {}
    for label in labels:
        span, count = re.match(r"(.*): (\d+) seeds?;", label).groups()
        told[span] = int(count)
    for span, count in told.items():
        ends = [int(it) for it in re.findall(r"\d+", span)]
        keys = [row for row in rows if (not row[4] if not ends else row[4] and ends[0] <= int(row[4]) <= ends[-1])]
        trial.equal(f"the bar of {span}", count, len(keys))
    trial.equal("all seeds", sum(told.values()), 12)
    first = next(at for at, it in enumerate(labels) if told[it.split(": ")[0]] > 0)
    page.click(f"#plot .bar:nth-of-type({first + 1}) .room")
    trial.holds(
        "a click opens a seed",
        page.until("!lab.state.run.text.includes('key = 1\\n') || lab.state.at > 0") and page.is_shown(),
    )
    key = re.search(r"^key = (\d+)$", page.scenario(), re.MULTILINE)[1]
    since = next(row[4] for row in rows if row[0] == key)
    trial.equal("it is opened at its time", page.text("#where"), f"pulse {since or 60} of 60")
    try_no_seed(trial, page)


def try_no_seed(trial, page):
    """Coins without a seed are told, and a click draws them by one."""
    page.open(FOUR)
    page.click("#sweep")
    trial.holds(
        "coins without a seed are told", page.until("document.getElementById('swept').textContent.includes('NoKey')")
    )
    page.click("#draw-coins")
    trial.holds(
        "a click draws them by a seed",
        page.is_shown() and 'coins = "chacha"\nkey = 1\n' in page.scenario(),
        page.scenario(),
    )
    page.click("#node-tab")


def try_hostile(trial, page):
    """A scenario that holds elements is shown as text."""
    evil = "<script>window.pwned = 1</script><img src=x onerror='window.pwned = 1'>"
    page.edit(f"# {evil}\n{evil} = 1\n")
    trial.holds("a text of elements is rejected", page.until("!document.getElementById('rejected').hidden"))
    evil = evil.replace("'", '"')
    load = f"\n[[load]]\npulse = 2\nnodes = [3]\nprogram = \"asm\"\ntext = '''\nmov64 r0, 0 # {evil}\nexit\n'''\n"
    page.edit(FOUR + load)
    trial.holds("a program of elements runs", page.is_shown(), page.text("#rejected"))
    page.show(2, 3)
    page.value("document.querySelector('#program-text').open = true")
    trial.holds("it is shown as text", "<script>" in page.text("#program-text pre"), page.text("#program-text pre"))
    trial.equal(
        "elements of it",
        page.value("[document.querySelectorAll('main script, main img').length, window.pwned ?? null]"),
        [0, None],
    )


def try_files(trial, page, folder):
    """A scenario is saved, opened again, and sent as an address."""
    page.open(FOUR)
    page.click("#save")
    page.put("#save-name", "class.toml")
    page.key("Enter")
    trial.holds("a save", until((folder / "class.toml").exists))
    trial.equal("what is saved", (folder / "class.toml").read_text(), FOUR)
    page.until("!document.getElementById('save-dialog').open")
    page.edit(FOUR + "# more\n")
    page.click("#save")
    page.key("Enter")
    trial.holds("a file is not replaced unasked", page.until("!document.getElementById('save-replace').hidden"))
    page.key("Enter")
    trial.holds(
        "it is replaced if one says so", until(lambda: (folder / "class.toml").read_text().endswith("# more\n"))
    )
    page.open(FOUR)
    page.choose("#files", "class.toml")
    trial.holds("a file is opened", page.until("document.querySelector('#text textarea').value.endsWith('# more\\n')"))
    page.click("#link")
    page.until("document.getElementById('link-dialog').open")
    address = page.value("document.getElementById('link-text').value")
    trial.holds(
        "an address has no token", "/#scenario=" in address and address.index("#") - address.index("//") < 30, address
    )
    page.key("Escape")
    page.open(FOUR)
    page.click("#open-link")
    page.put("#open-text", address)
    page.click("#open-form button[type=submit]")
    trial.holds(
        "an address opens its scenario",
        page.until("document.querySelector('#text textarea').value.endsWith('# more\\n')"),
    )
    page.open(FOUR)
    page.value(f"location.hash = {json.dumps(address[address.index('#'):])}")
    trial.holds(
        "a fragment opens its scenario",
        page.until("document.querySelector('#text textarea').value.endsWith('# more\\n')"),
    )
    page.open(FOUR)
    page.value(f"location.href = {json.dumps(address)}")
    trial.holds(
        "a link is followed to the lab of this browser",
        page.until("document.querySelector('#text textarea')?.value.endsWith('# more\\n')") and page.is_shown(),
        page.value("location.href"),
    )


NAME_OF = "(it) => it.id || it.getAttribute('aria-label') || it.textContent"


def focused(page):
    """A name for what has the focus."""
    return page.value(f"document.activeElement === document.body ? '' : ({NAME_OF})(document.activeElement)")


def tab_to(page, name, most=90):
    """Presses Tab until this has the focus."""
    for _ in range(most):
        if focused(page) == name:
            return True
        page.key("Tab")
    return False


def try_tab(trial, page):
    """Tab reaches every control that is shown."""
    page.open(FOUR)
    page.show(1, 0)
    reached = set()
    for _ in range(70):
        page.key("Tab")
        reached.add(focused(page))
    controls = "button:not(:disabled), select, input, textarea, summary, [tabindex='0']"
    can_have_focus = "(it) => it.checkVisibility() && it.tabIndex >= 0"
    found = f"[...document.querySelectorAll({json.dumps(controls)})].filter({can_have_focus})"
    wanted = page.value(f"{found}.map({NAME_OF})")
    trial.equal("controls that Tab doesn't reach", sorted(set(wanted) - reached), [])


def try_keyboard(trial, page):
    """An attack by the keyboard alone, from the menu of examples to the trace."""
    try_tab(trial, page)
    trial.holds("Tab reaches the examples", tab_to(page, "examples"))
    page.key("ArrowDown", times=2)
    second = page.value("document.getElementById('examples').options[2].value")
    trial.holds(
        "the down arrow opens an example",
        page.until(f"lab.state.run?.text === {json.dumps((EXAMPLES / second).read_text())}") and page.is_shown(),
        page.scenario(),
    )
    page.choose("#examples", second)
    page.open(FOUR)
    time.sleep(0.3)
    trial.equal("a file that comes late is dropped", page.scenario(), FOUR)
    page.show(1, 0)
    trial.holds("Tab reaches the timeline", tab_to(page, "timeline"))
    page.key("ArrowRight", times=2)
    page.key("ArrowDown", times=3)
    trial.equal("arrows show a pulse and a node", page.text("#node-name"), "Node 3 after pulse 3")
    trial.holds("Tab reaches the program's menu", tab_to(page, "kind"))
    page.key("ArrowUp", times=4)
    tab_to(page, "message to node 0")
    page.write("1")
    page.key("Tab")
    page.write("2")
    page.key("Enter")
    trial.holds(
        "Enter loads",
        page.until("lab.state.run.text.includes('values = [1, 2, -1, -1]')") and page.is_shown(),
        page.scenario(),
    )
    trial.holds("Tab reaches the trace", tab_to(page, "Why: the steps of this node in this pulse"))
    page.key("Enter")
    trial.holds("Enter opens it", page.until("document.querySelector('.steps')"), page.text("#trace"))
    page.key("Enter")
    page.key("z", CONTROL)
    trial.equal("Ctrl+Z undoes the load", page.scenario(), FOUR)
    page.key(" ")


def try_typing(trial, page):
    """What is typed by keys is run, and undone by Ctrl+Z."""
    page.open(FOUR)
    at = FOUR.index("pulses = 10") + len("pulses = 10")
    page.value("document.querySelector('#text textarea').focus()")
    page.value(f"document.activeElement.setSelectionRange({at}, {at})")
    page.key("Backspace", times=2)
    page.write("7")
    trial.holds(
        "what is typed is run",
        page.until("lab.state.run.frame.pulses === 7") and page.is_shown(),
        page.text("#rejected"),
    )
    page.key("z", CONTROL)
    trial.equal("Ctrl+Z in the text", page.scenario(), FOUR)
    page.key("z", CONTROL | SHIFT)
    trial.holds("Ctrl+Shift+Z in the text", "pulses = 7" in page.scenario())


# Steps over 200 pulses, each until it is drawn: their times in milliseconds.
STEPS = """(async () => {
  const times = [];
  for (let at = 1; at <= 200; at++) {
    const begun = performance.now();
    document.body.dispatchEvent(new KeyboardEvent('keydown', { key: 'ArrowRight', bubbles: true }));
    await new Promise(requestAnimationFrame);
    times.push(performance.now() - begun);
  }
  return times;
})()"""


def try_speed(trial, page, judges):
    """64 nodes and 1,000 pulses open in a second and step without a stutter, by a program that is as fast itself. The
    times are only printed unless they are to be judged: other work on the machine counts in them."""
    begun = time.monotonic()
    try:
        subprocess.run([program(), "run"], input=MUCH.encode(), stdout=subprocess.DEVNULL, check=True, timeout=1)
    except subprocess.TimeoutExpired:
        print("try_lab: the speed is not measured: the program takes more than 1 s for this run by itself")
        return
    alone, times = time.monotonic() - begun, []
    for key in (1, 2, 3):
        begun = time.monotonic()
        page.value(f"lab.tell('open', {json.dumps(MUCH.replace('key = 1', f'key = {key}'))}, '')")
        page.until(f"lab.state.run.text.includes('key = {key}\\n') && lab.state.run.inside.has(1)")
        times.append(time.monotonic() - begun)
    told = page.ask("Runtime.evaluate", expression=STEPS, awaitPromise=True, returnByValue=True)
    steps = sorted(told["result"]["value"])
    print(f"try_lab: 64 nodes, 1,000 pulses: {min(times):.2f} s to open ({alone:.2f} s by the program)", flush=True)
    print(f"try_lab: a step {steps[len(steps) // 2]:.0f} ms, at most {steps[-1]:.0f} ms", flush=True)
    if judges:
        trial.holds("64 nodes and 1,000 pulses open in a second", min(times) <= 1, times)
        trial.holds("all but two of 200 steps take at most 100 ms", steps[-3] <= 100, steps[-5:])


def attack(page):
    """The attack of docs/LAB.md on the first scenario of the page."""
    page.open(page.value("lab.start"))
    page.show(1, 2)
    page.choose("#kind", "say")
    page.put("#values label:nth-child(1) input", "1")
    page.put("#values label:nth-child(2) input", "0")
    page.click("#load")
    page.until("!document.getElementById('violation').hidden")
    page.click("#violation")
    return page.is_shown() and page.show(3, 2)


def try_attack(trial, page):
    """From the first scenario to clocks that diverge, by one load."""
    trial.holds("the attack runs", attack(page), page.text("#rejected"))
    trial.equal("the clocks after the attack", [it for it, _, _ in ring(page)], ["2", "1", "say"])
    trial.equal("its verdict", page.text("#verdict"), "agree no, counts yes")


def show_trace(page):
    attack(page)
    page.value("document.getElementById('why').open = true")
    page.show(4, 0)
    page.until("document.getElementById('because')?.textContent.includes('from 2 to 0')")


def show_rejected(page):
    page.choose("#examples", "splitter_reads_past.toml")
    page.until("document.getElementById('explain')")
    page.click("#explain")
    page.until("document.querySelector('#program-said .row')")


def show_sweep(page):
    page.open((EXAMPLES / "luck/four.toml").read_text().replace("pulses = 1000", "pulses = 60"))
    page.click("#sweep-tab")
    page.put("#keys", "200")
    page.click("#sweep")
    page.until("document.getElementById('swept').textContent.startsWith('200 of')")
    page.click("#plot .bar:nth-of-type(4) .room")
    page.is_shown()


def take_pictures(page, folder):
    """Five states, to be looked at; docs/LAB.md shows some of them."""
    folder.mkdir(parents=True, exist_ok=True)
    states = {
        "attack": (attack, 800, False), "trace": (show_trace, 800, False), "sweep": (show_sweep, 800, False),
        "rejected": (show_rejected, 860, True),
    }
    page.value("lab.state.isProgramOpen = false")
    for name, (show, high, is_dark) in states.items():
        page.value("document.querySelectorAll('details').forEach((it) => { it.open = false; })")
        page.click("#node-tab")
        page.size(1280, high, is_dark)
        show(page)
        page.value("scrollTo(0, 0)")
        page.picture(folder / f"{name}.png")
    page.click("#node-tab")
    page.size(800, 900, True)
    page.open((EXAMPLES / "many_liars.toml").read_text())
    page.show(7, 50)
    page.picture(folder / "many.png")
    page.size(1280, 800)


def try_page(trial, options):
    room = pathlib.Path(tempfile.mkdtemp())
    folder = room / "folder"
    folder.mkdir()
    lab = Served("--seconds", options.seconds, folder)
    page = Page(room / "user", lab)
    parts = [
        (try_class, ()), (try_attack, ()), (try_typing, ()), (try_notes, ()), (try_limit, (folder,)), (try_hands, ()),
        (try_rules, ()), (try_own_clock, ()), (try_next, ()), (try_sizes, ()), (try_properties, ()),
        (try_time, ()), (try_editor, ()), (try_steps, ()), (try_exploration, ()), (try_cancel, (lab,)),
        (try_program, ()), (try_sweep, ()), (try_hostile, ()), (try_files, (folder,)), (try_keyboard, ()),
        (try_traces, ()), (try_speed, (options.judge_speed,)),
        *((compare_run, (name,)) for name in COMPARED), (try_examples, ()),
    ]
    try:
        for part, more in parts:
            begun = time.monotonic()
            part(trial, page, *more)
            what = " ".join([part.__name__, *(it for it in more if isinstance(it, str))])
            print(f"try_lab: {what} {time.monotonic() - begun:.0f} s", flush=True)
        if options.pictures:
            take_pictures(page, options.pictures)
        trial.equal("what the page throws", page.exceptions(), [])
        urls = {it["params"]["request"]["url"] for it in page.events if it.get("method") == "Network.requestWillBeSent"}
        here = (f"http://127.0.0.1:{lab.port}/", "data:")
        trial.equal("what the page loads from elsewhere", [it for it in urls if not it.startswith(here)], [])
    finally:
        page.close()
        trial.holds("no process is left when the page has gone", until(lambda: not lab.programs(), 5))
        trial.equal("Ctrl-C ends the lab", lab.end(), 0)
        shutil.rmtree(room, ignore_errors=True)


def main():
    words = argparse.ArgumentParser(description=__doc__, formatter_class=argparse.RawDescriptionHelpFormatter)
    words.add_argument(
        "--seconds", type=float, default=60, metavar="N", help="Time limit of a run in seconds [default: 60]"
    )
    words.add_argument("--pictures", type=pathlib.Path, metavar="FOLDER", help="Folder for pictures of five states")
    words.add_argument("--server", action="store_true", help="Try the server alone")
    words.add_argument("--page", action="store_true", help="Try the page alone")
    words.add_argument("--judge-speed", action="store_true", help="Fail if 64 nodes and 1,000 pulses are slow")
    options, trial = words.parse_args(), Trial()
    if not os.access(program(), os.X_OK):
        sys.exit(f"{program()} is not there: build it by ./clockbed --prove")
    if not options.page:
        try_server(trial, options)
    if not options.server and not shutil.which(os.environ.get("BROWSER", "chromium")):
        print("try_lab: the page is skipped: there is no browser chromium (on Debian: apt-get install chromium)")
    elif not options.server:
        try_page(trial, options)
    print(f"try_lab: {trial.tried} tried, {trial.wrong} wrong")
    return 1 if trial.wrong else 0


if __name__ == "__main__":
    sys.exit(main())
