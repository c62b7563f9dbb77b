#!/usr/bin/env python3
"""Tries the page of tools/play.py in a headless Chromium: tools/try_play.py [PICTURE.png]

The run of examples/splitter.toml is played by real keys and clicks, and what the page then shows is compared with the
lines. PICTURE becomes its picture in pulse 9. BROWSER names the browser (chromium), and CLOCKBED_PROGRAM another
program than the one that was built here. It is no part of the gate, which needs no browser.
"""
import base64
import json
import os
import pathlib
import shutil
import subprocess
import sys
import tempfile
import time

sys.dont_write_bytecode = True
from play import page

TOP = pathlib.Path(__file__).resolve().parent.parent
BUILT = TOP / "crates/clockbed/out/clockbed"
# In pulse 9 of examples/splitter.toml node 0 has clock 1, which itself, node 2 and the Byzantine node sent it.
SUPPORT = "Support of 1: 3 of the 3 that the rule asks."
KEYS = {"ArrowRight": 39, "ArrowLeft": 37, "Home": 36, "End": 35, "ArrowDown": 40, " ": 32, "m": 77}


class Browser:
    """A browser that is spoken to over two pipes, each message ended by a zero byte."""

    def __init__(self, room, path):
        self.count, self.rest, self.session, self.events = 0, b"", None, []
        self.start(room)
        target = self.ask("Target.createTarget", url="about:blank")["targetId"]
        self.session = self.ask("Target.attachToTarget", targetId=target, flatten=True)["sessionId"]
        for what in ("Page", "Runtime", "Network"):
            self.ask(what + ".enable")
        self.ask("Page.navigate", url=path.as_uri())
        self.wait_for("Page.loadEventFired")

    def start(self, room):
        flags = ["--headless", "--no-sandbox", "--disable-gpu", "--window-size=1240,880", "--remote-debugging-pipe"]
        words = [os.environ.get("BROWSER", "chromium"), *flags, f"--user-data-dir={room}", "about:blank"]
        here, browser_writes = os.pipe()
        browser_reads, there = os.pipe()

        def as_three_and_four():
            """The browser reads from 3 and writes to 4. Two steps, since a pipe may have one of these numbers."""
            os.dup2(browser_reads, 60)
            os.dup2(browser_writes, 61)
            os.dup2(60, 3)
            os.dup2(61, 4)

        quiet = {"stdout": subprocess.DEVNULL, "stderr": subprocess.DEVNULL}
        self.process = subprocess.Popen(words, preexec_fn=as_three_and_four, pass_fds=(3, 4), **quiet)
        os.close(browser_reads)
        os.close(browser_writes)
        self.given, self.taken = os.fdopen(there, "wb", 0), os.fdopen(here, "rb", 0)

    def next_message(self):
        while b"\0" not in self.rest:
            more = self.taken.read(65536)
            if not more:
                raise SystemExit("try_play: the browser has gone")
            self.rest += more
        message, self.rest = self.rest.split(b"\0", 1)
        return json.loads(message)

    def ask(self, method, **parameters):
        self.count += 1
        message = {"id": self.count, "method": method, "params": parameters}
        if self.session:
            message["sessionId"] = self.session
        self.given.write(json.dumps(message).encode() + b"\0")
        while True:
            answer = self.next_message()
            if answer.get("id") == self.count:
                if "error" in answer:
                    raise SystemExit(f"try_play: {method}: {answer['error']}")
                return answer["result"]
            self.events.append(answer)

    def wait_for(self, event):
        while not any(it.get("method") == event for it in self.events):
            self.events.append(self.next_message())

    def value(self, script):
        return self.ask("Runtime.evaluate", expression=script, returnByValue=True)["result"].get("value")

    def press(self, key, times=1):
        for _ in range(times):
            for kind in ("rawKeyDown", "keyUp"):
                self.ask("Input.dispatchKeyEvent", type=kind, key=key, windowsVirtualKeyCode=KEYS[key])

    def click(self, selector, part=0.5):
        script = f"(() => {{ const it = document.querySelector({json.dumps(selector)}).getBoundingClientRect();"
        x, y = self.value(script + f" return [it.x + it.width * {part}, it.y + it.height / 2]; }})()")
        for kind in ("mousePressed", "mouseReleased"):
            self.ask("Input.dispatchMouseEvent", type=kind, x=x, y=y, button="left", clickCount=1)

    def picture(self, path):
        data = self.ask("Page.captureScreenshot", format="png")["data"]
        pathlib.Path(path).write_bytes(base64.b64decode(data))

    def close(self):
        self.process.terminate()
        self.process.wait()


class Trial:
    def __init__(self, browser, pulses):
        self.browser, self.pulses, self.tried, self.wrong = browser, pulses, 0, 0

    def equal(self, what, shown, wanted):
        self.tried += 1
        if shown != wanted:
            self.wrong += 1
            print(f"wrong: {what}: {shown!r} is shown, and not {wanted!r}")

    def stands_at(self, what, number):
        """The page shows this pulse, with its clocks, its verdict and an arrow for each mail to another node."""
        pulse = self.pulses[number - 1]
        self.equal(what, self.browser.value("document.getElementById('where').textContent"), f"pulse {number} of 24")
        shown = "[...document.querySelectorAll('#bed .node')].map((it) => it.querySelector('text').textContent)"
        clocks = ["asm" if it is None else str(it) for it in pulse["clocks"]]
        self.equal(f"{what}: clocks", self.browser.value(shown), clocks)
        self.mail_is(what, pulse["sent"])
        verdict = self.browser.value("document.querySelector('#verdict div').textContent")
        self.equal(f"{what}: verdict", verdict, f"agree {'yes' if pulse['agree'] else 'no'}")

    def mail_is(self, what, sent):
        numbers = "[...document.querySelectorAll('#bed .number')].map((it) => it.textContent)"
        told = [str(it) for i, row in enumerate(sent) for j, it in enumerate(row) if it is not None and i != j]
        self.equal(f"{what}: mail", self.browser.value(numbers), told)

    def memory_is(self, what, number, node):
        shown = self.browser.value("document.querySelector('#chosen code').textContent.replaceAll(' ', '')")
        self.equal(what, shown, self.pulses[number - 1]["memory"][node])
        head = self.browser.value("document.querySelector('#chosen p').textContent")
        self.equal(f"{what}: node", head.split(":")[0], f"Node {node}")


def play(trial, browser, picture):
    trial.stands_at("the beginning", 1)
    trial.equal("the address", browser.value("location.hash"), "#pulse=1")
    browser.press("ArrowLeft")
    trial.stands_at("left of the first pulse", 1)
    browser.press("ArrowRight", 8)
    trial.stands_at("right, eight times", 9)
    trial.memory_is("the node at the beginning", 9, 0)
    trial.equal("its support", browser.value("document.getElementById('support').textContent"), SUPPORT)
    trial.equal("the address of pulse 9", browser.value("location.hash"), "#pulse=9")
    if picture:
        browser.picture(picture)
    browser.click("#bed .node[data-node='2'] circle")
    trial.memory_is("a click on a node", 9, 2)
    browser.press("ArrowDown")
    trial.memory_is("down", 9, 3)
    browser.press("m")
    trial.mail_is("m", trial.pulses[7]["sent"])
    browser.press("m")
    browser.press("ArrowLeft")
    trial.stands_at("left", 8)
    browser.press("End")
    trial.stands_at("End", 24)
    browser.press("ArrowRight")
    trial.stands_at("right of the last pulse", 24)
    browser.click("#strip", 20.5 / 24)
    trial.stands_at("a click in the strip", 21)
    browser.press("Home")
    trial.stands_at("Home", 1)
    browser.press(" ")
    time.sleep(1.8)
    browser.press(" ")
    trial.stands_at("playing for 1.8 seconds", 3)
    browser.click("#on")
    trial.stands_at("a click on the button >", 4)
    browser.value("location.hash = '#pulse=12'")
    time.sleep(0.3)
    trial.stands_at("another address", 12)


def opens_at_the_violation(trial, browser, room, program):
    """A run that violates agreement opens there; other texts are told what is expected."""
    scenario = (TOP / "examples/three_part.toml").read_bytes()
    (room / "parted.html").write_text(page(lines_of(program, scenario)), encoding="utf-8")
    browser.ask("Page.navigate", url=(room / "parted.html").as_uri())
    time.sleep(0.5)
    trial.equal("a violation", browser.value("document.getElementById('where').textContent"), "pulse 3 of 3")
    for words, status, part in ([], 1, "run --json"), (["--help"], 0, "play.py"):
        done = subprocess.run([TOP / "tools/play.py", *words], input="?", capture_output=True, text=True, check=False)
        trial.equal(f"play.py {words}", (done.returncode, part in done.stdout + done.stderr), (status, True))


def lines_of(program, scenario):
    done = subprocess.run([program, "run", "--json"], input=scenario, capture_output=True, check=True)
    return done.stdout.decode()


def main():
    program = os.path.realpath(os.environ.get("CLOCKBED_PROGRAM", BUILT))
    scenario = (TOP / "examples/splitter.toml").read_bytes()
    lines = lines_of(program, scenario)
    pulses = [json.loads(it) for it in lines.splitlines()[1:-1]]
    room = pathlib.Path(tempfile.mkdtemp())
    (room / "page.html").write_text(page(lines), encoding="utf-8")
    browser = Browser(room / "user", room / "page.html")
    try:
        trial = Trial(browser, pulses)
        play(trial, browser, sys.argv[1] if len(sys.argv) > 1 else None)
        opens_at_the_violation(trial, browser, room, program)
        asked = [it["params"]["request"]["url"] for it in browser.events if it["method"] == "Network.requestWillBeSent"]
        trial.equal("what the page loads", [it for it in asked if not it.startswith("file:")], [])
        thrown = [it for it in browser.events if it["method"] == "Runtime.exceptionThrown"]
        trial.equal("what the page throws", thrown, [])
    finally:
        browser.close()
        shutil.rmtree(room, ignore_errors=True)
    print(f"try_play: {trial.tried} tried, {trial.wrong} wrong")
    return 1 if trial.wrong else 0


if __name__ == "__main__":
    sys.exit(main())
