"""Tries how the program is found, asked, cancelled and asked often at once; and each docstring's examples."""
import contextlib
import doctest
import importlib
import os
import pathlib
import pkgutil
import signal
import stat
import subprocess
import sys
import tempfile
import time
import unittest
from unittest import mock

import clockbed
from clockbed import Bench, Fault, NotFinished, ProgramMissing, Rejected, Scenario, plot, program, table

TOP = pathlib.Path(__file__).resolve().parents[2]
PATIENCE = 20
# More states than can be tried in the time that a test has.
ENDLESS = "Bench(10, 3, 8).explore(start='every', states=10**9)"
MEANS = {(4, 2): 19.5, (4, 4): 51, (4, 8): 87, (7, 2): 115.5, (7, 4): 566.67, (7, 8): 950.33}
SILENT_MEANS = {4: 15, 7: 63}


def load_tests(_loader, tests, _pattern):
    for module in pkgutil.iter_modules(clockbed.__path__):
        tests.addTest(doctest.DocTestSuite(importlib.import_module(f"clockbed.{module.name}")))
    tests.addTest(doctest.DocTestSuite(clockbed))
    return tests


def programs_of(session_leader):
    """The processes that a process started, and that run."""
    children = pathlib.Path(f"/proc/{session_leader}/task").glob("*/children")
    with contextlib.suppress(FileNotFoundError):
        return [int(it) for path in children for it in path.read_text().split()]
    return []


def wait_for(holds):
    end = time.monotonic() + PATIENCE
    while not holds() and time.monotonic() < end:
        time.sleep(0.02)
    return holds()


def is_running(process):
    try:
        return pathlib.Path(f"/proc/{process}/stat").read_text().rpartition(") ")[2][0] != "Z"
    except FileNotFoundError:
        return False


class FindingTest(unittest.TestCase):
    def test_clockbed_names_it(self):
        with mock.patch.dict(os.environ, {"CLOCKBED": sys.executable}):
            self.assertEqual(program.find(), os.path.abspath(sys.executable))

    def test_clockbed_names_nothing(self):
        for named in ("/nowhere/clockbed", "/"):
            with mock.patch.dict(os.environ, {"CLOCKBED": named}), self.assertRaisesRegex(ProgramMissing, named):
                Bench().run()

    def test_beside_then_path(self):
        with tempfile.TemporaryDirectory() as folder:
            there = pathlib.Path(folder) / "clockbed"
            there.write_text("#!/bin/sh\n")
            there.chmod(there.stat().st_mode | stat.S_IXUSR)
            with mock.patch.dict(os.environ, {"CLOCKBED": "", "PATH": folder}):
                with mock.patch.object(program, "BESIDE", there.with_name("nothing")):
                    self.assertEqual(program.find(), str(there))
                    there.unlink()
                    self.assertRaisesRegex(ProgramMissing, "set CLOCKBED", program.find)
                with mock.patch.object(program, "BESIDE", TOP / "clockbed"):
                    self.assertEqual(program.find(), str(TOP / "clockbed"))


class ErrorTest(unittest.TestCase):
    def rejection(self, question):
        with self.assertRaises(Rejected) as caught:
            question()
        why = caught.exception
        self.assertTrue(why.note, why)
        return why.part, why.kind, why.line, why.column

    def test_a_rule(self):
        self.assertEqual(self.rejection(Bench(rule="clock = mail[0").run), ("scenario", "BadRule", 1, 15))
        self.assertEqual(self.rejection(Bench(rule="\nclock = x").verify), ("rule", "UnknownName", 2, 9))
        adversary = Bench().adversary("send 1\nfor j: sendd j to j")
        self.assertEqual(self.rejection(adversary.run), ("scenario", "BadRule", 2, 8))

    def test_a_scenario(self):
        four = (TOP / "examples/four_clocks.toml").read_text(encoding="utf-8")
        line = four.split("\n").index('coins = "ones"') + 1
        no_toml = Scenario(four.replace('"ones"', "ones"))
        self.assertEqual(self.rejection(no_toml.run), ("scenario", "NotToml", line, 9))
        unknown_node = Scenario.read(TOP / "examples/splitter_unknown_node.toml")
        self.assertEqual(self.rejection(unknown_node.run)[1:], ("NotAccepted", 15, 9))
        self.assertEqual(self.rejection(Bench(n=200).run), ("scenario", "OutOfRange", 2, None))

    def test_a_program(self):
        question = lambda: Bench().verify(asm="mov64 r0, r5\nexit")
        self.assertEqual(self.rejection(question), ("rule", "4", None, None))

    def test_words(self):
        with self.assertRaisesRegex(TypeError, "did you mean 'odds'"):
            Bench().explore(odd=3)
        with self.assertRaisesRegex(Fault, "1 to 100000"):
            Bench().explore(odds=0)
        with self.assertRaisesRegex(ValueError, "range"):
            Bench().sweep(range(1, 9, 2))
        with self.assertRaisesRegex(TypeError, "no 'modulus'"):
            table(Bench.explore, modulus=[2])

    def test_not_finished(self):
        with self.assertRaises(NotFinished) as caught:
            Bench().explore(ask="stabilisation", depth=3)
        self.assertEqual((caught.exception.answer.limit, caught.exception.answer.states), ("depth", 16))

    def test_bytes_that_are_no_text(self):
        text = bytes(range(128, 256)).decode("utf-8", "surrogateescape")
        self.assertEqual(self.rejection(Scenario(text).run)[1], "NotToml")


class AskingTest(unittest.TestCase):
    def test_a_large_scenario(self):
        four = (TOP / "examples/four_clocks.toml").read_text(encoding="utf-8")
        comment = f"# {'x' * 998}\n" * 1000
        self.assertEqual(Scenario(comment + four).run().summary, Scenario(four).run().summary)

    def test_progress(self):
        seen = []
        Bench(16, 5).sweep(range(1, 201), pulses=100, progress=seen.append)
        self.assertRegex(seen[0], r"^\d+ of 200 keys")
        self.assertRegex(seen[-1], r"^200 of 200 keys")

    def test_a_failing_progress(self):
        def fail(line):
            raise KeyError(line)

        self.assertRaises(KeyError, Bench().sweep, range(1, 101), 10, fail)

    def test_a_note_beside_progress(self):
        with self.assertRaises(Rejected) as caught:
            Bench(rule="clock = x").explore(progress=lambda line: None)
        self.assertIn("unknown name x", caught.exception.note)

    def test_the_means_of_the_page(self):
        def means(bench):
            return {"any": bench.explore(odds=64).mean, "silent": bench.silent().explore(odds=64).mean}

        rows = table(means, n=[(4, 1), (7, 2)], M=[2, 4, 8])
        self.assertEqual({(it["n"], it["M"]): round(it["any"], 2) for it in rows}, MEANS)
        self.assertEqual({it["n"]: round(it["silent"], 2) for it in rows}, SILENT_MEANS)

    def test_a_table(self):
        rows = table(lambda bench: bench.silent().run(pulses=3), n=[(4, 1), (7, 2)])
        self.assertEqual([(it["n"], it["f"], it["of"]) for it in rows], [(4, 1, 2), (7, 2, 2)])
        self.assertEqual(len(str(rows).split("\n")), 3)
        self.assertIn("<th>in_step_since</th>", rows._repr_html_())

    def test_a_failing_question(self):
        self.assertRaises(Rejected, table, lambda bench: bench.run(), n=[(4, 1), (200, 1)])

    def test_packages_that_may_be_missing(self):
        sweep = Bench().sweep(range(1, 3), pulses=5)
        for module, question in (("pandas", sweep.frame), ("matplotlib.pyplot", lambda: plot({"sweep": sweep}))):
            with mock.patch.dict(sys.modules, {module: None}), self.assertRaisesRegex(ImportError, "apt-get install"):
                question()

    @unittest.skipUnless(importlib.util.find_spec("pandas"), "pandas is missing")
    def test_data_frames(self):
        self.assertEqual(Bench().run(pulses=3).frame().shape, (12, 9))
        self.assertEqual(list(Bench().sweep(range(1, 4), pulses=5).frame().key), [1, 2, 3])


class CancellingTest(unittest.TestCase):
    def interrupted(self, question):
        """What is left of the programs of a Python that asks this question and gets Ctrl-C."""
        environment = {**os.environ, "PYTHONPATH": str(TOP / "python")}
        # A job in the background begins with an interrupt that is ignored.
        heard = "import signal\nsignal.signal(signal.SIGINT, signal.default_int_handler)"
        words = [sys.executable, "-c", f"{heard}\nfrom clockbed import Bench, table\n{question}"]
        with subprocess.Popen(words, env=environment, stderr=subprocess.PIPE) as python:
            self.assertTrue(wait_for(lambda: programs_of(python.pid)), "no program was started")
            time.sleep(0.2)
            programs = programs_of(python.pid)
            python.send_signal(signal.SIGINT)
            try:
                _, told = python.communicate(timeout=PATIENCE)
            except subprocess.TimeoutExpired:
                python.kill()
                raise
        left = [it for it in programs if is_running(it)]
        for it in left:
            os.kill(it, signal.SIGKILL)
        self.assertIn(b"KeyboardInterrupt", told)
        return left

    def test_an_exploration(self):
        self.assertEqual(self.interrupted(ENDLESS), [])

    def test_with_progress(self):
        self.assertEqual(self.interrupted(ENDLESS.replace("start=", "progress=print, start=")), [])

    def test_a_table(self):
        asked_again = f"\n try: {ENDLESS}\n finally: {ENDLESS}"
        question = f"def ask(bench):{asked_again}\ntable(ask, workers=2, M=[2, 4, 8])"
        self.assertEqual(self.interrupted(question), [])


if __name__ == "__main__":
    unittest.main()
