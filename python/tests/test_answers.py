"""Holds the classes of the answers against the schema, the page and the answers of the program."""
import dataclasses
import enum
import json
import pathlib
import re
import tomllib
import typing
import unittest
from fractions import Fraction

import clockbed
from clockbed import (
    Bench, ClaimedSweep, Explored, Frame, Mean, Odds, Pulse, Run, Scenario, Staged, Summary, Sweep, decode, program,
)  # fmt: skip

TOP = pathlib.Path(__file__).resolve().parents[2]
SCHEMA = json.loads((TOP / "docs/lines.schema.json").read_text(encoding="utf-8"))["$defs"]
CLASSES = {"frame": Frame, "pulse": Pulse, "summary": Summary, "staged": Staged}
# Definitions of the schema that are no object, and why they have no class.
WITHOUT_CLASS = {
    "number": "an int",
    "numberOrNone": "an int or None",
    "node": "an int",
    "count": "an int",
    "pulseNumber": "an int",
    "verdict": "a bool or None",
    "row": "a tuple",
    "claims": "Claims reads the text of `run --claims`",
    "property": "Claims reads the text of `run --claims`",
}
DAMAGES = {
    Frame: [{"nodes": "4"}, {"clock": "clock"}, {"nodes": None}],
    Pulse: [{"coins": 1}, {"ran": ["clocks"]}, {"agree": 1}, {"sent": [1]}],
    Summary: [{"of": None}, {"in_step_since": "1"}],
}
SPLITTER = TOP / "examples/splitter.toml"


def members_of(definition):
    """The members of a definition of the schema with their own schemas."""
    found = dict(definition.get("properties", {}))
    for one in definition.get("oneOf", []):
        found.update(members_of(one))
    return found


def required_in(definition):
    return set(definition.get("required", [])) | set(definition.get("then", {}).get("required", []))


def words_in(definition):
    """The words of an enumeration of the schema, also of a list of them."""
    words = definition.get("enum") or definition.get("items", {}).get("enum") or []
    return {it for it in words if isinstance(it, str)}


def enum_in(hint):
    """The enumeration in a type hint, if there is one."""
    if isinstance(hint, type) and issubclass(hint, enum.Enum):
        return hint
    return next(filter(None, map(enum_in, typing.get_args(hint))), None)


class VersionTest(unittest.TestCase):
    def test_version_is_that_of_the_program(self):
        project = tomllib.loads((TOP / "python/pyproject.toml").read_text(encoding="utf-8"))["project"]
        told = program.ask(["--version"]).text.split("\n")[0]
        self.assertEqual(told, f"clockbed {project['version']}")


class SchemaTest(unittest.TestCase):
    def test_each_definition_has_a_class_or_a_reason(self):
        self.assertEqual(set(SCHEMA), set(CLASSES) | set(WITHOUT_CLASS))

    def test_each_member_has_a_field(self):
        for name, cls in CLASSES.items():
            fields = {it.name for it in dataclasses.fields(cls)}
            self.assertEqual(set(members_of(SCHEMA[name])), fields, name)

    def test_fields_have_defaults_where_members_may_be_missing(self):
        for name, cls in CLASSES.items():
            without = {it.name for it in dataclasses.fields(cls) if it.default is dataclasses.MISSING}
            self.assertLessEqual(without, required_in(SCHEMA[name]), name)

    def test_words_are_those_of_the_schema(self):
        compared = 0
        for name, cls in CLASSES.items():
            hints = typing.get_type_hints(cls)
            for member, definition in members_of(SCHEMA[name]).items():
                words = words_in(definition)
                if words:
                    self.assertEqual(words, {it.value for it in enum_in(hints[member])}, f"{name}.{member}")
                    compared += 1
        self.assertEqual(compared, 3)

    def test_classes_are_frozen(self):
        classes = [it for it in vars(clockbed).values() if isinstance(it, type) and dataclasses.is_dataclass(it)]
        self.assertGreater(len(classes), 15)
        for cls in classes:
            self.assertTrue(cls.__dataclass_params__.frozen, cls.__name__)


class RunTest(unittest.TestCase):
    def test_every_line_keeps_its_members(self):
        text = program.ask(["run", "--json"], SPLITTER.read_bytes()).text
        run = Run.read(text)
        for line, answer in zip(text.splitlines(), [run.setup, *run.pulses, run.summary]):
            plain = {name: it for name, it in dataclasses.asdict(answer).items()}
            for name, value in json.loads(line).items():
                if name == "staged":
                    plain[name] = [{key: it for key, it in change.items() if it is not None} for change in plain[name]]
                self.assertEqual(json.loads(json.dumps(plain[name])), value, name)

    def test_damaged_lines_are_rejected(self):
        run = Scenario.read(SPLITTER).run()
        first, pulse, *_, last = map(json.loads, run.text.splitlines())
        for cls, good in ((Frame, first), (Pulse, pulse), (Summary, last)):
            decode.decoded(cls, good)
            for damage in DAMAGES[cls]:
                with self.assertRaises(decode.NoAnswer, msg=f"{cls.__name__} {damage}"):
                    decode.decoded(cls, good | damage)

    def test_violations(self):
        self.assertEqual(Scenario.read(TOP / "examples/splitter_of_three.toml").run().violations, (6, 10))

    def test_picture(self):
        picture = Scenario.read(SPLITTER).run()._repr_html_()
        self.assertEqual(picture, (TOP / "examples/splitter.svg").read_text(encoding="utf-8"))

    def test_trace(self):
        trace = Scenario.read(TOP / "examples/clocks/greatest.toml").trace(3, 0)
        self.assertEqual((trace.pulse, trace.node, trace.coin, trace.mail), (3, 0, 0, (2, 2, 2, None)))
        step = trace.steps[27]
        self.assertEqual((step.number, step.slot, step.instruction), (28, 39, "add32 r0, 1"))
        self.assertEqual((step.read, step.wrote, step.rule_line), ("r0 = 2", "r0 = 3", 4))


class ExploredTest(unittest.TestCase):
    def test_members_are_those_of_the_answer(self):
        text = program.ask(["explore", "--json"], Bench().scenario().text).text
        self.assertEqual(set(json.loads(text)), {it.name for it in dataclasses.fields(Explored)})

    def rows_of_the_page(self):
        """The members that the page names, and the words in their rows."""
        page = (TOP / "docs/EXPLORE_REFERENCE.md").read_text(encoding="utf-8")
        table = page.partition("## JSON\n")[2].partition("```")[0]
        for names, value in re.findall(r"^\| (`.*?) \| (.*) \|$", table, re.M):
            for name in re.findall(r"`(\w+)`", names):
                yield name, set(re.findall(r"`([a-z]+)`", value))

    def test_members_are_those_of_the_page(self):
        named = {name for name, _ in self.rows_of_the_page()}
        self.assertEqual(named, {it.name for it in dataclasses.fields(Explored)})

    def test_words_are_those_of_the_page(self):
        enums = {name: enum_in(hint) for name, hint in typing.get_type_hints(Explored).items()}
        compared = {name for name, found in enums.items() if found}
        self.assertEqual(compared, {"ask", "by", "agreement", "stabilisation", "limit"})
        for name, words in self.rows_of_the_page():
            if name in compared:
                self.assertEqual(words, {it.value for it in enums[name]}, name)

    def test_every_kind_of_start(self):
        bench = Bench()
        self.assertIsNone(bench.explore().start)
        self.assertEqual(bench.explore(start="every").start, "every")
        cells = bench.explore(start="any", cells="0=0..7,4=0,1", said=[5, 6]).start
        self.assertEqual([(it.first, it.last, it.values) for it in cells.bytes], [(0, 0, ((0, 7),)), (4, 4, ((0, 1),))])
        self.assertEqual(cells.messages, ((5, 6),))
        images = [f"{clock:02x}000000{mark:02x}{'00' * 11}" for clock in range(4) for mark in range(2)]
        self.assertEqual(bench.explore(start="any", images=images).start.images, tuple(images))

    def test_counterexample_is_a_scenario(self):
        answer = Bench(3, 1).explore()
        self.assertEqual((answer.agreement, answer.violated_in), ("violated", 3))
        self.assertEqual(Scenario(answer.scenario).run().violations, (3,))

    def test_unbounded(self):
        rule = """
state broken
let v = mail[0] if mail[0] < M else 0
clock = (v + 1) % M
if mail[3] == 4 and broken == 0: clock, broken = (v + 2) % M, 1
send clock
"""
        answer = Bench(M=4, rule=rule, memory=8).explore(ask="stabilisation")
        self.assertEqual((answer.stabilisation, answer.pulses), ("unbounded", None))

    def test_by_theorem(self):
        answer = Bench(40, 13).explore()
        self.assertEqual((answer.by, answer.agreement, answer.pulses), ("theorem", "holds", 10))

    def test_reach(self):
        reach = Bench().explore(odds=500, reach=Fraction(99, 100)).odds.reach
        self.assertEqual((reach.parts, reach.of, reach.pulses), (99, 100, 435))

    def test_bounds_are_rounded_to_their_side(self):
        self.assertEqual(Mean(1, 3).at_most, 0.34)
        self.assertEqual((Mean(1, 3).at_least, Mean(1, 3, least_parts=1).at_least), (None, 0.33))
        self.assertEqual(Odds(3, (0, 2), None, None).percent(1), 66.6)

    def test_odds_that_were_not_asked(self):
        odds = Bench().explore(odds=4).odds
        self.assertEqual(odds.within(2), 536870912 / 2**32)
        with self.assertRaises(ValueError):
            odds.within(5)


class SweepTest(unittest.TestCase):
    def test_rows_are_those_of_the_page(self):
        sweep = Scenario.read(TOP / "examples/luck/four.toml").sweep(range(7, 11))
        self.assertEqual([it.in_step_since for it in sweep.rows], [36, 1, 20, 7])
        self.assertEqual(sweep.since, (1, 7, 20, 36))
        self.assertEqual(sweep.median, 7)

    def test_a_bench_is_the_example(self):
        keys = range(1, 41)
        example = Scenario.read(TOP / "examples/luck/seven.toml").sweep(keys)
        self.assertEqual(Bench(7, 2).sweep(keys).since, example.since)

    def test_a_median_past_the_last_pulse(self):
        lines = "key,agreed,of,first_disagreement,in_step_since,steps\n1,9,9,,,3\n2,9,9,,,3\n"
        self.assertIsNone(Sweep.read(lines).median)

    def test_a_cell_with_properties_is_a_number_or_empty(self):
        sweep = ClaimedSweep.read("key,violated_2,since_3\n1,0,4\n2,3,\n")
        self.assertEqual(sweep.columns, ("violated_2", "since_3"))
        self.assertEqual([(it.key, it.cells) for it in sweep.rows], [(1, (0, 4)), (2, (3, None))])

    def test_with_properties_a_row_is_that_of_its_run(self):
        bench, text = Bench(4, 1).noise(), "always p.clock == q.clock\neventually always p.clock == q.clock"
        for row in bench.sweep_claims(text, range(3, 6), pulses=30).rows:
            always, since = bench.claims(text, pulses=30, key=row.key).each
            wrong = sum(it is False for it in always.verdicts)
            self.assertEqual(row.cells[0], wrong)
            self.assertEqual(since.answer.startswith(f"holds from pulse {row.cells[1]} on"), row.cells[1] is not None)


if __name__ == "__main__":
    unittest.main()
