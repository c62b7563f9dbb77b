"""Scenarios and benches: what to ask the program about."""
from __future__ import annotations

import contextlib
import dataclasses
import difflib
import os
import pathlib
import tempfile
from collections.abc import Iterable, Iterator, Sequence
from dataclasses import dataclass
from fractions import Fraction
from typing import Union

from clockbed import program
from clockbed.answers import ClaimedSweep, Claims, Explored, ProgramKind, Run, Sweep, Trace, Verified
from clockbed.errors import NotFinished
from clockbed.program import Progress

Option = Union[int, str, Fraction, Iterable[int], Iterable[str]]
EXPLORE_OPTIONS = (
    "ask", "mail", "start", "bytes", "cells", "images", "said", "states", "depth", "memory", "odds", "reach",
)  # fmt: skip


@dataclass(frozen=True)
class Scenario:
    """Is the text of a scenario (docs/SCENARIOS.md).

    >>> Scenario('nodes = 3').run()
    Traceback (most recent call last):
    clockbed.errors.Rejected: refused scenario MissingKey faults
    note: faults is missing: faults is a whole number, 0 to 2
    """

    text: str

    @classmethod
    def read(cls, path: str | os.PathLike[str]) -> Scenario:
        """Reads a file."""
        return cls(pathlib.Path(path).read_text(encoding="utf-8", errors="surrogateescape"))

    def run(self) -> Run:
        """Runs the scenario."""
        return Run.read(program.ask(["run", "--json"], self.text).text)

    def claims(self, properties: str) -> Claims:
        """Runs the scenario, and judges each pulse by properties, a line each (docs/PROPERTIES.md).

        >>> Bench().scenario(3).claims("always p.tick == 0")
        Traceback (most recent call last):
        clockbed.errors.Rejected: refused claims UnknownName line 1 column 10
        note: line 1, column 10 of the claims: names are n, f, M, none, p.me, p.clock and p.before.clock, with the words of the rule; likewise of q
        """
        with text_file(properties, ".claims") as file:
            return Claims.read(program.ask(["run", "--claims", file], self.text).text)

    def trace(self, pulse: int, node: int) -> Trace:
        """Returns each step of a node in a pulse."""
        return Trace.read(program.ask(["run", "--trace", f"{pulse}:{node}"], self.text).text)

    def sweep(self, keys: range, progress: Progress = None) -> Sweep:
        """Runs the scenario once for each of the seeds, on all processors."""
        return Sweep.read(program.ask(["sweep", "--keys", span_of(keys)], self.text, progress).text)

    def sweep_claims(self, properties: str, keys: range, progress: Progress = None) -> ClaimedSweep:
        """Does as `sweep`, and judges each run by properties, a line each (docs/PROPERTIES.md)."""
        with text_file(properties, ".claims") as file:
            words = ["sweep", "--keys", span_of(keys), "--claims", file]
            return ClaimedSweep.read(program.ask(words, self.text, progress).text)

    def explore(self, progress: Progress = None, **options: Option) -> Explored:
        """Searches all runs. Options are those of `clockbed explore`, as `odds=64` for `--odds 64`.

        `mail`, `bytes` and `said` can be numbers, `images` texts, and `reach` a `Fraction`. Raises `NotFinished` if a
        limit ended the search.
        """
        with option_words(options) as words:
            output = program.ask(["explore", "--json", *words], self.text, progress)
        answer = Explored.read(output.text)
        if output.status == program.NOT_FINISHED:
            raise NotFinished(answer)
        return answer


@contextlib.contextmanager
def option_words(options: dict[str, Option]) -> Iterator[list[str]]:
    """Returns the words of the options. A list of memories can be long, so it is a file while the words are used."""
    with contextlib.ExitStack() as stack:
        words = []
        for name, value in options.items():
            if name not in EXPLORE_OPTIONS:
                near = difflib.get_close_matches(name, EXPLORE_OPTIONS, 1)
                fix = f"did you mean {near[0]!r}?" if near else f"it has {', '.join(EXPLORE_OPTIONS)}"
                raise TypeError(f"explore has no option {name!r}; {fix}")
            if name == "images" and not isinstance(value, str):
                words += ["--images", f"@{stack.enter_context(images_file(value))}"]
            else:
                words += [f"--{name}", option_text(value)]
        yield words


@contextlib.contextmanager
def images_file(images: object) -> Iterator[str]:
    if not isinstance(images, Iterable):
        raise TypeError(f"images are memories in hexadecimal, not {images!r}")
    with text_file("".join(f"{it}\n" for it in images), ".txt") as file:
        yield file


def span_of(keys: range) -> str:
    """Returns the seeds as the word of `--keys`."""
    if keys.step != 1 or not keys:
        raise ValueError(f"seeds are a range with at least one seed and a step of 1, as range(1, 101), not {keys}")
    return f"{keys[0]}..{keys[-1]}"


@contextlib.contextmanager
def text_file(text: str, suffix: str) -> Iterator[str]:
    with tempfile.NamedTemporaryFile("w", suffix=suffix, encoding="utf-8") as file:
        file.write(text)
        file.flush()
        yield file.name


def option_text(value: Option) -> str:
    if isinstance(value, Fraction):
        return f"{value.numerator}/{value.denominator}"
    if isinstance(value, (str, int)):
        return str(value)
    return ",".join(map(str, value))


@dataclass(frozen=True)
class Load:
    """Is a load of a bench: a program for some nodes from a pulse on."""

    pulse: int
    nodes: tuple[int, ...]
    program: ProgramKind
    text: str | None = None
    values: tuple[int, ...] | None = None

    def toml(self) -> str:
        lines = [f"[[load]]\npulse = {self.pulse}\nnodes = {list(self.nodes)}\nprogram = {quoted(self.program.value)}"]
        if self.text is not None:
            lines.append(f"text = {quoted(self.text)}")
        if self.values is not None:
            lines.append(f"values = {list(self.values)}")
        return "\n".join(lines)


def quoted(text: str) -> str:
    """Returns the text as a TOML string. Between three quotes the program can name lines of the text.

    >>> print(quoted("clock = 1"))
    '''
    clock = 1
    '''
    """
    if "\n" not in text and text.isalnum():
        return f'"{text}"'
    body = text.strip("\n")
    if "'''" in body:
        raise ValueError("a rule can't have three quotes ''' in a row")
    return f"'''\n{body}\n'''"


@dataclass(frozen=True)
class Bench:
    """Is a bench: n nodes that allow for f faults, with clocks below M. Each question returns an answer of its own.

    `rule` is the text of the clock's rule (docs/RULES.md), or None for the built-in clock. `correct` are the nodes that
    run it: by default the first n - f. All other nodes have no program, until `adversary`, `silent` or `noise` gives
    them one. For `explore` a node without a program sends any message.

    >>> Bench(4, 1, 8).explore().stabilisation
    <Stabilisation.POSSIBLE: 'possible'>
    >>> Bench(4, 1, 2, rule="clock = (clock + 1) % M").run(pulses=3).clocks
    ((1, 1, 1, None), (0, 0, 0, None), (1, 1, 1, None))
    """

    n: int = 4
    f: int = 1
    M: int = 8
    rule: str | None = None
    correct: Sequence[int] | None = None
    memory: int = 16
    loads: tuple[Load, ...] = ()

    @property
    def correct_nodes(self) -> tuple[int, ...]:
        return tuple(range(self.n - self.f) if self.correct is None else self.correct)

    @property
    def byzantine_nodes(self) -> tuple[int, ...]:
        """Returns all nodes that don't run the clock."""
        return tuple(it for it in range(self.n) if it not in self.correct_nodes)

    def adversary(self, rule: str, pulse: int = 1) -> Bench:
        """Returns the bench in which every Byzantine node runs this rule from a pulse on.

        >>> Bench(3, 1).adversary("for j: send j to j").run(pulses=4).setup.nodes
        3
        """
        return self.loaded(Load(pulse, self.byzantine_nodes, ProgramKind.RULE, text=rule))

    def silent(self) -> Bench:
        """Returns the bench in which every Byzantine node sends nothing.

        >>> Bench(4, 1, 8).silent().explore(odds=1).odds.mean.at_most
        15.0
        """
        return self.loaded(Load(1, self.byzantine_nodes, ProgramKind.SAY, values=(-1,) * self.n))

    def noise(self) -> Bench:
        """Returns the bench in which every Byzantine node sends messages that the seed decides."""
        return self.loaded(Load(1, self.byzantine_nodes, ProgramKind.NOISE))

    def loaded(self, load: Load) -> Bench:
        return dataclasses.replace(self, loads=(*self.loads, load))

    def scenario(self, pulses: int = 20, key: int | None = None, coins: str = "zeros") -> Scenario:
        """Returns the scenario of so many pulses. With a seed (`key`) the coins are random."""
        lines = [
            f"version = 4\nnodes = {self.n}\nfaults = {self.f}\nmodulus = {self.M}\nmemory = {self.memory}",
            f'pulses = {pulses}\ncoins = "{coins if key is None else "chacha"}"',
        ]
        if key is not None:
            lines.append(f"key = {key}")
        if self.rule is not None:
            lines.append(f"rule = {quoted(self.rule)}")
        clocks = Load(1, self.correct_nodes, ProgramKind.CLOCK)
        return Scenario("\n".join(lines) + "".join(f"\n\n{it.toml()}" for it in (clocks, *self.loads)) + "\n")

    def run(self, pulses: int = 20, key: int | None = None, coins: str = "zeros") -> Run:
        """Runs the bench once. `coins` are "zeros" or "ones"; with a seed (`key`) they are random."""
        return self.scenario(pulses, key, coins).run()

    def claims(self, properties: str, pulses: int = 20, key: int | None = None, coins: str = "zeros") -> Claims:
        """Runs the bench, and judges each pulse by properties, a line each (docs/PROPERTIES.md)."""
        return self.scenario(pulses, key, coins).claims(properties)

    def trace(self, pulse: int, node: int, key: int | None = None, coins: str = "zeros") -> Trace:
        """Returns each step of a node in a pulse."""
        return self.scenario(pulse, key, coins).trace(pulse, node)

    def sweep(self, keys: range, pulses: int = 1000, progress: Progress = None) -> Sweep:
        """Runs the bench once for each of the seeds, on all processors."""
        return self.scenario(pulses, key=0).sweep(keys, progress)

    def sweep_claims(
        self, properties: str, keys: range, pulses: int = 1000, progress: Progress = None
    ) -> ClaimedSweep:
        """Does as `sweep`, and judges each run by properties, a line each (docs/PROPERTIES.md)."""
        return self.scenario(pulses, key=0).sweep_claims(properties, keys, progress)

    def explore(self, progress: Progress = None, **options: Option) -> Explored:
        """Searches all runs of the bench. Options are those of `Scenario.explore`.

        >>> Bench(3, 1).explore(ask="stabilisation").stabilisation == "preventable"
        True
        """
        return self.scenario().explore(progress, **options)

    def verify(self, rule: str | None = None, asm: str | None = None) -> Verified:
        """Verifies the clock, or another rule or assembler text, as a program for this bench.

        >>> Bench(4, 1, 8).verify()
        Verified(slots=55, announced=45)
        >>> Bench().verify(asm="mov64 r0, r5\\nexit")
        Traceback (most recent call last):
        clockbed.errors.Rejected: refused rule 4 slot 0
        note: rule 4, UnsetRegister: r5 may be unset
        """
        shape = ["--nodes", str(self.n), "--memory", str(self.memory)]
        sizes = ["--faults", str(self.f), "--modulus", str(self.M)]
        rule = self.rule if rule is None and asm is None else rule
        if asm is not None:
            answer = program.ask(["verify", *shape, "--text", "--explain"], asm)
        elif rule is not None:
            answer = program.ask(["verify", *shape], program.ask(["compile", *shape, *sizes], rule).out)
        else:
            text = program.ask(["dis", "--clock", "--nodes", str(self.n), *sizes]).out
            answer = program.ask(["verify", *shape, "--text"], text)
        return Verified.read(answer.text)
