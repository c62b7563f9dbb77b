"""One question of many benches, several at once."""
from __future__ import annotations

import dataclasses
import itertools
import os
import time
from collections.abc import Callable, Iterable, Iterator, Mapping, Sequence
from concurrent.futures import ThreadPoolExecutor
from dataclasses import dataclass
from typing import Any, Protocol, runtime_checkable

from clockbed import frames, program
from clockbed.scenario import Bench

SECONDS_BETWEEN = 0.05


@runtime_checkable
class HasRow(Protocol):
    """Is an answer that knows its row of a table."""

    def row(self) -> dict[str, object]:
        """Returns the names and values of the row."""


@dataclass(frozen=True)
class Table(Sequence[dict[str, Any]]):
    """Is rows with names. It prints as aligned text, and a notebook shows it."""

    rows: tuple[dict[str, Any], ...]

    def __len__(self) -> int:
        return len(self.rows)

    def __getitem__(self, at: Any) -> Any:
        return self.rows[at]

    def __iter__(self) -> Iterator[dict[str, Any]]:
        return iter(self.rows)

    def __str__(self) -> str:
        return frames.text(self.rows)

    def frame(self) -> Any:
        """Returns a pandas data frame."""
        return frames.data_frame(self.rows)

    def _repr_html_(self) -> str:
        return frames.html(self.rows)


def row_of(answer: object) -> Mapping[str, object]:
    if isinstance(answer, HasRow):
        return answer.row()
    return answer if isinstance(answer, Mapping) else {"answer": answer}


def members_of(name: str, value: object) -> dict[str, Any]:
    """Returns the members of a bench that a value of an axis sets: n can be a pair (n, f)."""
    if name == "n" and isinstance(value, tuple):
        return dict(zip(("n", "f"), value))
    if name not in {it.name for it in dataclasses.fields(Bench)}:
        raise TypeError(f"a bench has no {name!r}; it has {', '.join(it.name for it in dataclasses.fields(Bench))}")
    return {name: value}


def table(
    question: Callable[[Bench], object], base: Bench = Bench(), workers: int | None = None, **axes: Iterable[object]
) -> Table:
    """Asks a question of every bench that the axes make of `base`, and returns a row for each.

    So many benches as there are `workers` are asked at once: by default one for each processor. Ctrl-C ends them all.

    >>> print(table(lambda bench: bench.explore(odds=1), n=[(4, 1)], M=[2, 4]))
    n  f  M  agreement  violated_in  stabilisation  pulses      by  states  mean
    4  1  2      holds                    possible       2  search      16  19.5
    4  1  4      holds                    possible       4  search      30  51.0
    """
    points = []
    for point in itertools.product(*axes.values()):
        members = [members_of(name, value) for name, value in zip(axes, point)]
        points.append({name: value for some in members for name, value in some.items()})
    benches = [dataclasses.replace(base, **it) for it in points]
    answers = asked(question, benches, workers or os.cpu_count() or 1)
    return Table(tuple({**point, **row_of(answer)} for point, answer in zip(points, answers)))


def asked(question: Callable[[Bench], object], benches: Sequence[Bench], workers: int) -> list[object]:
    """Returns the answers in the order of the benches."""
    pool = ThreadPoolExecutor(workers)
    begun = [pool.submit(question, it) for it in benches]
    try:
        return [it.result() for it in begun]
    except KeyboardInterrupt:
        pool.shutdown(wait=False, cancel_futures=True)
        while not all(it.done() for it in begun):  # a question may ask the program more than once
            program.end_all()
            time.sleep(SECONDS_BETWEEN)
        raise
    finally:
        pool.shutdown(cancel_futures=True)
