"""Plots of stabilisation times, if matplotlib is there."""
from __future__ import annotations

from collections.abc import Mapping
from typing import Any

from clockbed.answers import Explored, Sweep
from clockbed.frames import wanted


def plot(answers: Mapping[str, Sweep | Explored]) -> Any:
    """Returns a matplotlib figure: by which pulse which share of the runs is synchronised.

    A sweep is a line of its seeds. An exploration with odds is a broken line: the share that is sure against every
    adversary.
    """
    pyplot = wanted("matplotlib.pyplot", "plot()")
    figure, axes = pyplot.subplots(figsize=(8, 4.5))
    pyplot.close(figure)  # a notebook shows the figure once, as the value of its cell
    for name, answer in answers.items():
        (draw_sweep if isinstance(answer, Sweep) else draw_odds)(axes, name, answer)
    axes.set_xscale("log")
    axes.set_xlabel("pulse")
    axes.set_ylabel("runs synchronised by then, in 100")
    axes.set_ylim(0, 100)
    axes.grid(True, which="both", alpha=0.3)
    axes.legend(title="synchronised at the end", loc="lower right")
    figure.tight_layout()
    return figure


def draw_sweep(axes: Any, name: str, sweep: Any) -> None:
    """Draws a line of the share of the seeds."""
    since, runs = sweep.since, len(sweep.rows)
    shares = [100 * (place + 1) / runs for place in range(len(since))]
    axes.step([1, *since], [0, *shares], where="post", label=f"{name}: {len(since)} of {runs}")


def draw_odds(axes: Any, name: str, answer: Any) -> None:
    """Draws a broken line of the share that is sure.

    If every pulse after k is synchronised, the clocks are equal from k on.
    """
    if not answer.odds or answer.odds.parts is None:
        raise ValueError(f"{name} has no odds: ask explore for odds=K")
    shares = [100 * parts / answer.odds.of for parts in answer.odds.parts]
    label = f"{name}: at least {int(shares[-1])} %"
    axes.step(range(1, len(shares)), shares[1:], where="post", linestyle="--", label=label)
