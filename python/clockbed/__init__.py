"""Benches of Byzantine clocks as objects: runs, sweeps and explorations by the program clockbed (docs/PYTHON.md).

>>> from clockbed import Bench, table
>>> Bench(n=4, f=1, M=8).explore(odds=64).odds.mean.at_most
87.0
"""
from clockbed.answers import (
    Agreement,
    Ask,
    By,
    Bytes,
    Claim,
    ClaimedRow,
    ClaimedSweep,
    Claims,
    ClockKind,
    Explored,
    Frame,
    Limit,
    Mean,
    Odds,
    ProgramKind,
    Pulse,
    Ran,
    Reach,
    Run,
    Stabilisation,
    Staged,
    Start,
    Step,
    Summary,
    Sweep,
    SweepRow,
    Trace,
    Verified,
)
from clockbed.errors import ClockbedError, Fault, NotFinished, ProgramMissing, Rejected
from clockbed.plots import plot
from clockbed.scenario import Bench, Load, Scenario
from clockbed.tables import Table, table

__all__ = [
    "Agreement", "Ask", "Bench", "By", "Bytes", "Claim", "ClaimedRow", "ClaimedSweep", "Claims", "ClockKind",
    "ClockbedError", "Explored", "Fault", "Frame", "Limit", "Load", "Mean", "NotFinished", "Odds", "ProgramKind",
    "ProgramMissing", "Pulse", "Ran", "Reach", "Rejected", "Run", "Scenario", "Stabilisation", "Staged", "Start",
    "Step", "Summary", "Sweep", "SweepRow", "Table", "Trace", "Verified", "plot", "table",
]  # fmt: skip
