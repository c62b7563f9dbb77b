"""Reads a run, for the other tools: the module `readings` of the Python package."""
from python_package import use_package

use_package()
from clockbed.readings import PAST, NoReport, in_step_since, read_lines, read_run

__all__ = ["PAST", "NoReport", "in_step_since", "read_lines", "read_run"]
