"""Puts the Python package of python/ on the path, for the tools that use it."""
import pathlib
import sys

PYTHON = pathlib.Path(__file__).resolve().parent.parent / "python"


def use_package():
    if str(PYTHON) not in sys.path:
        sys.path.insert(0, str(PYTHON))
