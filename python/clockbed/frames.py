"""Tables: as text, as HTML, and as data frames if pandas is there."""
from __future__ import annotations

import html as escaping
import importlib
from collections.abc import Mapping, Sequence
from typing import Any

Row = Mapping[str, object]


def wanted(module: str, use: str) -> Any:
    """Returns a module that the package can do without, or raises an error that says how to install it."""
    try:
        return importlib.import_module(module)
    except ImportError as why:
        name = module.partition(".")[0]
        fix = f"pip install {name}, or on Debian apt-get install python3-{name}"
        raise ImportError(f"{use} needs {name}: {fix}") from why


def data_frame(rows: Sequence[Row]) -> Any:
    return wanted("pandas", "frame()").DataFrame(list(rows))


def names_of(rows: Sequence[Row]) -> list[str]:
    """Returns the names of all rows, in the order in which they come first."""
    return list(dict.fromkeys(name for row in rows for name in row))


def told(value: object) -> str:
    return "" if value is None else str(value)


def html(rows: Sequence[Row]) -> str:
    names = names_of(rows)
    head = "".join(f"<th>{escaping.escape(it)}</th>" for it in names)
    lines = ["".join(f"<td>{escaping.escape(told(row.get(it)))}</td>" for it in names) for row in rows]
    return f"<table><tr>{head}</tr>{''.join(f'<tr>{it}</tr>' for it in lines)}</table>"


def text(rows: Sequence[Row]) -> str:
    """Returns the rows with aligned columns.

    >>> print(text([{"n": 4, "mean": 19.5}, {"n": 7, "mean": 115.5}]))
    n   mean
    4   19.5
    7  115.5
    """
    names = names_of(rows)
    cells = [names, *([told(row.get(it)) for it in names] for row in rows)]
    widths = [max(len(line[at]) for line in cells) for at in range(len(names))]
    return "\n".join("  ".join(it.rjust(wide) for it, wide in zip(line, widths)) for line in cells)
