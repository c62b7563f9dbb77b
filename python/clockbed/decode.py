"""Makes objects of JSON, by the type hints of their classes."""
from __future__ import annotations

import dataclasses
import enum
import types
import typing
from typing import Any, TypeVar

T = TypeVar("T")

_hints: dict[type[Any], dict[str, Any]] = {}


class NoAnswer(ValueError):
    """Says that a JSON value isn't what a class needs."""


def hints_of(cls: type[Any]) -> dict[str, Any]:
    if cls not in _hints:
        _hints[cls] = typing.get_type_hints(cls)
    return _hints[cls]


def decoded(cls: type[T], value: Any) -> T:
    """Returns the object of a JSON object. Members that the class doesn't have are left out.

    >>> from clockbed.answers import Reach
    >>> decoded(Reach, {"parts": 1, "of": 2, "pulses": None})
    Reach(parts=1, of=2, pulses=None)
    >>> decoded(Reach, {"parts": 1, "of": "2", "pulses": None})
    Traceback (most recent call last):
    clockbed.decode.NoAnswer: Reach.of: '2' is no int
    """
    if not isinstance(value, dict):
        raise NoAnswer(f"{value!r} is no {cls.__name__}")
    members = {}
    for name, hint in hints_of(cls).items():
        if name in value:
            try:
                members[name] = fitted(hint, value[name])
            except NoAnswer as why:
                raise NoAnswer(f"{cls.__name__}.{name}: {why}") from None
    try:
        return cls(**members)
    except TypeError as why:
        raise NoAnswer(f"{cls.__name__}: {why}") from why


def fitted(hint: Any, value: Any) -> Any:
    """Returns the value as its type hint has it."""
    origin, inner = typing.get_origin(hint), typing.get_args(hint)
    if origin in (typing.Union, types.UnionType):
        return first_fitted(inner, value)
    if origin is tuple and isinstance(value, list):
        kinds = [inner[0]] * len(value) if inner[-1] is Ellipsis else inner
        if len(kinds) == len(value):
            return tuple(fitted(kind, it) for kind, it in zip(kinds, value))
    elif isinstance(hint, type) and dataclasses.is_dataclass(hint):
        return decoded(hint, value)
    elif isinstance(hint, type) and issubclass(hint, enum.Enum):
        if value in [it.value for it in hint]:
            return hint(value)
    elif type(value) is hint:
        return value
    raise NoAnswer(f"{value!r} is no {getattr(hint, '__name__', hint)}")


def first_fitted(kinds: tuple[Any, ...], value: Any) -> Any:
    for kind in kinds:
        try:
            return fitted(kind, value)
        except NoAnswer as why:
            last = why
    raise last
