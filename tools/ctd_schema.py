"""Values of JSON that come from outside, read as the dataclass that they have to be: its fields say what may stand there, and nothing else may."""
from __future__ import annotations

import collections.abc
import dataclasses
import math
from typing import Any, NewType, Union, get_args, get_origin, get_type_hints

# A text that may be written to a terminal: one line without control characters.
Line = NewType("Line", str)
# A number from 0, and one from 1.
Count, Number = NewType("Count", int), NewType("Number", int)
# The status of the checker.
Status = NewType("Status", int)
# Greater numbers are in no report.
MOST = 2**128


class BadValue(Exception):
    """A value is not what it has to be: where it stands, and what it has to be."""


def read(kind: Any, value: Any, where: str = "") -> Any:
    """A value as one of a kind: a dataclass, a sequence, a tuple, a choice of these and None, a text, number or truth. Raises BadValue."""
    if dataclasses.is_dataclass(kind):
        return read_dataclass(kind, value, where)
    origin, parts = get_origin(kind), get_args(kind)
    if origin is Union:
        return None if value is None and type(None) in parts else read(parts[0], value, where)
    if origin in (tuple, collections.abc.Sequence):
        if not isinstance(value, list) or (origin is tuple and len(value) != len(parts)):
            raise BadValue(f"{where or 'the whole'} is no list" + (f" of {len(parts)}" if origin is tuple else ""))
        kinds = parts if origin is tuple else parts * len(value)
        read_values = [read(one, part, f"{where}[{index}]") for index, (one, part) in enumerate(zip(kinds, value))]
        return tuple(read_values) if origin is tuple else read_values
    told, is_right = SIMPLE[kind]
    if not is_right(value):
        raise BadValue(f"{where} is {told}")
    return value


def read_dataclass(kind: Any, value: Any, where: str) -> Any:
    if not isinstance(value, dict):
        raise BadValue(f"{where or 'the whole'} is no object")
    hints, fields = get_type_hints(kind), dataclasses.fields(kind)
    if unknown := [name for name in value if name not in hints]:
        raise BadValue(f"{where or 'the whole'} has a name {ascii(unknown[0])[:40]}, which it cannot have")
    inner = {field.name: f"{where}.{field.name}" if where else field.name for field in fields}
    missing = [field.name for field in fields if field.name not in value and field.default is dataclasses.MISSING]
    if missing:
        raise BadValue(f"{inner[missing[0]]} is missing")
    return kind(**{name: read(hints[name], part, inner[name]) for name, part in value.items()})


def is_integer(value: Any, least: int, greatest: int) -> bool:
    return isinstance(value, int) and not isinstance(value, bool) and least <= value <= greatest


def is_text(value: Any) -> bool:
    """Whether a value is a text of characters that there are, and bytes outside of UTF-8."""
    return isinstance(value, str) and not any("\ud800" <= one < "\udc80" or "\udcff" < one <= "\udfff" for one in value)


def is_line(value: Any) -> bool:
    return is_text(value) and all(one.isprintable() or "\udc80" <= one <= "\udcff" for one in value)


def is_float(value: Any) -> bool:
    return isinstance(value, (int, float)) and not isinstance(value, bool) and abs(value) < MOST and math.isfinite(value)


# What is said of a value that is no such thing, and when it is one.
SIMPLE = {
    str: ("no text", is_text),
    Line: ("no text of one line", is_line),
    bool: ("neither true nor false", lambda value: isinstance(value, bool)),
    int: ("no number, or too large", lambda value: is_integer(value, -MOST, MOST)),
    Count: ("no number from 0", lambda value: is_integer(value, 0, MOST)),
    Number: ("no number from 1", lambda value: is_integer(value, 1, MOST)),
    Status: ("no status from 0 to 2", lambda value: is_integer(value, 0, 2)),
    float: ("no number, or too large", is_float),
}
