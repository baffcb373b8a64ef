"""The presets that options of the checker give."""
from __future__ import annotations

import re
from collections.abc import Iterable, Iterator
from dataclasses import dataclass
from typing import Union

from ctd_program import literal

TEXT = rb'"(?:[^"\\]|\\.)*"'
PRESET = re.compile(rb"([a-z][a-z0-9]*)(\[(?:[^\]\"]|%b)*\])?=(-?[0-9]{1,40}|%b)(?:,|\Z)" % (TEXT, TEXT), re.DOTALL)


@dataclass(frozen=True)
class Preset:
    """A value that the command line gives: of a name, with indices or without."""

    name: str
    has_indices: bool
    value: Union[int, bytes]


def presets_in(options: Iterable[str]) -> Iterator[Preset]:
    """The presets in options; of those that the checker refuses some. Raises Refused where a string is none."""
    for option in options:
        if option.startswith("--define="):
            for name, indices, value in PRESET.findall(option[len("--define=") :].encode("utf-8", "surrogateescape")):
                yield Preset(name.decode(), bool(indices), literal(value, 0) if value.startswith(b'"') else int(value))
