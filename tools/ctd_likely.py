"""What values the variables of a program may well have at a place of the data: what stands there, at the start of the data and in the program."""
from __future__ import annotations

import re
from collections.abc import Iterator, Sequence
from dataclasses import dataclass, field
from itertools import chain
from typing import IO

from ctd_companion import Place
from ctd_decisions import numbers_of
from ctd_ladders import Sought
from ctd_presets import presets_in
from ctd_program import NUMERAL, TEXT, commands_of, cut
from ctd_questions import line_offset

# How many bytes of the data are read before a place, behind it and at their start; how many lines are the nearest; and how long a word may be.
BEFORE, BEHIND, START, NEAR_LINES, WORD_ROOM = 16384, 64, 1024, 2, 200
NUMBER = re.compile(rb"-?[0-9]{1,38}")


@dataclass
class Likely:
    """Numbers and strings, the likeliest first; and the names of the program that have numbers alone."""

    numbers: Sequence[int]
    strings: Sequence[bytes]
    numeric: frozenset[bytes]
    turned: set[bytes] = field(default_factory=set)

    @staticmethod
    def around(data: IO[bytes], origin: int, place: Place, program: bytes, options: Sequence[str]) -> Likely:
        """What is likely at a place of the data, which begin at an offset."""
        offset = line_offset(data, origin, place.line) + place.column - 1
        first = max(origin, offset - BEFORE)
        data.seek(first)
        before, after = data.read(offset - first), data.read(BEHIND)
        data.seek(origin)
        start = data.read(START)
        tokens = cut(program)
        numerals = [token.value for token in tokens if token.symbol == NUMERAL and isinstance(token.value, int)]
        texts = [token.value for token in tokens if token.symbol == TEXT and isinstance(token.value, bytes)]
        numbers = chain(likely_numbers(before, after, start, place), numerals, powers())
        strings = chain(likely_strings(before, after), texts)
        numeric = numbers_of(commands_of(program), list(presets_in(options)))
        return Likely(list(dict.fromkeys(numbers)), list(dict.fromkeys(strings)), numeric)

    def sought(self, expression: bytes) -> Sought:
        """A value of the type that an expression seems to have."""
        name = re.match(rb"([a-z][a-z0-9]*)(?:\[|\Z)", expression)
        return self.string(expression) if name and name[1] not in self.numeric else self.number(expression)

    def of_other_type(self, sought: Sought) -> Sought | None:
        """A value of the other type than the one that was looked for; None where that was done before."""
        if sought.expression in self.turned:
            return None
        self.turned.add(sought.expression)
        return self.string(sought.expression) if isinstance(sought.low, int) else self.number(sought.expression)

    def number(self, expression: bytes) -> Sought:
        return Sought(expression, likely=self.numbers)

    def string(self, expression: bytes) -> Sought:
        return Sought(expression, b"", None, self.strings)


def likely_numbers(before: bytes, after: bytes, start: bytes, place: Place) -> Iterator[int]:
    """The numbers nearest to a place, and what counts lines and words up to it; then the others."""
    lines = before.split(b"\n")
    here = NUMBER.match(after)
    near = [int(one) for one in NUMBER.findall(b"\n".join(lines[-NEAR_LINES:]))]
    words = len(lines[-1].split())
    yield from [int(here[0])] if here else []
    yield from near[:-4:-1]
    yield from (words, words - 1, place.line - 1, place.line - 2, place.line - 3, 0, 1, 2)
    yield from (int(one) for one in NUMBER.findall(start)[:4])
    yield from near[-4:-20:-1]
    yield from (int(one) for one in reversed(NUMBER.findall(before)[-300:]))


def powers() -> Iterator[int]:
    """Numbers that are limits often."""
    yield from (sign * 10**power for power in range(1, 19) for sign in (1, -1))


def likely_strings(before: bytes, after: bytes) -> Iterator[bytes]:
    """The words nearest to a place, also several in a row, and the lines."""
    lines = [*before.split(b"\n")[:-1], before.split(b"\n")[-1] + after.partition(b"\n")[0]]
    for line in reversed(lines[-NEAR_LINES - 1 :]):
        words = line.split()[-12:]
        yield from (word[:WORD_ROOM] for word in reversed(words))
        yield line[:WORD_ROOM]
        yield from (b" ".join(words[start:end])[:WORD_ROOM] for start in range(len(words)) for end in range(start + 2, len(words) + 1))
    yield from (word[:WORD_ROOM] for word in reversed(before.split()[-300:]))
