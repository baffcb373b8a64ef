"""Files of test data that are changed: what is read of one, where in it a pattern matches, and a change of its bytes.

A file may be larger than the memory: no more than a part of it is held. Of a large one, places are looked for in parts of it."""
from __future__ import annotations

import os
import re
from collections.abc import Callable, Iterable, Iterator
from dataclasses import dataclass
from functools import cached_property
from typing import IO

from ctd_lists import Form

# How many bytes are read at once; how many where places are looked for, with those before and behind that a pattern may look at; and in how
# many such windows of a file places are looked for at most.
BLOCK = 65536
WINDOW = 1 << 20
CONTEXT = 4096
MOST_WINDOWS = 8

Match = re.Match[bytes]
Blocks = Iterable[bytes]


@dataclass(frozen=True)
class Source:
    """The bytes of an open file from an offset of it on."""

    file: IO[bytes]
    origin: int
    size: int

    def read(self, start: int, end: int) -> bytes:
        """The bytes from `start` up to `end`, or to the end of the data; few enough to be held."""
        return os.pread(self.file.fileno(), max(0, min(end, self.size) - start), self.origin + start)

    def blocks(self, start: int, end: int) -> Iterator[bytes]:
        """The bytes from `start` up to `end`, in blocks."""
        for at in range(start, end, BLOCK):
            yield self.read(at, min(end, at + BLOCK))

    def line_start(self, at: int) -> int:
        """Where the line of a byte begins."""
        for end in range(at, 0, -BLOCK):
            start = max(0, end - BLOCK)
            if found := self.read(start, end).rfind(b"\n") + 1:
                return start + found
        return 0

    def line_feed(self, at: int) -> int | None:
        """Where the next line feed is, from a byte on."""
        for start in range(at, self.size, BLOCK):
            if found := self.read(start, start + BLOCK).find(b"\n") + 1:
                return start + found - 1
        return None

    def line_end(self, at: int) -> int:
        """Where the line of a byte ends: behind its line feed, or at the end of the data."""
        found = self.line_feed(at)
        return self.size if found is None else found + 1

    def line_number(self, at: int) -> int:
        """The number of the line of a byte, from 1."""
        return 1 + sum(block.count(b"\n") for block in self.blocks(0, at))

    @cached_property
    def windows(self) -> list[int]:
        """Where the windows begin in which places are looked for: one behind the other, or spread over a large file from its start to its end."""
        starts = list(range(0, self.size + 1, WINDOW))
        if len(starts) <= MOST_WINDOWS:
            return starts
        return [number * (self.size + 1 - WINDOW) // (MOST_WINDOWS - 1) for number in range(MOST_WINDOWS)]

    @cached_property
    def form(self) -> Form:
        """The form of the data, as the windows show it."""
        form, windows = Form(), self.windows
        if self.size < MOST_WINDOWS * WINDOW:
            form.add_part(self.read(0, self.size), 0, True, True)
            return form
        for window in windows:
            form.add_part(self.read(window, window + WINDOW), window, window == windows[0], window == windows[-1])
        return form

    def offset_at(self, part: float) -> int:
        """The offset in front of which a part of all windows lies, from 0 up to 1."""
        number, rest = divmod(part * min(len(self.windows), self.size / WINDOW), 1)
        return self.windows[int(number)] + int(rest * WINDOW)

    def places(self, pattern: re.Pattern[bytes], start: int) -> Iterator[Place]:
        """The matches of a pattern in the windows from an offset on, in order. A pattern looks at fewer bytes than CONTEXT on both sides."""
        for window in self.windows:
            start, end = max(start, window), window + WINDOW
            if start >= end:
                continue
            first = max(0, start - CONTEXT)
            for found in pattern.finditer(self.read(first, end + CONTEXT), start - first):
                if first + found.start() >= end:
                    break
                yield Place(self, first, found)
                start = first + found.end()


@dataclass(frozen=True)
class Place:
    """A place of a change: a match in a part of the data, which begins at an offset."""

    source: Source
    offset: int
    match: Match

    @property
    def start(self) -> int:
        return self.offset + self.match.start()

    @property
    def end(self) -> int:
        return self.offset + self.match.end()

    def byte(self, at: int) -> bytes:
        """A byte of the data near the place; none before the start and at the end."""
        return self.match.string[max(0, at - self.offset) : at - self.offset + 1]

    def line_start(self) -> int:
        """Where the line of the place begins."""
        found = self.match.string.rfind(b"\n", 0, self.match.start()) + 1
        return self.offset + found if found else self.source.line_start(self.offset)


@dataclass(frozen=True)
class Edit:
    """A change of a file: its bytes from `start` up to `end` give way to others, which come in blocks."""

    start: int
    end: int
    new: Callable[[], Blocks]

    def applied(self, source: Source) -> Iterator[bytes]:
        """The bytes of the changed file, in blocks."""
        yield from source.blocks(0, self.start)
        yield from self.new()
        yield from source.blocks(self.end, source.size)

    def changes_nothing(self, source: Source) -> bool:
        """Whether the bytes are those that were there."""
        at = self.start
        for block in self.new():
            if source.read(at, at + len(block)) != block:
                return False
            at += len(block)
        return at == self.end
