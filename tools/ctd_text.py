"""A text as editors count in it and as the checker does.

The checker counts lines by line feeds and columns by bytes, both from 1. The Language Server Protocol counts both from 0, columns in units of
UTF-16, and a carriage return ends a line too. In between stands the offset: how many bytes of UTF-8 there are before a place.
"""
from __future__ import annotations

import re
from bisect import bisect_right
from dataclasses import dataclass
from functools import cached_property
from typing import Any, NamedTuple

from ctd_companion import Place

# A value of the protocol: a position, a range, a change.
Json = dict[str, Any]

LINE_END = re.compile(rb"\r\n?|\n")
LINE_FEED = re.compile(rb"\n")
# A character of more bytes than one. A byte that belongs to none counts as a character.
WIDE = re.compile(rb"[\xc2-\xdf][\x80-\xbf]|[\xe0-\xef][\x80-\xbf]{2}|[\xf0-\xf4][\x80-\xbf]{3}")


class Edit(NamedTuple):
    """Bytes that stand for those between two offsets of a text."""

    start: int
    end: int
    new: bytes


@dataclass(frozen=True)
class Text:
    """The bytes of a text."""

    data: bytes

    @staticmethod
    def of(text: str) -> Text:
        """The text that an editor has. Half a pair of UTF-16 becomes three bytes, which are no UTF-8."""
        return Text(text.encode("utf-8", "surrogatepass"))

    @cached_property
    def starts(self) -> list[int]:
        """The offsets at which the lines of the protocol begin."""
        return [0, *(found.end() for found in LINE_END.finditer(self.data))]

    @cached_property
    def checker_starts(self) -> list[int]:
        """The offsets at which the lines of the checker begin."""
        return [0, *(found.end() for found in LINE_FEED.finditer(self.data))]

    @cached_property
    def wide(self) -> tuple[list[int], list[int], list[int]]:
        """For the start of the text and the end of each wide character: the offset, the units of UTF-16 before it, and their difference."""
        offsets, units, differences = [0], [0], [0]
        for found in WIDE.finditer(self.data):
            length = found.end() - found.start()
            differences.append(differences[-1] + length - (2 if length == 4 else 1))
            offsets.append(found.end())
            units.append(found.end() - differences[-1])
        return offsets, units, differences

    def units_before(self, offset: int) -> int:
        """How many units of UTF-16 the text has before an offset at which a character begins."""
        offsets, _, differences = self.wide
        return offset - differences[bisect_right(offsets, offset) - 1]

    def character_start(self, offset: int) -> int:
        """The offset at which the character around an offset begins."""
        around = (WIDE.match(self.data, start) for start in range(max(0, offset - 3), offset))
        return next((found.start() for found in around if found and found.end() > offset), offset)

    def character_end(self, offset: int) -> int:
        """The offset behind the character that begins at an offset."""
        found = WIDE.match(self.data, offset)
        return found.end() if found else min(offset + 1, len(self.data))

    def position(self, offset: int) -> Json:
        """The position of an offset."""
        offset = self.character_start(min(offset, len(self.data)))
        line = bisect_right(self.starts, offset) - 1
        return {"line": line, "character": self.units_before(offset) - self.units_before(self.starts[line])}

    def span(self, start: int, end: int) -> Json:
        """The range between two offsets."""
        return {"start": self.position(start), "end": self.position(end)}

    def line_end(self, offset: int) -> int:
        """The offset at which the line of an offset ends, before what ends it."""
        found = LINE_END.search(self.data, offset)
        return found.start() if found else len(self.data)

    def offset(self, position: Json) -> int:
        """The offset of a position. One behind the end of its line or of the text stands for that end."""
        if position["line"] >= len(self.starts):
            return len(self.data)
        start = self.starts[position["line"]]
        wanted = self.units_before(start) + position["character"]
        _, units, differences = self.wide
        offset = wanted + differences[bisect_right(units, wanted) - 1]
        return self.character_start(min(offset, self.line_end(start)))

    def offset_at(self, place: Place) -> int:
        """The offset of a place that the checker names, or the end of the text where it has no such place."""
        if place.line > len(self.checker_starts):
            return len(self.data)
        return min(self.checker_starts[place.line - 1] + place.column - 1, len(self.data))

    def edit(self, change: Json) -> Edit:
        """A change of the protocol, which gives a range another text, or all of it."""
        new = Text.of(change["text"]).data
        if "range" not in change:
            return Edit(0, len(self.data), new)
        return Edit(self.offset(change["range"]["start"]), self.offset(change["range"]["end"]), new)

    def edited(self, edit: Edit) -> Text:
        return Text(self.data[: edit.start] + edit.new + self.data[edit.end :])

    def changed(self, change: Json) -> Text:
        """The text behind a change of the protocol."""
        return self.edited(self.edit(change))
