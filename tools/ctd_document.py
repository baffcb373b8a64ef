"""A program that an editor has opened."""
from __future__ import annotations

from collections.abc import Iterator, Sequence
from dataclasses import dataclass
from functools import cached_property
from typing import NamedTuple

from ctd_companion import printable, text_of
from ctd_program import Command, Refused, commands_of
from ctd_symbols import Mention, Preset, Spelled, Symbols, Use, head_end, part_at
from ctd_text import Edit, Json, Text

# How much of a command is shown.
COMMAND_ROOM = 80
# The bytes of names, and those of words.
NAME_BYTES, WORD_BYTES = b"abcdefghijklmnopqrstuvwxyz0123456789", b"ABCDEFGHIJKLMNOPQRSTUVWXYZ"


@dataclass(eq=False)
class Document:
    """A program as it is at one time, by the name and the number of the version that the editor gives it."""

    uri: str
    version: int
    text: Text
    # what it was when the checker last took it
    earlier: Earlier | None = None
    # whether the checker takes it, as far as that is known
    is_program: bool = False

    @cached_property
    def symbols(self) -> Symbols:
        return Symbols(self.text.data)

    @cached_property
    def commands(self) -> list[Command]:
        """The commands of the program; none where it is refused."""
        try:
            return commands_of(self.text.data)
        except Refused:
            return []

    @cached_property
    def presets(self) -> list[Preset]:
        """The presets in comments. (A text without the word need not be read for them.)"""
        return self.symbols.presets if b"preset:" in self.text.data else []

    def changed(self, version: int, changes: Sequence[Json]) -> Document:
        """The document behind changes of the protocol, one after the other."""
        text, earlier = self.text, Earlier(self, [Kept(0, 0, len(self.text.data))], self.text) if self.is_program else self.earlier
        for change in changes:
            edit = text.edit(change)
            text = text.edited(edit)
            earlier = earlier and Earlier(earlier.program, list(kept_behind(earlier.parts, edit)), text)
        return Document(self.uri, version, text, earlier)

    def read_at(self, position: Json) -> Document | Earlier:
        """What tells of a position: a text that is no program may hide what the last program there was knows of it."""
        return self.earlier if self.earlier and not self.is_program and self.earlier.knows(position) else self

    def line(self, offset: int) -> int:
        """The number of the line of an offset as editors show it, from 1."""
        return int(self.text.position(offset)["line"]) + 1

    def head(self, offset: int) -> str:
        """The head of the command at an offset, or its first line, cut where it is long."""
        text = printable(text_of(self.text.data[offset : head_end(self.text.data, offset)]).partition("\n")[0].rstrip("\r"))
        return text if len(text) <= COMMAND_ROOM else text[:COMMAND_ROOM] + "…"

    def mention_at(self, position: Json) -> Mention | None:
        """The name at a position."""
        return part_at(self.symbols.mentions, self.text.offset(position))

    def word_at(self, position: Json) -> Spelled | None:
        return part_at(self.symbols.words, self.text.offset(position))

    def mentions_of(self, name: bytes) -> list[Mention]:
        return self.symbols.mentions_of(name)

    def span(self, start: int, end: int) -> Json:
        """The range between two offsets."""
        return self.text.span(start, end)

    def range_of(self, mention: Mention) -> Json:
        return self.span(mention.offset, mention.end)


class Kept(NamedTuple):
    """A part of a program that a later text still has: where it begins in each of them, and its length."""

    before: int
    now: int
    length: int


def kept_behind(parts: Sequence[Kept], edit: Edit) -> Iterator[Kept]:
    """What an edit leaves of these parts."""
    for before, now, length in parts:
        left = min(length, max(0, edit.start - now))
        right = min(length, max(0, now + length - edit.end))
        if left:
            yield Kept(before, now, left)
        if right:
            yield Kept(before + length - right, max(now, edit.end) - edit.end + edit.start + len(edit.new), right)


@dataclass(eq=False)
class Earlier:
    """The last program that a document was. Offsets are of its text, and positions, ranges and lines are where its parts stand now."""

    program: Document
    parts: list[Kept]
    text: Text

    def __post_init__(self) -> None:
        self.uri, self.head = self.program.uri, self.program.head

    @property
    def symbols(self) -> Symbols:
        return self.program.symbols

    @property
    def commands(self) -> list[Command]:
        return self.program.commands

    @property
    def presets(self) -> list[Preset]:
        return self.program.presets

    def knows(self, position: Json) -> bool:
        """Whether the text at a position is that of the program, and if it is a name, the program still gives that a value."""
        if mention := self.mention_at(position):
            return self.is_kept(mention) and any(one.use in (Use.SET, Use.PRESET) for one in self.mentions_of(mention.name))
        word = self.word_at(position)
        return self.is_kept(word) if word else self.offset(position) is not None

    def offset(self, position: Json) -> int | None:
        """The offset in the program of what stands at a position, or ends there; None for new text."""
        now = self.text.offset(position)
        around = [part for part in self.parts if part.now <= now <= part.now + part.length]
        return now - around[-1].now + around[-1].before if around else None

    def is_kept(self, token: Spelled | Mention) -> bool:
        """Whether a name or a word still stands there, and is no part of a longer one."""
        part = next((part for part in self.parts if part.before <= token.offset and token.end <= part.before + part.length), None)
        if part is None:
            return False
        start, end = (offset - part.before + part.now for offset in (token.offset, token.end))
        others = WORD_BYTES if self.text.data[start] in WORD_BYTES else NAME_BYTES
        return all(byte not in others for byte in self.text.data[max(0, start - 1) : start] + self.text.data[end : end + 1])

    def moved(self, offset: int) -> int:
        """Where an offset is now, or where the text that is gone was."""
        part = next((part for part in reversed(self.parts) if part.before <= offset), Kept(0, 0, 0))
        return part.now + min(offset - part.before, part.length)

    def line(self, offset: int) -> int:
        return int(self.text.position(self.moved(offset))["line"]) + 1

    def mention_at(self, position: Json) -> Mention | None:
        offset = self.offset(position)
        return None if offset is None else part_at(self.symbols.mentions, offset)

    def word_at(self, position: Json) -> Spelled | None:
        offset = self.offset(position)
        return None if offset is None else part_at(self.symbols.words, offset)

    def mentions_of(self, name: bytes) -> list[Mention]:
        return [one for one in self.symbols.mentions_of(name) if self.is_kept(one)]

    def span(self, start: int, end: int) -> Json:
        return self.text.span(self.moved(start), self.moved(end))

    def range_of(self, mention: Mention) -> Json:
        return self.span(mention.offset, mention.end)
