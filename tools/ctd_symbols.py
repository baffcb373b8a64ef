"""What an editor asks of a text that may still be no program: its words, its names and what is done with each, its blocks, and the presets
in its comments.

All of it is read from the tokens, so a fault of grammar hides nothing. What stands behind a string without its closing quote is not read.
"""
from __future__ import annotations

import re
from bisect import bisect_right
from collections.abc import Iterator, Sequence
from dataclasses import dataclass, field
from enum import Enum
from typing import NamedTuple, Optional, TypeVar

from ctd_program import BLOCKS, PIECE, Refused, cut, expected, parse, states
from ctd_trees import DEEDS

COMMENT = re.compile(rb"#[^\n]*")
# A blank for each byte but a line feed.
BLANKS = bytes(byte if byte == 0x0A else 0x20 for byte in range(256))
PRESET = re.compile(rb"#[ \t]*preset:[ \t]*([^\r\n]*[^\r\n \t])")


class Use(Enum):
    """What is done with a name."""

    SET = "set"
    READ = "read"
    UNSET = "unset"
    PRESET = "preset"


class Spelled(NamedTuple):
    """A token as it is spelled, and the offsets of its first byte and behind its last."""

    kind: str
    text: bytes
    offset: int
    end: int


class Mention(NamedTuple):
    """A name in a text: what is done with it, its offsets, and where the command or the preset begins in which it stands."""

    name: bytes
    use: Use
    offset: int
    end: int
    command: int


class Preset(NamedTuple):
    """What a comment `# preset: n=5` says, and its offsets."""

    text: bytes
    offset: int
    end: int


@dataclass(eq=False)
class Block:
    """A loop or an IF from its word to behind its END, or an ELSE up to that END; without an END it goes to the end of the text. Its head is
    its word, with the parentheses behind it."""

    word: str
    offset: int
    head_end: int
    end: int
    inner: list[Block] = field(default_factory=list)


@dataclass
class Parenthesis:
    """A parenthesis or bracket that is open: the word before it and where that begins, the block whose head it is, how many commas came."""

    word: str
    command: int
    block: Optional[Block] = None
    commas: int = 0


Part = TypeVar("Part", Spelled, Mention)


def part_at(parts: Sequence[Part], offset: int) -> Part | None:
    """The part that has the byte at an offset, or else the one that ends there."""
    index = bisect_right([part.offset for part in parts], offset) - 1
    return parts[index] if index >= 0 and offset <= parts[index].end else None


def tokens_in(text: bytes, start: int = 0) -> Iterator[Spelled]:
    """The tokens of a text from an offset on, as far as they can be told. The last is of the kind `end` or `unfinished`."""
    for found in PIECE.finditer(text, start):
        kind = found.lastgroup or ""
        yield Spelled(kind, found[kind], *found.span(kind))
        if kind in ("end", "unfinished"):
            return


@dataclass
class Symbols:
    """What a text has, each in the order of the text. `block_of` has the block of each word that begins, parts or ends one, by its offset."""

    text: bytes
    words: list[Spelled] = field(default_factory=list)
    mentions: list[Mention] = field(default_factory=list)
    comments: list[Spelled] = field(default_factory=list)
    presets: list[Preset] = field(default_factory=list)
    blocks: list[Block] = field(default_factory=list)
    block_of: dict[int, Block] = field(default_factory=dict)

    def __post_init__(self) -> None:
        self.open: list[Parenthesis] = []
        self.open_blocks: list[Block] = []
        last = Spelled("", b"", 0, 0)
        for token in tokens_in(self.text):
            self.is_cut_short = token.kind == "unfinished"
            for found in COMMENT.finditer(self.text, last.end, token.offset):
                self.read_comment(found)
            if token.kind == "word":
                self.read_word(token)
            elif token.kind == "name":
                self.read_name(token, last)
            elif token.kind == "mark":
                self.read_mark(token, last)
            last = token

    def read_comment(self, found: re.Match[bytes]) -> None:
        self.comments.append(Spelled("comment", found[0], *found.span()))
        if said := PRESET.match(self.text, *found.span()):
            preset = Preset(said[1], *said.span(1))
            self.presets.append(preset)
            self.mentions += preset_mentions(preset)

    def read_word(self, token: Spelled) -> None:
        """Opens, parts or closes a block, where a word does so."""
        self.words.append(token)
        word = token.text.decode()
        if word in BLOCKS or (word == "ELSE" and self.open_blocks):
            block = Block(word, token.offset, token.end, len(self.text))
            (self.open_blocks[-1].inner if self.open_blocks else self.blocks).append(block)
            self.open_blocks.append(block)
            self.block_of[token.offset] = block
        elif word == "END" and self.open_blocks:
            if self.open_blocks[-1].word == "ELSE":
                self.open_blocks.pop().end = token.offset
            if self.open_blocks:
                self.open_blocks[-1].end = token.end
                self.block_of[token.offset] = self.open_blocks.pop()

    def read_name(self, token: Spelled, last: Spelled) -> None:
        inside = self.open[-1] if self.open else Parenthesis("", token.offset)
        use = Use.READ
        if inside.word == "UNSET":
            use = Use.UNSET
        elif last.text in (b"(", b",") and inside.word in DEEDS and DEEDS[inside.word].is_changing(inside.commas * (2 if inside.word == "SET" else 1)):
            use = Use.SET
        self.mentions.append(Mention(token.text, use, token.offset, token.end, inside.command))

    def read_mark(self, token: Spelled, last: Spelled) -> None:
        """Opens or closes a parenthesis, or counts a comma."""
        if token.text == b"(" and last.kind == "word":
            self.open.append(Parenthesis(last.text.decode(), last.offset, self.block_of.get(last.offset)))
        elif token.text in (b"(", b"["):
            self.open.append(Parenthesis("", self.open[-1].command if self.open else token.offset))
        elif token.text in (b")", b"]") and self.open:
            closed = self.open.pop()
            if closed.block:
                closed.block.head_end = token.end
        elif token.text == b"," and self.open:
            self.open[-1].commas += 1

    def names(self) -> set[bytes]:
        return {mention.name for mention in self.mentions}

    def mentions_of(self, name: bytes) -> list[Mention]:
        return [mention for mention in self.mentions if mention.name == name]


def preset_mentions(preset: Preset) -> list[Mention]:
    """The names that a text of presets gives a value."""
    names = [token for token in tokens_in(preset.text) if token.kind == "name"]
    return [Mention(one.text, Use.PRESET, preset.offset + one.offset, preset.offset + one.end, preset.offset) for one in names]


def names_of_presets(presets: str) -> set[bytes]:
    """The names to which a text of presets gives values."""
    text = presets.encode("utf-8", "surrogatepass")
    return {mention.name for mention in preset_mentions(Preset(text, 0, len(text)))}


def head_end(text: bytes, offset: int) -> int:
    """The offset behind the head of the command that begins at an offset: its word, and what stands in the parentheses behind it."""
    depth, end = 0, offset
    for token in tokens_in(text, offset):
        if depth == 0 and end > offset and token.text != b"(":
            break
        depth += (token.text in (b"(", b"[")) - (token.text in (b")", b"]"))
        end = token.end
        if depth == 0 and token.text == b")":
            break
    return end


def open_part(text: bytes) -> tuple[bytes, bool]:
    """What of the beginning of a program decides how it goes on: all but the commands that are complete, each with what stands in it, and
    the comments. Blanks stand for these, so all else is at its place. And whether the text ends between tokens, and not in a comment or a string."""
    kept: list[tuple[bytes, int]] = []
    # where each word begins whose parenthesis or block is open, and whether that is a block; a bracket in an expression has no word
    opened: list[tuple[int, bool]] = []
    end = 0
    for found in PIECE.finditer(text):
        kind = found.lastgroup or ""
        if kind in ("end", "unfinished"):
            break
        spelling, end = found[kind], found.end()
        in_commands = not opened or opened[-1][1]
        if spelling == b"END" and opened and in_commands:
            start, _ = opened.pop()
            kept.append((spelling, end))
            if not opened or opened[-1][1]:
                del kept[start:]
        elif spelling in (b"(", b"["):
            opened.append((len(kept) - 1, False))
            kept.append((spelling, end))
        elif spelling in (b")", b"]") and not in_commands:
            start, _ = opened.pop()
            kept.append((spelling, end))
            if kept[start][0].decode() in BLOCKS:
                opened.append((start, True))
            elif kept[start][0].isupper() and (not opened or opened[-1][1]):
                del kept[start:]
        elif not (in_commands and spelling in (b"SPACE", b"NEWLINE", b"EOF")):
            kept.append((spelling, end))
    part = bytearray(text.translate(BLANKS))
    for spelling, behind in kept:
        part[behind - len(spelling) : behind] = spelling
    last_line = text[end:].rpartition(b"\n")[2]
    return bytes(part), kind == "end" and b"#" not in last_line


def next_tokens(text: bytes) -> set[str] | None:
    """The tokens with which a program goes on behind a text: none in a comment or a string, and None where the text begins no program."""
    part, is_between_tokens = open_part(text)
    if not is_between_tokens:
        return set()
    try:
        tokens = cut(part)
        parse(tokens)
    except Refused as refused:
        return set(refused.expected) if refused.message == "syntax error" and refused.offset == len(part) else None
    return set(expected(states(), tokens[:-1]))
