"""How the literal of a REGEX is read (docs/LANGUAGE.md, Regular expressions).

A part of the syntax of the Rust crate `regex`, in which its default options, Python and everybody agree. What is surely no pattern is
`BadPattern`; all else that is not in this part is `LeftOut`."""

import re
from dataclasses import dataclass, replace

from .characters import CharacterSet
from .faults import LeftOut
from .matching import Alternatives, Edge, OneOf, Pattern, Repetition, Sequence

BOUNDS = re.compile(r"\{([0-9]+)(?:(,)([0-9]*))?\}")
FLAGS = re.compile(r"\?([smu]*)(?:-([smu]+))?([:)])")
SIMPLE_ESCAPES = {"n": "\n", "t": "\t", "r": "\r", "f": "\f", "v": "\v", "a": "\a"}
ESCAPABLE = frozenset(r"\.+*?()|[]{}^$-")
# A pattern of so many levels or characters is no pattern; below, only smaller ones are sure to be one.
SURELY_TOO_DEEP = 300
SURELY_DEEP_ENOUGH = 50
SURELY_TOO_LARGE = 1_000_000
SURELY_SMALL_ENOUGH = 5_000
WIDTH_OF_CLASS = 200


class BadPattern(Exception):
    """A literal that is no pattern."""


@dataclass(frozen=True)
class Flags:
    """What `(?smu)` changes, with the defaults."""

    dot_all: bool = False
    multi_line: bool = False
    unicode: bool = True


def read_pattern(literal: bytes) -> Pattern:
    """The pattern of a literal. Raises BadPattern or LeftOut."""
    try:
        reader = Reader(literal.decode("utf-8"))
    except UnicodeDecodeError as fault:
        raise BadPattern("not UTF-8") from fault
    pattern = reader.alternatives()
    if reader.rest():
        raise BadPattern("a group that is not opened")
    size = width(pattern)
    if size >= SURELY_TOO_LARGE:
        raise BadPattern("too large")
    if size > SURELY_SMALL_ENOUGH:
        raise LeftOut("a large pattern")
    return pattern


def width(pattern: Pattern) -> int:
    """How many sets of characters a pattern has, each counted as often as it is repeated."""
    match pattern:
        case Sequence(parts) | Alternatives(parts):
            return sum(map(width, parts))
        case Repetition(part, least, most):
            return width(part) * max(least, most or 1, 1)
        case OneOf(members):
            return WIDTH_OF_CLASS if members.classes and not members.bytewise else 1
    return 1


class Reader:
    """Reads a pattern from the left."""

    def __init__(self, text: str) -> None:
        self.text = text
        self.index = 0
        self.depth = 0
        self.flags = Flags()

    def rest(self) -> bool:
        return self.index < len(self.text)

    def next_is(self, characters: str) -> bool:
        return self.rest() and self.text[self.index] in characters

    def take(self) -> str:
        if not self.rest():
            raise BadPattern("it breaks off")
        self.index += 1
        return self.text[self.index - 1]

    def alternatives(self) -> Pattern:
        found = [self.sequence()]
        while self.next_is("|"):
            self.take()
            found.append(self.sequence())
        return found[0] if len(found) == 1 else Alternatives(tuple(found))

    def sequence(self) -> Pattern:
        parts: list[Pattern] = []
        while self.rest() and not self.next_is("|)"):
            part = self.atom()
            while self.next_is("*+?{"):
                if part is None:
                    raise BadPattern("nothing to repeat")
                part = self.repetition(part)
            if part is not None:
                parts.append(part)
        return parts[0] if len(parts) == 1 else Sequence(tuple(parts))

    def repetition(self, part: Pattern) -> Pattern:
        least, most = self.bounds()
        lazy = self.next_is("?")
        if lazy:
            self.take()
        if part.can_be_empty():
            raise LeftOut("a part that is repeated and can be empty")
        return Repetition(part, least, most, lazy)

    def bounds(self) -> tuple[int, int | None]:
        """How often a part is repeated: the least number, and the greatest if there is one."""
        if not self.next_is("{"):
            return {"*": (0, None), "+": (1, None), "?": (0, 1)}[self.take()]
        found = BOUNDS.match(self.text, self.index)
        if found is None:
            if "}" not in self.text[self.index :]:
                raise BadPattern("a count that is not closed")
            raise LeftOut("an unusual count")
        self.index = found.end()
        if max(len(found[1]), len(found[3] or "")) > 9:
            raise LeftOut("a large count")
        least = int(found[1])
        most = least if found[2] is None else int(found[3]) if found[3] else None
        if most is not None and most < least:
            raise BadPattern("a count that is no range")
        return least, most

    def atom(self) -> Pattern | None:
        """One part of a sequence, or none for flags alone."""
        match self.take():
            case "(":
                return self.group()
            case "[":
                return OneOf(self.bracket_set())
            case "\\":
                return self.escape()
            case ".":
                return OneOf(self.members((() if self.flags.dot_all else ((10, 10),)), (), True))
            case ("^" | "$") as mark:
                return Edge("m" + mark if self.flags.multi_line else mark)
            case ("*" | "+" | "?" | "{"):
                raise BadPattern("nothing to repeat")
            case character:
                return self.one(character)

    def one(self, character: str) -> Pattern:
        """One character, which stands for its bytes with `(?-u)` too."""
        return OneOf(CharacterSet(((ord(character), ord(character)),)))

    def members(self, ranges: tuple[tuple[int, int], ...], classes: tuple[str, ...], negated: bool) -> CharacterSet:
        return CharacterSet(ranges, classes, negated, not self.flags.unicode)

    def group(self) -> Pattern | None:
        outer = self.flags
        if self.next_is("?"):
            found = FLAGS.match(self.text, self.index)
            if found is None or len(set(found[1] + (found[2] or ""))) < len(found[1] + (found[2] or "")):
                raise LeftOut("an unusual group")
            if not found[1] and not found[2] and found[3] == ")":
                raise LeftOut("no flags")
            self.index = found.end()
            self.flags = flags_with(flags_with(outer, found[1], True), found[2] or "", False)
            if found[3] == ")":
                return None
        self.depth += 1
        if self.depth > SURELY_TOO_DEEP:
            raise BadPattern("nested too deeply")
        inner = self.alternatives()
        if not self.next_is(")"):
            raise BadPattern("a group that is not closed")
        self.take()
        if self.depth > SURELY_DEEP_ENOUGH:
            raise LeftOut("a deep pattern")
        self.depth -= 1
        self.flags = outer
        # a group of its own, so that it is not joined with what stands around it
        return inner

    def escape(self) -> Pattern:
        character = self.take()
        if character in "dswDSW":
            return OneOf(self.members((), (character,), False))
        if character in "Az":
            return Edge("^" if character == "A" else "$")
        if character == "b" and not self.next_is("{") and self.flags.unicode:
            return Edge("b")
        if character == "x":
            return OneOf(self.members((self.hexadecimal_range(),), (), False))
        return self.one(self.escape_character(character))

    def escape_character(self, character: str) -> str:
        """The character that an escape stands for."""
        if character in SIMPLE_ESCAPES:
            return SIMPLE_ESCAPES[character]
        if character in ESCAPABLE:
            return character
        if character in "123456789":
            raise BadPattern("a back reference")
        raise LeftOut("an unusual escape")

    def hexadecimal_range(self) -> tuple[int, int]:
        digits = self.text[self.index : self.index + 2]
        if not re.fullmatch(r"[0-9A-Fa-f]{2}", digits):
            raise LeftOut("an unusual escape")
        self.index += 2
        return int(digits, 16), int(digits, 16)

    def bracket_set(self) -> CharacterSet:
        """A set in brackets, of which the first was taken."""
        negated = self.next_is("^")
        if negated:
            self.take()
        ranges: list[tuple[int, int]] = []
        classes: list[str] = []
        while not self.next_is("]") or not (ranges or classes):
            if self.text.startswith(("&&", "--", "~~"), self.index) or self.next_is("["):
                raise LeftOut("sets of sets")
            low = self.member()
            if isinstance(low, str):
                classes.append(low)
            elif self.next_is("-") and not self.text.startswith("-]", self.index):
                self.take()
                if self.next_is("-["):
                    raise LeftOut("an unusual range")
                ranges.append(self.range_from(low))
            else:
                ranges.append((low, low))
        self.take()
        if not self.flags.unicode and any(high > 0x7F for _, high in ranges):
            raise LeftOut("a set of bytes with others than ASCII")
        return self.members(tuple(ranges), tuple(classes), negated)

    def member(self) -> int | str:
        """A member of a set: the number of a character, or the letter of a class."""
        character = self.take()
        if character != "\\":
            return ord(character)
        character = self.take()
        if character in "dswDSW":
            return character
        if character == "x":
            return self.hexadecimal_range()[0]
        if character == "b":
            raise LeftOut("an unusual escape")
        return ord(self.escape_character(character))

    def range_from(self, low: int) -> tuple[int, int]:
        high = self.member()
        if isinstance(high, str) or high < low:
            raise BadPattern("no range")
        return low, high


def flags_with(flags: Flags, letters: str, on: bool) -> Flags:
    """These flags, with some of them on or off."""
    for letter in letters:
        match letter:
            case "s":
                flags = replace(flags, dot_all=on)
            case "m":
                flags = replace(flags, multi_line=on)
            case "u":
                flags = replace(flags, unicode=on)
    return flags
