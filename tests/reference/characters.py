"""Characters of UTF-8 and bytes, and the classes \\d, \\s and \\w of the patterns of REGEX."""

import unicodedata
from collections.abc import Callable
from dataclasses import dataclass
from functools import cached_property

from .faults import LeftOut

# The property White_Space of Unicode.
SPACES = frozenset(map(ord, "\t\n\v\f\r \x85\xa0\u1680\u2028\u2029\u202f\u205f\u3000")) | frozenset(range(0x2000, 0x200B))
# Categories of \w; its other characters are the circled letters and the two joiners.
WORD_CATEGORIES = ("L", "M", "Nd", "Nl", "Pc")
LENGTHS = ((0x80, 1), (0xC2, 0), (0xE0, 2), (0xF0, 3), (0xF5, 4))


def character_at(window: bytes, start: int) -> str:
    """The character of UTF-8 that begins at an offset, or an empty text where none does."""
    if start >= len(window):
        return ""
    length = next((length for bound, length in LENGTHS if window[start] < bound), 0)
    return one_character(window[start : start + length])


def character_before(window: bytes, end: int) -> str:
    """The character of UTF-8 that ends at an offset, or an empty text where none does."""
    found = (one_character(window[max(end - length, 0) : end]) for length in range(1, 5))
    return next(filter(None, found), "")


def one_character(encoded: bytes) -> str:
    try:
        text = encoded.decode("utf-8")
    except UnicodeDecodeError:
        return ""
    return text if len(text) == 1 else ""


def category(code: int) -> str:
    """The general category of a character, where all versions of Unicode agree on it."""
    character = chr(code)
    found = unicodedata.category(character)
    if unicodedata.ucd_3_2_0.category(character) != found or found == "Cn":
        raise LeftOut(f"the category of {character!r}")
    return found


def is_digit(code: int) -> bool:
    return 0x30 <= code <= 0x39 or (code > 0x7F and category(code) == "Nd")


def is_space(code: int) -> bool:
    return code in SPACES


def is_word(code: int) -> bool:
    if code <= 0x7F:
        return chr(code).isalnum() or code == ord("_")
    if 0x24B6 <= code <= 0x24E9 or code in (0x200C, 0x200D):
        return True
    return category(code).startswith(WORD_CATEGORIES)


CLASSES: dict[str, Callable[[int], bool]] = {"d": is_digit, "s": is_space, "w": is_word}


@dataclass(frozen=True)
class CharacterSet:
    """A set of characters, or of bytes where `bytewise`: ranges, and classes by their letters, which are capital where they are negated."""

    ranges: tuple[tuple[int, int], ...] = ()
    classes: tuple[str, ...] = ()
    negated: bool = False
    bytewise: bool = False

    def contains(self, code: int) -> bool:
        found = any(low <= code <= high for low, high in self.ranges) or any(self.is_in_class(code, letter) for letter in self.classes)
        return found != self.negated

    def is_in_class(self, code: int, letter: str) -> bool:
        # over bytes, a class has ASCII alone
        inside = CLASSES[letter.lower()](code) and not (self.bytewise and code > 0x7F)
        return inside != letter.isupper()

    @cached_property
    def single_bytes(self) -> bytes:
        """The members that are one byte long."""
        return bytes(code for code in range(256 if self.bytewise else 128) if self.contains(code))

    def end(self, window: bytes, start: int) -> int | None:
        """The end of the member that begins at an offset."""
        if self.bytewise:
            return start + 1 if start < len(window) and self.contains(window[start]) else None
        character = character_at(window, start)
        if not character or not self.contains(ord(character)):
            return None
        return start + len(character.encode("utf-8"))
