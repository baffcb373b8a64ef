"""What commands take from the data (docs/LANGUAGE.md, Commands and Whitespace mode)."""

from . import limits
from .faults import Rejected, Stopped
from .matching import Pattern

BLANKS = b" \t\v\f\r"


class Data:
    """The data of a run, and how many of their bytes were taken."""

    def __init__(self, content: bytes, fails: bool = False) -> None:
        """`fails`: whether reading fails behind these bytes, in place of their end."""
        self.content = content
        self.fails = fails
        self.taken = 0

    def next_byte(self) -> bytes:
        """The next byte, or none at the end of the data."""
        byte = self.content[self.taken : self.taken + 1]
        if not byte and self.fails:
            raise Stopped("read failed")
        return byte

    def is_at_end(self) -> bool:
        return not self.next_byte()

    def next_is_one_of(self, allowed: bytes) -> bool:
        byte = self.next_byte()
        return bool(byte) and byte in allowed

    def take_end(self) -> None:
        if self.next_byte():
            raise Rejected("expected end of file")

    def take_byte(self, wanted: bytes, message: str) -> None:
        if self.next_byte() != wanted:
            raise Rejected(message)
        self.taken += 1

    def take_space(self) -> None:
        self.take_byte(b" ", "expected a space")

    def take_newline(self) -> None:
        self.take_byte(b"\n", "expected a newline")

    def skip_first_blanks(self) -> None:
        """What is done before the first command: without -w, nothing."""

    def take_text(self, wanted: bytes) -> None:
        for byte in wanted:
            self.take_byte(bytes([byte]), "string does not match")

    def digits(self) -> bytes:
        """Takes all digits that follow."""
        start = self.taken
        while self.next_byte().isdigit():
            self.taken += 1
        return self.content[start : self.taken]

    def take_integer(self, least: int, greatest: int) -> int:
        """Takes an integer between two bounds, and judges it."""
        negative = self.next_byte() == b"-"
        self.taken += negative
        digits = self.digits()
        if not digits:
            raise Rejected("expected an integer")
        if digits[:1] == b"0" and negative:
            raise Rejected("integer with minus zero")
        if digits[:1] == b"0" and len(digits) > 1:
            raise Rejected("integer with a leading zero")
        # no bound has more than 39 digits
        number = int(digits[:40]) * (-1 if negative else 1)
        if not least <= number <= greatest:
            raise Rejected("value out of range")
        return number

    def take_match(self, pattern: Pattern) -> bytes:
        """Takes a match of a pattern in the window."""
        window = self.content[self.taken : self.taken + limits.WINDOW]
        if len(window) < limits.WINDOW and self.fails:
            raise Stopped("read failed")
        length = pattern.match_length(window)
        if length is None:
            raise Rejected("regular expression does not match")
        if length == limits.WINDOW:
            raise Stopped("match too long")
        self.taken += length
        return window[:length]


class BlanksMayDiffer(Data):
    """The data with -w."""

    def skip_blanks(self) -> None:
        """Takes all blanks that follow."""
        while self.next_is_one_of(BLANKS):
            self.taken += 1

    def skip_first_blanks(self) -> None:
        self.skip_blanks()

    def take_space(self) -> None:
        if not self.next_is_one_of(BLANKS):
            raise Rejected("expected a space")
        self.skip_blanks()

    def take_newline(self) -> None:
        self.skip_blanks()
        super().take_newline()
        self.skip_blanks()

    def take_end(self) -> None:
        self.skip_blanks()
        super().take_end()
