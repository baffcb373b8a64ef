"""How a check ends early: each fault has the text of its message. A program that is none is Refused: status 2."""

from ctd_program import Refused

__all__ = ["Fault", "LeftOut", "Misused", "Refused", "Rejected", "Stopped"]


class Fault(Exception):
    """What ends a check early, with its message."""

    def __init__(self, message: str) -> None:
        super().__init__(message)
        self.message = message


class Rejected(Fault):
    """The data do not fit: status 1."""


class Stopped(Fault):
    """A run stops without a verdict: status 2."""


class Misused(Fault):
    """The command line or the files are wrong: status 2."""


class LeftOut(Exception):
    """The reference has no answer: a pattern is outside its part of the syntax, or a run takes too long for it."""
