"""What a file may try of a program, as it is found by reading the file here; and the copy of the program by which the checker confirms that."""
from __future__ import annotations

from collections.abc import Mapping
from dataclasses import dataclass
from functools import cached_property
from typing import NamedTuple

from ctd_coverage import Skeleton, Thing
from ctd_program import commands_of
from ctd_questions import GREATEST, LEAST, Copy, numeral
from ctd_reader import CannotRead, Reader, reader_of


class Guess(NamedTuple):
    """That a thing has happened (1), or the best number; how many NEWLINEs came before that, and how many bytes of the data."""

    value: int
    lines: int
    offset: int


@dataclass(frozen=True)
class Watch:
    """How a copy watches a thing throughout the data: in a variable it keeps whether the thing has happened, or the best number, and in another one how
    many NEWLINEs came before that."""

    thing: Thing
    best: bytes
    lines: bytes
    counter: bytes

    @property
    def first(self) -> int:
        """What is kept as long as nothing has happened."""
        return 0 if not self.thing.sign else LEAST if self.thing.sign > 0 else GREATEST

    @property
    def start(self) -> bytes:
        return b"SET(%b=%b,%b=0) " % (self.best, numeral(self.first), self.lines)

    @property
    def keeping(self) -> bytes:
        """What stands where the thing may happen."""
        thing, value = self.thing, self.thing.expression or b"1"
        test = b"%b%b%b" % (value, b">" if thing.sign > 0 else b"<", self.best) if thing.sign else b"%b==0&&!(%b)" % (self.best, thing.test)
        return b"IF(%b) SET(%b=%b,%b=%b) END " % (test, self.best, value, self.lines, self.counter)

    def confirming(self, guess: Guess) -> bytes:
        """What stands at the end, and fails where something else was kept."""
        return b"ASSERT(%b==%b&&%b==%d) " % (self.best, numeral(guess.value), self.lines, guess.lines)


class Watching:
    """What a copy watches: all things of a program, or those of some guesses, which it confirms at its end."""

    is_telling_turns = False

    def __init__(self, skeleton: Skeleton, guesses: Mapping[Thing, Guess] | None = None) -> None:
        self.counter, self.guesses = skeleton.fresh + b"n", guesses or {}
        names = ((thing, b"%bw%d" % (skeleton.fresh, number), b"%bl%d" % (skeleton.fresh, number)) for number, thing in enumerate(skeleton.things))
        self.watches = {thing: Watch(thing, best, lines, self.counter) for thing, best, lines in names if guesses is None or thing in guesses}

    @property
    def start(self) -> bytes:
        return b"SET(%b=0) " % self.counter + b"".join(one.start for one in self.watches.values())

    @property
    def end(self) -> bytes:
        return b"".join(self.watches[thing].confirming(guess) for thing, guess in self.guesses.items())

    def is_open(self, thing: Thing) -> bool:
        return thing in self.watches

    def put(self, copy: Copy, thing: Thing) -> None:
        if thing in self.watches:
            copy.add(self.watches[thing].keeping)


@dataclass(frozen=True)
class Reading:
    """How files are read here, as a program says."""

    skeleton: Skeleton
    skips_blanks: bool

    @cached_property
    def watching(self) -> Watching:
        return Watching(self.skeleton)

    @cached_property
    def reader(self) -> Reader | None:
        """What reads a file; None where the program is none that is read here."""
        copy = self.skeleton.copy(self.watching, self.watching.start)
        names = [name for one in self.watching.watches.values() for name in (one.best, one.lines)]
        try:
            return reader_of(commands_of(bytes(copy.text)), self.skeleton.presets, self.skips_blanks, names)
        except CannotRead:
            return None

    def guesses(self, data: bytes) -> dict[Thing, Guess]:
        """What happened, and the best numbers."""
        try:
            kept = self.reader(data) if self.reader else {}
        except CannotRead:
            return {}
        watches = self.watching.watches.values()
        found = {one.thing: Guess(int(kept[one.best].value), int(kept[one.lines].value), kept[one.lines].offset) for one in watches if kept}
        return {thing: guess for thing, guess in found.items() if guess.value != self.watching.watches[thing].first}
