"""The runs of copies on one file of data, by which it is found what the file tries of a program."""
from __future__ import annotations

import os
from collections.abc import Callable

from ctd_companion import Place
from ctd_coverage import Findings, Found, Skeleton, Spot, Thing
from ctd_guesses import Guess, Reading, Watching
from ctd_ladders import Ladder, Sought
from ctd_questions import Asker, CannotAsk, Copy, EndedOtherwise, bytes_before, numeral, place_at

# Runs stop at something, so many of them and until they have read as much as the file has, where it counts as some bytes that one starts, and a number
# that does not stand in the data takes some runs more. Then the file is read here.
MOST_RUNS = 6
START = 1 << 16
ROUNDS = 4
# No number of the language has more digits.
DIGITS = 40


class FileRun:
    """The runs of copies on one file, and what is found. First each stops at something. If that takes too many, the file is read here, and one run
    confirms what was found; only where it does not, others go on to stop."""

    is_telling_turns = False

    def __init__(self, skeleton: Skeleton, asker: Asker, name: str, before: Findings, reading: Reading, is_whole: bool = True) -> None:
        self.skeleton, self.asker, self.name, self.reading, self.is_whole = skeleton, asker, name, reading, is_whole
        self.found = dict(before)
        # a thing that is asked for alone, and what is asked of it
        self.only: Thing | None = None
        self.asked: Callable[[Copy], None] = Copy.finish
        # what the run watches that is to confirm something
        self.watching: Watching | None = None

    def whole(self) -> dict[Thing, Found]:
        """All that the file gives: runs until nothing is open, or a copy fits."""
        left, is_read = os.fstat(self.asker.data.fileno()).st_size, False
        while any(map(self.is_open, self.skeleton.things)) and (stopped := self.asker.first_failing(self.skeleton.copy(self))):
            thing, place = self.skeleton.thing_of(stopped[0]), stopped[1]
            left -= (START + self.asker.offset(place)) * (ROUNDS if thing.sign and not thing.is_taken else 1)
            if not is_read and (left < 0 or self.asker.runs >= MOST_RUNS):
                is_read = True
                if self.is_confirmed():
                    break
            self.take(thing, place)
        return self.found

    def is_confirmed(self) -> bool:
        """Takes over what is found where the file is read here, if the checker confirms all of it in one run."""
        before, data = dict(self.found), self.asker.content()
        guesses = {thing: guess for thing, guess in self.reading.guesses(data).items() if self.is_open(thing) and self.is_better(thing, guess)}
        for thing, guess in guesses.items():
            self.found[thing] = self.found_at(thing, place_at(data, guess.offset), guess.value if thing.sign else 0)
        self.watching = Watching(self.skeleton, guesses)
        try:
            if self.asker.first_failing(self.skeleton.copy(self, self.watching.start, self.watching.end)) is None:
                return True
        except (CannotAsk, EndedOtherwise):
            # (a copy that watches is deeper than one that stops)
            pass
        finally:
            self.watching = None
        self.found = before
        return False

    def is_better(self, thing: Thing, guess: Guess) -> bool:
        return thing not in self.found or (guess.value - self.found[thing].value) * thing.sign > 0

    def take(self, thing: Thing, place: Place) -> None:
        """Takes over that a question stopped at a place."""
        found = self.found[thing] = self.found_at(thing, place, self.number(thing, place) if thing.sign else 0)
        # the first number is the least and the greatest
        if other := self.skeleton.opposites.get(thing):
            self.found.setdefault(other, found)

    def found_at(self, thing: Thing, place: Place, value: int) -> Found:
        """What is found where something happened: a number that an INT took stands before the place."""
        shift = len(str(value)) if thing.expression in self.skeleton.taken else 0
        return Found(Spot(self.name, place.line, place.column - shift), value)

    def question_for(self, thing: Thing) -> bytes | None:
        """What is asked of a thing; None where nothing is open."""
        found = self.found.get(thing)
        if not thing.is_asked:
            return None
        if not self.is_whole and not self.skeleton.is_told(thing, self.found):
            return None
        if thing.sign and found:
            return None if found.value == thing.bound else b"ASSERT(%b) " % thing.stays(found.value)
        return None if found else b"ASSERT(%b) " % (b"0!=0" if thing.sign else thing.test)

    @property
    def counter(self) -> bytes | None:
        """The variable that counts the NEWLINEs, where they are counted."""
        return self.watching.counter if self.watching else None

    def is_open(self, thing: Thing) -> bool:
        if self.watching and self.watching.is_open(thing):
            return True
        return thing is self.only if self.only else self.question_for(thing) is not None

    def put(self, copy: Copy, thing: Thing) -> None:
        """Puts into a copy what is asked of a thing, or what watches it."""
        if self.watching and self.watching.is_open(thing):
            self.watching.put(copy, thing)
        elif thing is self.only:
            self.asked(copy)
        elif self.only is None and (text := self.question_for(thing)):
            copy.ask(self.skeleton.question(thing, text))

    def number(self, thing: Thing, place: Place) -> int:
        """The number at the place where a question stopped: it stands before it in the data, or else it is asked for."""
        if thing.is_taken:
            digits = bytes_before(self.asker.data, place, DIGITS)
            start = len(digits.rstrip(b"0123456789"))
            return int(digits[start - (digits[start - 1 : start] == b"-") :])
        best = self.found.get(thing)
        sought = Sought(thing.expression, *thing.range_beyond(best.value if best else None), range(-20, 256))

        def ask(copy: Copy) -> None:
            copy.add(b"IF(%b) " % (thing.passes(best.value) if best else b"0==0"))
            ladder.ask(copy)
            copy.add(b"END ")

        self.only, self.asked = thing, ask
        while not sought.is_found:
            ladder = Ladder([sought], self.skeleton.fresh)
            ladder.take(self.asker.told(self.skeleton.copy(self)))
        self.only, self.asked = None, Copy.finish
        assert isinstance(sought.low, int)
        return sought.low
