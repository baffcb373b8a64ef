"""How a pattern matches: a backtracking matcher, which tries what the pattern prefers first."""

from collections.abc import Iterator
from dataclasses import dataclass

from .characters import CharacterSet, character_at, character_before, is_word
from .faults import LeftOut

MOST_TRIES = 100_000
MOST_TURNS = 1_000


@dataclass
class Search:
    """A window in which a pattern is matched."""

    window: bytes
    tries: int = 0

    def count_try(self) -> None:
        """Gives up where a match takes too long."""
        self.tries += 1
        if self.tries > MOST_TRIES:
            raise LeftOut("too many ways to match")


class Pattern:
    """A pattern, or a part of one."""

    def ends(self, search: Search, start: int) -> Iterator[int]:
        """The ends of the matches that begin at an offset, in the order of preference."""
        raise NotImplementedError

    def can_be_empty(self) -> bool:
        raise NotImplementedError

    def match_length(self, window: bytes) -> int | None:
        """The length of the preferred match at the start of a window."""
        return next(self.ends(Search(window), 0), None)


@dataclass(frozen=True)
class OneOf(Pattern):
    """One of a set of characters or bytes."""

    members: CharacterSet

    def ends(self, search: Search, start: int) -> Iterator[int]:
        search.count_try()
        end = self.members.end(search.window, start)
        if end is not None:
            yield end

    def can_be_empty(self) -> bool:
        return False


@dataclass(frozen=True)
class Edge(Pattern):
    """An empty match, at some places only: `^`, `$`, `b` for the edge of a word, and `m^` and `m$` for the edges of lines."""

    kind: str

    def ends(self, search: Search, start: int) -> Iterator[int]:
        if self.is_at(search.window, start):
            yield start

    def is_at(self, window: bytes, start: int) -> bool:
        match self.kind:
            case "^":
                return start == 0
            case "$":
                return start == len(window)
            case "m^":
                return start == 0 or window[start - 1 : start] == b"\n"
            case "m$":
                return start == len(window) or window[start : start + 1] == b"\n"
        before, behind = character_before(window, start), character_at(window, start)
        return (before != "" and is_word(ord(before))) != (behind != "" and is_word(ord(behind)))

    def can_be_empty(self) -> bool:
        return True


@dataclass(frozen=True)
class Sequence(Pattern):
    """One part behind the other."""

    parts: tuple[Pattern, ...]

    def ends(self, search: Search, start: int) -> Iterator[int]:
        return self.ends_behind(search, start, 0)

    def ends_behind(self, search: Search, start: int, index: int) -> Iterator[int]:
        """The ends of the matches of the parts from an index on."""
        if index == len(self.parts):
            yield start
            return
        for end in self.parts[index].ends(search, start):
            yield from self.ends_behind(search, end, index + 1)

    def can_be_empty(self) -> bool:
        return all(part.can_be_empty() for part in self.parts)


@dataclass(frozen=True)
class Alternatives(Pattern):
    """The first alternative that leads to a match wins."""

    alternatives: tuple[Pattern, ...]

    def ends(self, search: Search, start: int) -> Iterator[int]:
        for alternative in self.alternatives:
            yield from alternative.ends(search, start)

    def can_be_empty(self) -> bool:
        return any(alternative.can_be_empty() for alternative in self.alternatives)


@dataclass(frozen=True)
class Repetition(Pattern):
    """A part that cannot be empty, some number of times: as many as lead to a match, or as few."""

    part: Pattern
    least: int
    most: int | None
    lazy: bool

    def ends(self, search: Search, start: int) -> Iterator[int]:
        if isinstance(self.part, OneOf):
            return self.ends_of_run(search, start, self.part.members)
        return self.ends_behind(search, start, 0)

    def ends_of_run(self, search: Search, start: int, members: CharacterSet) -> Iterator[int]:
        """For one set of characters: the ends of all numbers of characters are found first."""
        ends = [start]
        while self.most is None or len(ends) <= self.most:
            search.count_try()
            end = members.end(search.window, ends[-1])
            if end is None:
                break
            ends.append(end)
            if len(ends) == MOST_TURNS:
                # a long run of single bytes is found at once
                rest = search.window[end:]
                length = len(rest) - len(rest.lstrip(members.single_bytes))
                if self.most is not None:
                    length = min(length, self.most - (len(ends) - 1))
                ends.extend(range(end + 1, end + length + 1))
        fitting = ends[self.least :]
        return iter(fitting if self.lazy else reversed(fitting))

    def ends_behind(self, search: Search, start: int, turns: int) -> Iterator[int]:
        """The ends of the matches behind this number of times."""
        if turns > MOST_TURNS:
            raise LeftOut("too many turns of a part")
        if self.lazy and turns >= self.least:
            yield start
        if self.most is None or turns < self.most:
            for end in self.part.ends(search, start):
                yield from self.ends_behind(search, end, turns + 1)
        if not self.lazy and turns >= self.least:
            yield start

    def can_be_empty(self) -> bool:
        return self.least == 0
