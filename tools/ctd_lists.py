"""The form of test data, by their lines alone: lists with a number in front that counts them, test cases among them, and the numbers and words
that are the greatest, the least and the longest where they stand."""
from __future__ import annotations

import re
from array import array
from collections.abc import Callable, Iterator, Sequence
from dataclasses import dataclass, field
from itertools import islice

# How many numbers of a line may be counts, how many digits a count has at most, and how many columns of a line are told apart.
HEADER = 3
MOST_DIGITS = 8
COLUMNS = 8
# Lists of fewer items than this are taken for chance, where the lines around them look like theirs.
SURE = 4
# How many lines are split into words at once.
PART = 1 << 16
WORD = re.compile(rb"\S+")
# A letter, or a sign that is no part of a number and parts no words.
LETTER = rb"[A-Za-z]|(?<![0-9])[^\s\w,;:](?![0-9])"
# By which of its first numbers a test case has lines behind its first, and how many more it has than they say.
CASES = [((0,), 0), ((1,), 0), ((0, 1), 0), ((0,), -1), ((), 0), ((0,), 1), ((1,), 1), ((0, 1), 1), ((0,), 2)]


@dataclass(frozen=True)
class Counted:
    """A list that a number counts: the place of the number and what it is, which may be more than the items are; the places of the list and of
    its longest item, where the first item and the last but one end, and what parts two items. The list may be left out from `before` on, which
    is in front of the line feed or blank before it; an empty one can have a line. Where its items are not known there are none."""

    count_start: int
    count_end: int
    number: int
    before: int
    start: int
    end: int
    items: int = 0
    first_end: int = 0
    last_but_one_end: int = 0
    longest: tuple[int, int] = (0, 0)
    separator: bytes = b"\n"
    has_line: bool = False


@dataclass
class Form:
    """What is known of the form of data: the lists by the place of their count; the places of the greatest and least numbers and of the longest
    words, each of those in the same column of lines that look alike; and the letters and signs that the data have."""

    lists: dict[int, list[Counted]] = field(default_factory=dict)
    letters: set[bytes] = field(default_factory=set)
    greatest: set[int] = field(default_factory=set)
    least: set[int] = field(default_factory=set)
    longest: set[int] = field(default_factory=set)

    def add_part(self, text: bytes, offset: int, is_first: bool, is_last: bool) -> None:
        """Adds what the whole lines of a part of the data show, which begins at an offset."""
        lines = Lines.of(text, offset, is_first, is_last)
        for counted in dict.fromkeys([*lines.lists(), *(lines.cases() if is_first and is_last else [])]):
            of_count = self.lists.setdefault(counted.count_start, [])
            if counted.items or not of_count:
                of_count.append(counted)
        self.add_extremes(lines)
        signs = (re.escape(bytes([byte])) for byte in set(text))
        self.letters |= {found[0] for sign in signs if (found := re.search(rb"(?=%b)(?:%b)" % (sign, LETTER), text))}

    def add_extremes(self, lines: Lines) -> None:
        """Adds the greatest and least numbers and the longest words of each column."""
        best: dict[tuple[int, int, str], tuple[int, int]] = {}
        for shape, column, words, place in lines.columns():
            for name, ranks in ranks_of(words):
                greatest = max(ranks)
                key = (shape, column, name)
                if key not in best or best[key][0] < greatest:
                    best[key] = (greatest, place(ranks.index(greatest)))
        for (_, _, name), (_, at) in best.items():
            getattr(self, name).add(at)


def ranks_of(words: Sequence[bytes]) -> Iterator[tuple[str, list[int]]]:
    """In what words of a column are compared: numbers by what they are, and others by their length."""
    try:
        numbers = list(map(int, words))
        yield "greatest", numbers
        yield "least", [-number for number in numbers]
    except ValueError:
        yield "longest", list(map(len, words))


def is_number(word: bytes) -> bool:
    return word[word.startswith(b"-") :].isdigit()


@dataclass(frozen=True)
class Lines:
    """The lines of a text, which begins at an offset of the data: where each begins and ends without its line feed, its shape (how many words
    it has, and which of the first are numbers), and how many lines of its shape follow one another from it on."""

    text: bytes
    offset: int
    starts: Sequence[int]
    ends: Sequence[int]
    shapes: Sequence[int]
    runs: Sequence[int]

    @staticmethod
    def of(text: bytes, offset: int, is_first: bool, is_last: bool) -> Lines:
        """The lines of a text; one that is cut at its start or end is left out."""
        feeds = [found.start() for found in re.finditer(rb"\n", text)]
        ends = array("q", feeds if not is_last or text.endswith(b"\n") or not text else [*feeds, len(text)])
        starts = array("q", [0, *(feed + 1 for feed in feeds)])[: len(ends)]
        if not is_first:
            starts, ends = starts[1:], ends[1:]
        shapes = array("q", (shape_of(text[start:end]) for start, end in zip(starts, ends)))
        runs = array("q", [1] * len(shapes))
        for index in range(len(shapes) - 2, -1, -1):
            if shapes[index] == shapes[index + 1]:
                runs[index] = runs[index + 1] + 1
        return Lines(text, offset, starts, ends, shapes, runs)

    def __len__(self) -> int:
        return len(self.starts)

    def words(self, index: int) -> Iterator[re.Match[bytes]]:
        return WORD.finditer(self.text, self.starts[index], self.ends[index])

    def count(self, index: int) -> int:
        """How many words a line has."""
        return self.shapes[index] >> COLUMNS

    def columns(self) -> Iterator[tuple[int, int, list[bytes], Callable[[int], int]]]:
        """The words of each column of lines that look alike, in parts: their shape, the column, the words, and the place of each by its number
        there. Columns far behind are one."""
        groups: dict[int, array[int]] = {}
        for index, shape in enumerate(self.shapes):
            groups.setdefault(shape, array("q")).append(index)
        for shape, indexes in groups.items():
            width = (shape >> COLUMNS) - COLUMNS
            for first in range(0, len(indexes), PART):
                part = indexes[first : first + PART]
                rows = [self.text[self.starts[index] : self.ends[index]].split() for index in part]
                for column in range(COLUMNS + min(width, 0)):
                    yield shape, column, [row[column] for row in rows], lambda number: self.place(part[number], column)
                if width > 0:
                    behind = [word for row in rows for word in row[COLUMNS:]]
                    yield shape, COLUMNS, behind, lambda number: self.place(part[number // width], COLUMNS + number % width)

    def place(self, index: int, column: int) -> int:
        """The offset of a word of a line in the data."""
        return self.offset + next(islice(self.words(index), column, None)).start()

    def counts(self, index: int) -> list[tuple[int, re.Match[bytes], int]]:
        """The first words of a line that may be counts, each with its column and its number."""
        first = enumerate(islice(self.words(index), HEADER))
        return [(column, word, int(word[0])) for column, word in first if word[0].isdigit() and len(word[0]) <= MOST_DIGITS]

    def numbers(self, index: int) -> list[int]:
        """The first words of a line as counts; one that is none is -1."""
        words = self.text[self.starts[index] : self.ends[index]].split(None, HEADER)[:HEADER]
        return [int(word) if word.isdigit() and len(word) <= MOST_DIGITS else -1 for word in words]

    # the lists

    def lists(self) -> Iterator[Counted]:
        """The lists that a number in front of them counts: the rest of its line, the words or letters of the next line, or lines that look alike."""
        for index in range(len(self)):
            if not self.shapes[index] & ((1 << HEADER) - 1) or (self.is_inside(index) and self.count(index) <= SURE):
                continue
            counts, rows = self.counts(index), 0
            for column, word, number in counts:
                for counted in self.lists_in_line(index, column, word, number):
                    rows += counted.start > self.ends[index]
                    yield counted
            for _, word, number in counts:
                first = next((at for at in range(index + 1, index + 2 + bool(rows)) if self.is_run(index, at, number)), None)
                if first is not None:
                    missing = number - self.runs[first]
                    yield self.of_lines(word, number, range(first, first + number - missing + 1))

    def lists_in_line(self, index: int, column: int, word: re.Match[bytes], number: int) -> Iterator[Counted]:
        """The list of a number in the rest of its line, or in the next line."""
        count = self.count(index)
        if number > 1 and count - column - 1 == number and (number >= SURE or not self.is_inside(index)):
            yield self.of_words(word, number, list(self.words(index))[column + 1 :], word.end(), False)
        if index + 1 == len(self) or number < 2 or self.shapes[index + 1] == self.shapes[index]:
            return
        start, end = self.starts[index + 1], self.ends[index + 1]
        if self.count(index + 1) == number:
            yield self.of_words(word, number, list(self.words(index + 1)), self.ends[index], True)
        elif end - start == number and self.count(index + 1) == 1 and (number >= SURE or not self.text[start:end].isdigit()):
            places = [(at, at + 1) for at in (start, end - 1, end - 2, end - 1)]
            yield self.listed(word, number, number, places, self.ends[index], b"", True)

    def is_inside(self, index: int) -> bool:
        """Whether the lines on both sides of a line look like it."""
        return 0 < index < len(self) - 1 and self.shapes[index - 1] == self.shapes[index] == self.shapes[index + 1]

    def is_run(self, index: int, first: int, number: int) -> bool:
        """Whether just so many lines from a first one on look alike, or as in a tree one fewer, and are no more than the rest of other ones."""
        if first >= len(self) or number < 2 or not (self.runs[first] == number or self.runs[first] == number - 1 > 1):
            return False
        is_start = index == 0 or self.shapes[index - 1] != self.shapes[index]
        return self.shapes[first - 1] != self.shapes[first] or (first == index + 1 and is_start)

    def of_words(self, word: re.Match[bytes], number: int, words: Sequence[re.Match[bytes]], before: int, has_line: bool) -> Counted:
        """The list of words of a line."""
        longest = max(words, key=lambda one: one.end() - one.start())
        places = [words[0].span(), longest.span(), words[-2].span(), words[-1].span()]
        return self.listed(word, number, len(words), places, before, self.text[words[0].end() : words[1].start()], has_line)

    def of_lines(self, word: re.Match[bytes], number: int, bounds: Sequence[int]) -> Counted:
        """The list of items that are lines, by the lines with which they begin, and the one behind the last."""

        def item(index: int) -> tuple[int, int]:
            return self.starts[bounds[index]], self.ends[bounds[index + 1] - 1]

        items = len(bounds) - 1
        longest = max(range(items), key=lambda index: item(index)[1] - item(index)[0])
        places = [item(index) for index in (0, longest, max(items - 2, 0), items - 1)]
        return self.listed(word, number, items, places, self.starts[bounds[0]] - 1, b"\n", False)

    def listed(
        self, word: re.Match[bytes], number: int, items: int, places: Sequence[tuple[int, int]], before: int, separator: bytes, has_line: bool
    ) -> Counted:
        """A list by the places of its first, longest, last but one and last item in the text."""
        (start, first_end), (longest, longest_end), (_, last_but_one_end), (_, end) = (
            (self.offset + start, self.offset + end) for start, end in places
        )
        count_start, count_end = self.offset + word.start(), self.offset + word.end()
        of_items = (items, first_end, last_but_one_end, (longest, longest_end))
        return Counted(count_start, count_end, number, self.offset + before, start, end, *of_items, separator, has_line)

    # the test cases

    def cases(self) -> Iterator[Counted]:
        """The list of test cases, where the first line has their number, and the lists of lines in each. Of cases whose form is not found only
        the list as a whole is known."""
        counts = self.counts(0) if len(self) > 1 and self.count(0) == 1 else []
        for _, word, number in counts:
            for columns, more in CASES:
                bounds = self.bounds_of_cases(number, columns, more)
                if bounds:
                    yield self.of_lines(word, number, bounds)
                    yield from self.lists_in_cases(bounds, columns, more)
                    return
            if number:
                start, end = self.starts[1], self.ends[-1]
                yield Counted(word.start(), word.end(), number, start - 1, start, end)

    def bounds_of_cases(self, cases: int, columns: Sequence[int], more: int) -> list[int]:
        """The lines with which test cases of a form begin, and the end; none where they do not end with the data."""
        lines = len(self)
        if cases == 1 or not columns:
            length, rest = divmod(lines - 1, max(cases, 1))
            return list(range(1, lines + 1, length)) if cases and length and not rest else []
        bounds, at = [1], 1
        for _ in range(min(cases, lines)):
            numbers = self.numbers(at) if at < lines else []
            if any(column >= len(numbers) or numbers[column] < 0 for column in columns):
                return []
            length = 1 + more + sum(numbers[column] for column in columns)
            if length < 1:
                return []
            at += length
            bounds.append(at)
        return bounds if at == lines and len(bounds) == cases + 1 else []

    def lists_in_cases(self, bounds: Sequence[int], columns: Sequence[int], more: int) -> Iterator[Counted]:
        """The lists of lines in test cases that have nothing else behind their first line."""
        if more > 0 or len(bounds) == 2:
            return
        for first in bounds[:-1]:
            at, counts = first + 1, {column: (word, number) for column, word, number in self.counts(first)}
            for column in columns:
                word, number = counts[column]
                if number + more > 0:
                    yield self.of_lines(word, number, range(at, at + number + more + 1))
                at += number + more


def shape_of(line: bytes) -> int:
    """How many words a line has, and which of the first are numbers, in one number."""
    words = line.split()
    shape = len(words) << COLUMNS
    for column, word in enumerate(words[:COLUMNS]):
        shape |= is_number(word) << column
    return shape
