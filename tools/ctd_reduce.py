"""Small files that still show what a larger one shows: what is left after simple cuts of lines, words and letters, and with smaller numbers."""
from __future__ import annotations

import re
from collections.abc import Callable, Iterable, Iterator
from dataclasses import dataclass, field
from hashlib import sha256

# How many questions are asked of a file, each for so many bytes. The checker answers most of them by itself, in a few milliseconds.
MOST_QUESTIONS = 3000
BYTES_OF_A_QUESTION = 32768
# How many bytes in front of a cut, and at the start of the data, are looked at for a number that may count.
NEAR = 4096
# Runs of fewer pieces are cut wherever they begin.
EACH_START = 5
NUMBER = re.compile(rb"(?<![\w.+-])-?[0-9]{1,30}(?![\w.])")
LINE = re.compile(rb"[^\n]*\n|[^\n]+")
WORD = re.compile(rb"[^\s]+")
LETTERS = re.compile(rb"[A-Za-z]{2,}")


@dataclass(frozen=True)
class Cut:
    """Some of the pieces of a part of the data: the offset of the first, the bytes that go with them, how many, and how many there are in all."""

    at: int
    start: int
    end: int
    count: int
    total: int


# All cuts of so many pieces at once, in order.
Cuts = Callable[[bytes, int], Iterator[Cut]]


def sizes(total: int) -> list[int]:
    """How many of so many pieces are cut at once, large numbers first: those that cases of one, two or three pieces make up."""
    return sorted((times * 2**power for power in range(total.bit_length()) for times in (1, 3)), reverse=True)


def starts(total: int, size: int) -> Iterable[int]:
    """The pieces with which a run of so many can begin: each for short ones, and for others those behind whole runs, or behind these and a head of
    one or two pieces."""
    return range(total) if size < EACH_START else sorted({*range(0, total, size), *range(1, total, size), *range(2, total, size)})


def line_cuts(data: bytes, size: int) -> Iterator[Cut]:
    """Runs of lines."""
    lines = [found.span() for found in LINE.finditer(data)]
    for first in starts(len(lines), size):
        run = lines[first : first + size]
        yield Cut(run[0][0], run[0][0], run[-1][1], len(run), len(lines))


def word_cuts(data: bytes, size: int) -> Iterator[Cut]:
    """Runs of words of a line, with what parts them from a neighbour."""
    for line in LINE.finditer(data):
        words = [found.span() for found in WORD.finditer(data, *line.span())]
        for first in starts(len(words), size):
            last = min(first + size, len(words)) - 1
            start, end = words[first][0], words[last][1]
            if last + 1 < len(words):
                yield Cut(start, start, words[last + 1][0], last + 1 - first, len(words))
            else:
                yield Cut(start, words[first - 1][1] if first else start, end, last + 1 - first, len(words))


def letter_cuts(data: bytes, size: int) -> Iterator[Cut]:
    """Runs of letters of a word."""
    for word in LETTERS.finditer(data):
        start, end = word.span()
        for at in range(start, end, size):
            yield Cut(at, at, min(at + size, end), min(size, end - at), end - start)


def counts_before(data: bytes, cut: Cut) -> Iterator[tuple[re.Match[bytes], int]]:
    """Numbers in front of a cut that may count its pieces, or cases that they make up, each with the number that it would then be."""
    numbers = [*NUMBER.finditer(data, 0, min(NEAR, cut.start)), *NUMBER.finditer(data, max(NEAR, cut.start - NEAR), cut.start)]
    exact = [found for found in numbers if int(found[0]) in (cut.total, cut.total - 1)]
    lesser = sorted({cut.count // size for size in (1, 2, 3) if cut.count % size == 0} | {1}, reverse=True)
    for found in {found.start(): found for found in (*exact[-1:], *numbers[:2], *numbers[-2:])}.values():
        yield from ((found, int(found[0]) - less) for less in lesser if int(found[0]) >= less)


@dataclass
class Reduction:
    """Data that become smaller while they stay like those at first: `is_like` says so. What is left is counted down with each question."""

    data: bytes
    is_like: Callable[[bytes], bool]
    left: int = MOST_QUESTIONS
    # the digests of the data that were asked of
    asked: set[bytes] = field(default_factory=set)

    def whole(self) -> bytes:
        """The data behind all cuts that can be made."""
        before = None
        while self.data != before:
            before = self.data
            for cuts in (line_cuts, word_cuts, letter_cuts):
                self.cut_all(cuts)
            self.lower_numbers()
        return self.data

    def takes(self, data: bytes) -> bool:
        """Whether other data are like those at first; they then take their place."""
        digest = sha256(data).digest()
        if digest in self.asked or self.left <= 0:
            return False
        self.asked.add(digest)
        self.left -= 1 + len(data) // BYTES_OF_A_QUESTION
        if not self.is_like(data):
            return False
        self.data = data
        return True

    def cut_all(self, cuts: Cuts) -> None:
        """Makes all cuts of a kind that can be made, large ones first."""
        for size in sizes(max((cut.total for cut in cuts(self.data, 1)), default=0)):
            behind, runs = 0, cuts(self.data, size)
            while self.left > 0 and (cut := next(runs, None)):
                if cut.at >= behind and self.takes_cut(cut):
                    behind, runs = cut.at, cuts(self.data, size)

    def takes_cut(self, cut: Cut) -> bool:
        """Whether a cut can be made, alone or together with a smaller count in front of it."""
        data, rest = self.data, self.data[cut.end :]
        if self.takes(data[: cut.start] + rest):
            return True
        smaller = ((found.span(), b"%d" % number) for found, number in counts_before(data, cut))
        return any(self.takes(data[:start] + number + data[end : cut.start] + rest) for (start, end), number in smaller)

    def lower_numbers(self) -> None:
        """Brings each number nearer to 0."""
        behind = 0
        while self.left > 0 and (found := NUMBER.search(self.data, behind)):
            behind = found.start() + len(self.lowered(found))

    def lowered(self, found: re.Match[bytes]) -> bytes:
        """The numeral to which a number can be brought, which then stands in its place."""
        number = int(found[0])
        sign, great = (-1, -number) if number < 0 else (1, number)

        def takes(size: int) -> bool:
            return self.takes(self.data[: found.start()] + b"%d" % (sign * size) + found.string[found.end() :])

        # (what is known not to do, and what does)
        small = -1
        for size in (0, 1):
            if size < great and takes(size):
                return b"%d" % (sign * size)
            small = size
        while great - small > 1:
            middle = (small + great) // 2
            small, great = (small, middle) if takes(middle) else (middle, great)
        return b"%d" % (sign * great)
