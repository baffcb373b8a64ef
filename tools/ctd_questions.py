"""Copies of a program with questions in them, which the checker answers: a question is a command that fails where something happens, and the
place in the checker's message says which one it was. So each answer rests on a verdict of the checker."""
from __future__ import annotations

import os
import re
from bisect import bisect_right
from collections.abc import Sequence
from dataclasses import dataclass, field
from pathlib import Path
from typing import IO, Optional, Union

from ctd_companion import FITS, Answer, Checker, Place, Progress
from ctd_program import NAME, cut

LEAST, GREATEST = -(2**127), 2**127 - 1
MOST_STEPS = 2**64 - 1
BLOCK = 1 << 20


class CannotAsk(Exception):
    """Questions cannot be put into the program: it nests too deeply with them, or is too long."""


class EndedOtherwise(Exception):
    """A run with questions ended at something else, or at a question with another fault."""

    def __init__(self, answer: Answer, question: Question | None) -> None:
        super().__init__(f"a run with questions ended otherwise: {answer.line}")
        self.message, self.question = answer.message, question


class TooManyRuns(Exception):
    """The answers take more runs than they may."""


@dataclass(eq=False)
class Question:
    """Commands of a copy that fail where something happens."""

    text: bytes


# What a part of a copy comes from: a question, or an offset in the program, or nothing.
Source = Optional[Union[Question, int]]


@dataclass
class Copy:
    """A text that is put together from parts, and knows what each comes from."""

    text: bytearray = field(default_factory=bytearray)
    starts: list[int] = field(default_factory=list)
    sources: list[Source] = field(default_factory=list)

    def add(self, part: bytes, source: Source = None) -> None:
        self.starts.append(len(self.text))
        self.sources.append(source)
        self.text += part

    def ask(self, question: Question) -> None:
        self.add(question.text, question)

    def finish(self) -> None:
        """Puts nothing more."""

    def ask_all(self, questions: Sequence[Question]) -> None:
        for question in questions:
            self.ask(question)

    def source_at(self, place: Place) -> Source:
        """What stands at a place: a question, or the offset in the program from where it is."""
        offset = offset_at(bytes(self.text), place)
        index = bisect_right(self.starts, offset) - 1
        source = self.sources[index]
        return source + offset - self.starts[index] if isinstance(source, int) else source

    def place_of(self, question: Question) -> Place:
        """The place at which a question stands."""
        return place_at(bytes(self.text), self.starts[self.sources.index(question)])

    def question_at(self, place: Place | None) -> Question | None:
        """The question that stands at a place, if one does."""
        source = self.source_at(place) if place else None
        return source if isinstance(source, Question) else None


def offset_at(text: bytes, place: Place) -> int:
    """The offset of a place in a text, or its end where it has no such place."""
    start = 0
    for _ in range(place.line - 1):
        start = text.find(b"\n", start) + 1
        if not start:
            return len(text)
    return min(start + place.column - 1, len(text))


def place_at(text: bytes, offset: int) -> Place:
    """The place of an offset in a text."""
    return Place(text.count(b"\n", 0, offset) + 1, offset - text.rfind(b"\n", 0, offset))


def line_offset(file: IO[bytes], origin: int, number: int) -> int:
    """The offset at which a line begins, of those from an origin on. Reads no more than up to it."""
    file.seek(origin)
    start, breaks = origin, number - 1
    while breaks and (block := file.read(BLOCK)):
        count = block.count(b"\n")
        if count < breaks:
            start, breaks = start + len(block), breaks - count
            continue
        at = -1
        for _ in range(breaks):
            at = block.index(b"\n", at + 1)
        return start + at + 1
    return start


def bytes_before(file: IO[bytes], place: Place, count: int) -> bytes:
    """The bytes of a file before a place, in its line, at most so many."""
    start = line_offset(file, 0, place.line)
    first = max(start, start + place.column - 1 - count)
    file.seek(first)
    return file.read(start + place.column - 1 - first)


def numeral(number: int) -> bytes:
    """A number as an expression; the least has no numeral of its own."""
    return b"(-%d-1)" % GREATEST if number == LEAST else b"%d" % number if number >= 0 else b"(%d)" % number


def literal(value: bytes) -> bytes:
    """A string as an expression."""
    return b'"%b"' % b"".join(b"\\%03o" % byte for byte in value)


def fresh_name(text: bytes, options: Sequence[str]) -> bytes:
    """A beginning of names that neither a program nor the presets of a command line have."""
    names = {token.value for token in cut(text) if token.symbol == NAME}
    names |= {name.encode() for option in options for name in re.findall("[a-z][a-z0-9]*", option)}
    number = 0
    while any(isinstance(name, bytes) and name.startswith(b"q%dq" % number) for name in names):
        number += 1
    return b"q%dq" % number


@dataclass
class Asker:
    """Runs copies of a program on one file of data."""

    checker: Checker
    data: IO[bytes]
    copy_file: Path
    # where the data begin in the file, how many runs there may be, and how many there were
    origin: int = 0
    most_runs: int | None = None
    runs: int = 0
    # is told of each run
    progress: Progress | None = None

    def run(self, copy: Copy) -> Answer:
        """The answer to a copy."""
        if self.runs == self.most_runs:
            raise TooManyRuns
        self.runs += 1
        if self.progress:
            self.progress.runs += 1
        self.copy_file.write_bytes(copy.text)
        # (each run moves the descriptor, so the file object may hold nothing to go on from, and a seek of it might stay within what it holds)
        self.data.seek(0, os.SEEK_END)
        os.lseek(self.data.fileno(), self.origin, os.SEEK_SET)
        answer, _ = Checker(self.checker.path, str(self.copy_file), without_step_limit(self.checker.options)).check_file(self.data)
        if answer.is_of_the_call:
            raise CannotAsk(f"questions cannot be put into the program: {answer.message}")
        return answer

    def told(self, copy: Copy) -> int:
        """The number that a copy tells. Raises EndedOtherwise where its run ends before that."""
        answer = self.run(copy)
        found = None
        if answer.in_program and answer.message == "assertion failed":
            found = TOLD.match(copy.text, offset_at(bytes(copy.text), answer.in_program))
        if found is None:
            raise EndedOtherwise(answer, copy.question_at(answer.in_program))
        return int(found[1])

    def offset(self, place: Place) -> int:
        """How many bytes of the data stand before a place."""
        return line_offset(self.data, self.origin, place.line) + place.column - 1 - self.origin

    def content(self) -> bytes:
        """All data."""
        self.data.seek(self.origin)
        return self.data.read()

    def first_failing(self, copy: Copy) -> tuple[Question, Place] | None:
        """The question that fails first, and where in the data; None where the data fit."""
        answer = self.run(copy)
        if answer.status == FITS:
            return None
        question = copy.question_at(answer.in_program)
        if question is None or answer.in_data is None or answer.message != "assertion failed":
            raise EndedOtherwise(answer, question)
        return question, answer.in_data


# Where a copy tells a number: the assertion that fails names it.
TOLD = re.compile(rb"ASSERT\([a-z0-9]+!=([0-9]+)\)")


def telling(name: bytes, outcomes: int) -> bytes:
    """Assertions of which the one fails that names the value of a variable, a number below so many."""
    return b"".join(b"ASSERT(%b!=%d)" % (name, number) for number in range(outcomes))


def without_step_limit(options: Sequence[str]) -> list[str]:
    return [option for option in options if not option.startswith("--max-steps=")] + [f"--max-steps={MOST_STEPS}"]

