"""Ranges of numbers; and those of expressions of a program, which ctd-lint proves of copies that compare them."""
from __future__ import annotations

import re
from collections.abc import Callable, Sequence
from dataclasses import dataclass
from typing import Dict, NamedTuple

from ctd_asked import Linter, Told
from ctd_program import Command, Token, Tree
from ctd_questions import GREATEST, Copy, Question, numeral
from ctd_trees import all_commands

# How many ranges are looked for in one copy.
TOGETHER = 10
# The ends that the reason of an overflow names.
LEAST_NAMED = re.compile(r" (?:is|be at least|be from) (-?[0-9]+)")
GREATEST_NAMED = re.compile(r" (?:is|be at most|to) (-?[0-9]+)\Z")


@dataclass(frozen=True)
class Range:
    """The least and the greatest value; None for one that is not known."""

    least: int | None = None
    greatest: int | None = None

    @property
    def only(self) -> int | None:
        """The value, where there is one."""
        return self.least if self.least == self.greatest else None


class Operand(NamedTuple):
    """An expression, with the value that it has where its command begins."""

    command: Command
    tree: Tree


# Ranges by the offsets of their expressions.
Ranges = Dict[int, Range]


class Inquiry(NamedTuple):
    """What is put into a copy before the command of an expression, and the range that follows from what ctd-lint tells of the copy."""

    operand: Operand
    parts: list[bytes | Question]
    answer: Callable[[Told, Copy], Range]


def naming(operand: Operand, name: bytes, value: bytes) -> Inquiry:
    """Asks by overflows, of which the reason names a range. Nothing follows from it: it may be right."""
    above, below = Question(b"SET(%b=%b+%d) " % (name, name, GREATEST)), Question(b"SET(%b=%b-%d-1) " % (name, name, GREATEST))
    setting = b"SET(%b=%b) " % (name, value)

    def answer(told: Told, copy: Copy) -> Range:
        if (copy.place_of(above), "begins") in told.never:
            return Range()
        reason = next((told.overflows[place] for place in map(copy.place_of, (above, below)) if place in told.overflows), " is 0")
        return Range(*(found and int(found[1]) for found in (LEAST_NAMED.search(reason), GREATEST_NAMED.search(reason))))

    return Inquiry(operand, [b"IF(ISEOF) ", setting, above, setting, below, b"ASSERT(0!=0) END "], answer)


def comparing(operand: Operand, name: bytes, value: bytes, named: Range) -> Inquiry:
    """Asks by comparisons whether the ends of a range are right."""
    ends = ((b"<", named.least), (b">", named.greatest))
    questions = [Question(b"" if end is None else b"IF(%b%b%b) END " % (name, sign, numeral(end))) for sign, end in ends]

    def answer(told: Told, copy: Copy) -> Range:
        return Range(*(end if told.is_never(copy.place_of(question), "is-true") else None for question, (_, end) in zip(questions, ends)))

    return Inquiry(operand, [b"SET(%b=%b) " % (name, value), *questions, b"UNSET(%b) " % name], answer)


@dataclass(frozen=True)
class Measured:
    """A program of which ranges are asked."""

    text: bytes
    commands: Sequence[Command]
    fresh: bytes
    linter: Linter

    def ranges(self, operands: Sequence[Operand]) -> Ranges:
        """The ranges of some expressions in all runs."""
        found = {tree.offset: range_of_numeral(tree) for _, tree in operands}
        name = self.fresh + b"h"
        asked = [(one, name, b"(%b)" % self.text[one.tree.offset : one.tree.end]) for one in operands if found[one.tree.offset] == Range()]
        named = self.answers([naming(*one) for one in asked])
        return {**found, **self.answers([comparing(*one, named.get(one[0].tree.offset, Range())) for one in asked])}

    def answers(self, asked: Sequence[Inquiry]) -> Ranges:
        starts = range(0, len(asked), TOGETHER)[: self.linter.room(self.text)]
        parts = [asked[start : start + TOGETHER] for start in starts]
        copies = [self.copy(part) for part in parts]
        answers = zip(parts, copies, self.linter.tell([bytes(copy.text) for copy in copies]))
        return {one.operand.tree.offset: one.answer(told, copy) for part, copy, told in answers if told.is_known for one in part}

    def copy(self, asked: Sequence[Inquiry]) -> Copy:
        """The program with questions before commands. A separator is one command, so it gets an IF around it that is always true."""
        put: dict[int, list[bytes | Question]] = {}
        for one in asked:
            put.setdefault(one.operand.command.offset, []).extend(one.parts)
        for separator in (command.separator for command in all_commands(self.commands)):
            if separator and separator.offset in put:
                put[separator.offset][:0] = [b"IF(0==0) "]
                put[separator.end] = [b" END"]
        copy, at = Copy(), 0
        for offset in sorted(put):
            copy.add(self.text[at:offset], at)
            at = offset
            for part in put[offset]:
                copy.ask(part) if isinstance(part, Question) else copy.add(part)
        copy.add(self.text[at:], at)
        return copy


def range_of_numeral(tree: Tree) -> Range:
    value = tree.value if isinstance(tree, Token) else None
    return Range(value, value) if isinstance(value, int) else Range()
