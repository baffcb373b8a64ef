"""At which of its turns a command fails, asked of the checker: in a copy the command stands many times, each time for some of the turns, and the
place of the one that fails says which they are."""
from __future__ import annotations

from collections.abc import Sequence
from typing import TYPE_CHECKING

from ctd_questions import CannotAsk, Copy, EndedOtherwise, Question, line_offset, literal

if TYPE_CHECKING:
    from ctd_values import Fault

# No command has more turns; as how many the command stands in a copy at most, and in how many bytes.
MOST_TURNS = 2**40
MOST_LEAVES, MOST_BYTES = 2**13, 600_000
# Into how many parts the turns from each power of two to the next are parted at first.
PARTS = 16


def find_turn(fault: Fault) -> tuple[bytes, bytes, bytes]:
    """What stands at the start of a copy and before a command so that a test is true just where it fails; and the test."""
    turns, guard = fault.fresh + b"turns", next_byte_test(fault)
    least, end = 1, MOST_TURNS
    leaves = min(MOST_LEAVES, MOST_BYTES // (len(fault.source(fault.command)) + 40))
    if leaves < 2:
        raise CannotAsk("the command is too long")
    while end - least > 1:
        steps: Sequence[int] = range(least, end, -(-(end - least) // leaves))
        if end == MOST_TURNS:
            steps = sorted({round(2 ** (power / PARTS)) for power in range(40 * PARTS)})
            steps = steps[:: -(-len(steps) // leaves)]
        number = failing_leaf(fault, turns, guard, steps)
        least, end = steps[number], steps[number + 1] if number + 1 < len(steps) else end
    return b"SET(%b=0) " % turns, b"IF(%b) SET(%b=%b+1) END " % (guard, turns, turns), b"%b==%d" % (turns, least)


def next_byte_test(fault: Fault) -> bytes:
    """A test of the next byte of the data that is true where the command fails: turns at which it is false do not count."""
    place, data = fault.answer.in_data, fault.asker.data
    assert place
    data.seek(line_offset(data, fault.asker.origin, place.line) + place.column - 1)
    byte = data.read(1)
    return b"MATCH(%b)" % literal(byte) if byte else b"ISEOF"


def failing_leaf(fault: Fault, turns: bytes, guard: bytes, steps: Sequence[int]) -> int:
    """Between which of some numbers of turns the command fails: from the step with the number that is given to the next one."""
    text, command, copy = fault.text, fault.command, Copy()
    source = fault.source(command) + b" "
    questions = [Question(source) for _ in steps]

    def add_leaves(first: int, end: int) -> None:
        if end - first == 1:
            copy.ask(questions[first])
            return
        middle = (first + end) // 2
        copy.add(b"IF(%b<%d)" % (turns, steps[middle]))
        add_leaves(first, middle)
        copy.add(b"ELSE ")
        add_leaves(middle, end)
        copy.add(b"END ")

    copy.add(b"SET(%b=0) " % turns)
    copy.add(text[: command.offset], 0)
    copy.add(b"IF(%b) SET(%b=%b+1) IF(%b<%d)%bELSE " % (guard, turns, turns, turns, steps[0], source))
    add_leaves(0, len(steps))
    copy.add(b"END ELSE %bEND" % source)
    copy.add(text[command.end :], command.end)
    answer = fault.asker.run(copy)
    question = copy.question_at(answer.in_program)
    if question is None or (answer.message, answer.in_data) != (fault.answer.message, fault.answer.in_data):
        raise EndedOtherwise(answer, question)
    return questions.index(question)
