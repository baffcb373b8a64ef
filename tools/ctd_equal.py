"""Two equal elements of arrays, where a UNIQUE is false, asked of the checker as other values are."""
from __future__ import annotations

from collections.abc import Sequence
from itertools import product
from typing import TYPE_CHECKING

from ctd_ladders import Sought
from ctd_program import Node, commands_of
from ctd_questions import EndedOtherwise, Question
from ctd_trees import all_commands, name_of, trees_in

if TYPE_CHECKING:
    from ctd_values import Fault

MOST_ELEMENTS = 2**20
# With how many questions it is asked at once where the elements of an array end; up to how many each element is one at first.
ROUND, FEW = 8192, 1024


def equal_elements(fault: Fault, names: Sequence[bytes]) -> str:
    """Two equal elements of arrays with one or two indices, each of which goes from 0 or from 1 on; an empty text where there are none."""
    for count in index_counts(fault.text, names[0]):
        for first in product((0, 1), repeat=count):
            if (end := end_of(fault, names[0], first, 0)) is not None:
                ends = [end, *(end_of(fault, names[0], first, place) or 0 for place in range(1, count))]
                return equal_from(fault, names, first, [end - start for start, end in zip(first, ends)])
    return ""


def index_counts(text: bytes, name: bytes) -> list[int]:
    """How many indices an array has in a program, one or two."""
    trees = (tree for command in all_commands(commands_of(text)) for argument in command.arguments for tree in trees_in(argument))
    counts = {len(tree.parts[2:-1:2]) for tree in trees if isinstance(tree, Node) and tree.symbol == "variable" and name_of(tree) == name}
    return sorted(counts & {1, 2})


def element(name: bytes, indices: Sequence[int]) -> bytes:
    return b"%b[%b]" % (name, b",".join(b"%d" % index for index in indices))


def first_missing(fault: Fault, name: bytes, choices: Sequence[Sequence[int]]) -> int | None:
    """Which of some elements has no value; the first of them."""
    questions = [Question(b"ASSERT(%b==%b) " % (element(name, indices), element(name, indices))) for indices in choices]
    try:
        fault.ask([*questions, Question(b"ASSERT(0!=0) ")])
    except EndedOtherwise as other:
        if other.question in questions and other.message == "variable has no value":
            return questions.index(other.question)
        raise
    return None


def end_of(fault: Fault, name: bytes, first: Sequence[int], place: int) -> int | None:
    """The number behind the last of one of the indices, where the others are the first; None where there is no such element."""

    def with_index(index: int) -> list[int]:
        return [*first[:place], index, *first[place + 1 :]]

    # an index of an element that is there, and one of which none is
    least, most = first[place] - 1, MOST_ELEMENTS
    steps = [*range(first[place], FEW), *(round(FEW * (MOST_ELEMENTS / FEW) ** (number / ROUND)) for number in range(1, ROUND))]
    while most - least > 1:
        missing = first_missing(fault, name, [with_index(step) for step in steps])
        if missing == 0 and least < first[place]:
            return None
        most = most if missing is None else steps[missing]
        least = least if missing == 0 else steps[-1 if missing is None else missing - 1]
        steps = list(range(least + 1, most, max(1, (most - least) // ROUND)))
    return most


def equal_from(fault: Fault, names: Sequence[bytes], first: Sequence[int], sizes: Sequence[int]) -> str:
    """Two equal elements: the copy notes for each value where it came first."""
    one, other, seen = (fault.fresh + name for name in (b"one", b"other", b"seen"))
    turns = [fault.fresh + b"turn%d" % place for place in range(len(first))]
    indices = b",".join(b"%b+%d" % (turn, start) for turn, start in zip(turns, first))
    note = b"%b[%b]" % (seen, b",".join(b"%b[%b]" % (name, indices) for name in names))
    number = turns[0] if len(turns) == 1 else b"%b*%d+%b" % (turns[0], sizes[1], turns[1])

    def for_each(body: bytes) -> bytes:
        return b"".join(b"REPI(%b,%d) " % (turn, size) for turn, size in zip(turns, sizes)) + body + b" END" * len(turns) + b"\n"

    search = b"IF(%b<0) IF(%b>=0) SET(%b=%b,%b=%b) ELSE SET(%b=%b) END END" % (other, note, one, note, other, number, note, number)
    setting = b"SET(%b=-1,%b=-1)\n" % (one, other) + for_each(b"SET(%b=-1)" % note) + for_each(search)
    most = sizes[0] * (sizes[1] if len(sizes) > 1 else 1) - 1
    found = fault.numbers(setting, [Sought(name, -1, most + 1) for name in (one, other)])
    if -1 in found:
        return ""
    places = [[start + part for start, part in zip(first, divmod(at, sizes[1]) if len(sizes) > 1 else (at,))] for at in found]
    groups = [",".join(element(name, place).decode() for name in names) for place in places]
    fault.find([element(name, places[0]) for name in names])
    values = [str(fault.value(element(name, places[0]))) for name in names]
    if len(names) == 1:
        return f"{groups[0]} = {groups[1]} = {values[0]}"
    return f"({groups[0]}) = ({groups[1]}) = ({','.join(values)})"
