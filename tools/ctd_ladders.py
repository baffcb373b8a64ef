"""Values that one run of a copy tells together: the copy counts for each how many of some steps it has reached, and puts all counts into one
number, which the place of the one ASSERT that fails says."""
from __future__ import annotations

from collections.abc import Sequence
from dataclasses import dataclass, field
from typing import Optional, Union

from ctd_questions import GREATEST, LEAST, Copy, Question, literal, numeral, telling

Value = Union[int, bytes]
# How many numbers a run can tell, at some 20 bytes of the copy for each; and how many steps are compared one by one.
OUTCOMES = 2**14
MOST_COMPARED = 1000
# As how many steps are enough to find the size of a number.
FEW = 64
# From how many bytes on no more of a string is looked for.
STRING_ROOM = 40
# How far from a number steps lie that part the numbers around it.
DISTANCES = [0, *(round(2 ** (power / 4)) for power in range(4 * 32)), *(2**power for power in range(32, 128, 8))]


@dataclass(eq=False)
class Sought:
    """A value that is looked for: an expression, what it is no less than, what it is less than (of strings None where that is not known),
    what it may well be, the likeliest first."""

    expression: bytes
    low: Value = LEAST
    high: Optional[Value] = GREATEST + 1
    likely: Sequence[Value] = ()
    # the steps of one run, and what is put into its copy for them
    steps: Sequence[Value] = ()
    question: Question = field(default_factory=lambda: Question(b""))

    @property
    def is_found(self) -> bool:
        """Whether the value is known, or more of a string than is wanted."""
        return self.high == behind(self.low) or (isinstance(self.low, bytes) and len(self.prefix) >= STRING_ROOM < len(self.low))

    @property
    def width(self) -> float:
        """How many values it may have."""
        return float(self.high - self.low) if isinstance(self.low, int) and isinstance(self.high, int) else float("inf")

    @property
    def prefix(self) -> bytes:
        """What a string surely begins with."""
        assert isinstance(self.low, bytes)
        size = len(self.low)
        while size and (end := above_all(self.low[:size])) is not None and (self.high is None or self.high > end):  # type: ignore[operator]
            size -= 1
        return self.low[:size]

    def is_inside(self, step: Value) -> bool:
        """Whether a step parts the values."""
        return step > self.low and (self.high is None or step < self.high)  # type: ignore[operator]

    def choose_steps(self, most: int) -> None:
        """Chooses steps, so many at most: around what is likely, and where there is room others."""
        room = min(most, MOST_COMPARED)
        around = dict.fromkeys(step for one in self.likely for step in (one, behind(one)) if self.is_inside(step))
        others: Sequence[Value]
        if isinstance(self.low, bytes):
            others = string_steps(self.prefix)
        else:
            assert isinstance(self.high, int)
            others = number_steps(self.low, self.high, most, [one for one in self.likely[:2] if isinstance(one, int)])
        if around or not isinstance(others, range):
            likely = list(around)[:room]
            rest = spread([step for step in others if self.is_inside(step) and step not in around], room - len(likely))
            others = sorted([*likely, *rest])  # type: ignore[type-var]
        self.steps = others

    def counting(self, count: bytes) -> bytes:
        """Commands that count the steps which the value has reached."""
        steps = self.steps
        if isinstance(steps, range) and len(steps) > 1:
            return b"SET(%b=(%b-%b)/%d) " % (count, self.expression, numeral(steps[0] - steps.step), steps.step)
        shown = (literal(step) if isinstance(step, bytes) else numeral(step) for step in steps)
        compared = (b"IF(%b>=%b)SET(%b=%d)END " % (self.expression, step, count, number) for number, step in enumerate(shown, start=1))
        return b"SET(%b=0) %b" % (count, b"".join(compared))

    def narrow(self, count: int) -> None:
        """Takes over how many steps the value has reached."""
        if count < len(self.steps):
            self.high = self.steps[count]
        if count:
            self.low = self.steps[count - 1]


def behind(one: Value) -> Value:
    """The next value."""
    return one + 1 if isinstance(one, int) else one + b"\0"


def above_all(start: bytes) -> bytes | None:
    """The least string above all that begin with a string; None where there is none."""
    kept = start.rstrip(b"\xff")
    return kept[:-1] + bytes([kept[-1] + 1]) if kept else None


def spread(steps: Sequence[Value], most: int) -> list[Value]:
    """So many of some steps at most, evenly."""
    if len(steps) <= most:
        return list(steps)
    return [steps[(2 * number + 1) * len(steps) // (2 * most)] for number in range(most)]


def string_steps(start: bytes) -> list[Value]:
    """What parts the strings with a beginning by their next byte."""
    return [start + b"\0", *(start + bytes([byte]) for byte in range(1, 256))]


def number_steps(low: int, high: int, most: int, centers: Sequence[int]) -> Sequence[Value]:
    """Steps above a number and below another: evenly where these are near enough, else denser at both ends, around 0 and around some others."""
    ends = [end for end in (low, high) if end not in (LEAST, GREATEST + 1)]
    near = {step for center in (0, *ends, *centers) for far in DISTANCES for step in (center + far, center - far) if low < step < high}
    width = max(1, -(-(high - low) // (most + 1)))
    even = range(low + width, high, width)
    if high - low > max(most, MOST_COMPARED) ** 2 and len(near) >= FEW:
        return sorted({*near, *spread(even, FEW if most < MOST_COMPARED else MOST_COMPARED - len(near))})
    # (the distance from the least number may be none)
    return even if high - low <= GREATEST else spread(even, MOST_COMPARED)



@dataclass
class Ladder:
    """Values that are looked for in one run. `fresh` begins names that the program does not have."""

    sought: Sequence[Sought]
    fresh: bytes
    outcomes: int = OUTCOMES

    def __post_init__(self) -> None:
        # those that have few values left get what they need, and the others what is then there
        left = self.outcomes
        self.total = 1
        order = sorted(self.sought, key=lambda one: one.width)
        for rest, one in zip(range(len(order), 0, -1), order):
            one.choose_steps(max(1, int(left ** (1 / rest) + 1e-9) - 1))
            left //= len(one.steps) + 1
            self.total *= len(one.steps) + 1

    def ask(self, copy: Copy) -> None:
        """Puts into a copy what tells the number: its run ends there."""
        count, told = self.fresh + b"c", self.fresh + b"t"
        copy.add(b"SET(%b=0)\n" % told)
        for one in self.sought:
            one.question = Question(b"%bSET(%b=%b*%d+%b)\n" % (one.counting(count), told, told, len(one.steps) + 1, count))
            copy.ask(one.question)
        copy.ask(Question(telling(told, self.total)))

    def take(self, number: int) -> None:
        """Takes over the number that was told."""
        for one in reversed(self.sought):
            number, count = divmod(number, len(one.steps) + 1)
            one.narrow(count)
