"""Ten wrong bodies for parts of the reference, to see that generated cases find them (tests/fuzz.py --self-test)."""

from collections.abc import Callable, Iterator
from contextlib import contextmanager
from dataclasses import dataclass
from unittest.mock import patch

from ctd_program import Token

from . import limits, syntax, tool, values
from .conditions import Unique
from .data import BlanksMayDiffer, Data
from .faults import Refused, Stopped
from .loops import Loop
from .run import Run
from .store import Store
from .syntax import Tree

right_repeat = Loop.repeat
right_takes_turn = Loop.takes_turn
right_take_integer = Data.take_integer
right_with_places = tool.with_places
right_power = values.power
right_parse = syntax.parse


def repeat(self: Loop, run: Run, goes_on: Callable[[int], bool]) -> None:
    def separate(turn: int) -> bool:
        if self.separator and turn > 0:
            run.perform([self.separator])
        return goes_on(turn)

    turn = 0
    while self.takes_turn(run, turn, separate):
        run.perform(self.commands)
        turn += 1


def takes_turn(self: Loop, run: Run, turn: int, goes_on: Callable[[int], bool]) -> bool:
    steps = run.steps_left
    takes_place = right_takes_turn(self, run, turn, goes_on)
    if not takes_place:
        run.steps_left = steps
    return takes_place


def take_integer(self: BlanksMayDiffer, least: int, greatest: int) -> int:
    self.skip_blanks()
    return right_take_integer(self, least, greatest)


def remainder(left: int, right: int) -> int:
    if right == 0:
        raise Stopped("division by zero")
    return left % abs(right)


def with_places(run: Run, message: str, text: bytes) -> str:
    run.spot = run.data.taken
    return right_with_places(run, message, text)


def power(base: int, exponent: int) -> int:
    if exponent > limits.GREATEST_COUNT and base not in (0, 1, -1):
        raise Stopped("number overflow")
    return right_power(base, exponent)


def holds(self: Unique, store: Store, data: Data) -> bool:
    arrays = [store.array(name) for name in self.names]
    if any(array.keys() != arrays[0].keys() for array in arrays):
        raise Stopped("arrays have different indices")
    return all(len(set(array.values())) == len(array) for array in arrays)


def unset(self: Store, name: bytes) -> None:
    self.arrays.get(name, {}).pop((), None)


def parse(tokens: list[Token]) -> list[Tree]:
    try:
        return right_parse(tokens)
    except Refused as fault:
        before = [token.offset for token in tokens if token.offset < (fault.offset or 0)]
        raise Refused(fault.message, before[-1] if before else fault.offset) from fault


@dataclass(frozen=True)
class WrongBody:
    """What is wrong; and which attribute has which other value."""

    name: str
    owner: object
    attribute: str
    body: object

    @contextmanager
    def plant(self) -> Iterator[None]:
        """The reference is wrong for a while, and forgets which programs it has read."""
        tool.commands_of.cache_clear()
        with patch.object(self.owner, self.attribute, self.body):
            yield
        tool.commands_of.cache_clear()


WRONG_BODIES = [
    WrongBody("the separator runs before the test", Loop, "repeat", repeat),
    WrongBody("a false test costs no step", Loop, "takes_turn", takes_turn),
    WrongBody("INT skips blanks with -w", BlanksMayDiffer, "take_integer", take_integer),
    WrongBody("the remainder is never negative", values, "remainder", remainder),
    WrongBody("a message tells where the data were left", tool, "with_places", with_places),
    WrongBody("an overflow goes before a bad exponent", values, "power", power),
    WrongBody("UNIQUE looks at each array alone", Unique, "holds", holds),
    WrongBody("UNSET keeps the values with indices", Store, "unset", unset),
    WrongBody("a program may nest one less deep", limits, "NESTING", limits.NESTING - 1),
    WrongBody("a syntax error is at the last right token", syntax, "parse", parse),
]
