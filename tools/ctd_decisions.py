"""What of a test is watched: comparisons that are true by the least margin, and the sides of && and || that decide."""
from __future__ import annotations

from collections.abc import Collection, Iterator, Sequence
from dataclasses import dataclass
from typing import Union

from ctd_presets import Preset
from ctd_program import Command, Node, Tree
from ctd_trees import DEEDS, SIGNS, all_commands, changed_by, in_parentheses, is_variable, name_of

# Of a test with more sides than so many none is watched: the text of what holds before each would be long.
MOST_SIDES = 50


@dataclass(frozen=True)
class Holds:
    """That a test has a value."""

    test: Tree
    wanted: bool


@dataclass(frozen=True)
class Apart:
    """That a number lies above another by just so much, or with 0 that two values are the same."""

    left: Tree
    right: Tree
    distance: int


Condition = Union[Holds, Apart]


@dataclass(frozen=True)
class Effect:
    """Something that a part of a test may do: the part, and all that holds where it does so. Each is evaluated only where those before it hold."""

    part: Tree
    conditions: Sequence[Condition]


def operands_of(test: Node) -> list[Tree]:
    """The sides of a test with && or ||, those of a side with the same mark in its place."""
    sides: list[Tree] = []
    for part in (test.parts[0], test.parts[2]):
        side = in_parentheses(part)
        sides += operands_of(side) if isinstance(side, Node) and side.symbol == test.symbol else [part]
    return sides


def decisions(test: Tree, wanted: bool | None, before: Sequence[Condition] = ()) -> Iterator[Effect]:
    """The sides that may decide a test, each where those before it do not; of a test that has to have a value only those that can."""
    test = in_parentheses(test)
    if not isinstance(test, Node):
        return
    if test.parts[0].symbol == "!":
        yield from decisions(test.parts[1], None if wanted is None else not wanted, before)
    elif test.symbol in ("test", "both"):
        decisive = test.symbol == "test"
        sides = operands_of(test)
        for index, side in enumerate(sides if len(sides) <= MOST_SIDES else []):
            if wanted is not (not decisive):
                yield Effect(side, [*before, Holds(side, decisive)])
                inner = decisive if wanted is decisive and index == len(sides) - 1 else None
            else:
                inner = wanted
            yield from decisions(side, inner, before)
            before = [*before, Holds(side, not decisive)]


def tight_comparisons(test: Tree, numbers: Collection[bytes], wanted: bool = True, before: Sequence[Condition] = ()) -> Iterator[Effect]:
    """The comparisons of a test that has a value, each where it is decisive by the least margin: both sides are equal, or numbers differ by 1."""
    test = in_parentheses(test)
    if not isinstance(test, Node):
        return
    symbols = [part.symbol for part in test.parts]
    if symbols[0] == "!":
        yield from tight_comparisons(test.parts[1], numbers, not wanted, before)
    elif test.symbol in ("test", "both"):
        is_each = wanted == (test.symbol == "both")
        sides = operands_of(test)
        for side in sides if len(sides) <= MOST_SIDES else []:
            yield from tight_comparisons(side, numbers, wanted, before)
            before = [*before, Holds(side, wanted if is_each else not wanted)]
    elif len(symbols) == 3 and symbols[1] in SIGNS:
        left, right = test.parts[0], test.parts[2]
        sign = SIGNS[symbols[1]][not wanted]
        if sign in ("<=", ">="):
            yield Effect(test, [*before, Apart(left, right, 0)])
        elif sign in ("<", ">") and (is_number(left, numbers) or is_number(right, numbers)):
            # (only where it is true no number near the side is too large)
            yield Effect(test, [*before, Holds(test, wanted), Apart(left, right, -1 if sign == "<" else 1)])


def is_number(tree: Tree, numbers: Collection[bytes]) -> bool:
    """Whether an expression is surely a number, where some names have numbers alone."""
    tree = in_parentheses(tree)
    if is_variable(tree):
        return name_of(tree) in numbers
    return isinstance(tree, Node) or isinstance(tree.value, int)


def numbers_of(commands: Sequence[Command], presets: Sequence[Preset]) -> frozenset[bytes]:
    """The names that have numbers alone, with indices or without."""
    numbers = {preset.name.encode() for preset in presets}
    strings = {preset.name.encode() for preset in presets if isinstance(preset.value, bytes)}
    given: list[tuple[bytes, Tree]] = []
    for command in all_commands(commands):
        names = [name_of(target) for target in changed_by(command)]
        numbers.update(names if DEEDS[command.word].gives is int else [])
        strings.update(names if DEEDS[command.word].gives is bytes else [])
        given += zip(names, command.arguments[1::2]) if command.word == "SET" else []
    numbers = (numbers | {name for name, _ in given}) - strings
    while wrong := {name for name, value in given if name in numbers and not is_number(value, numbers)}:
        numbers -= wrong
    return frozenset(numbers)
