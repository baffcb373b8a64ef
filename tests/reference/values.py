"""Integers and strings, and what operators do with them (docs/LANGUAGE.md, Expressions)."""

from collections.abc import Callable

from . import limits
from .faults import Stopped

Value = int | bytes


def number(value: Value) -> int:
    """A value that has to be an integer."""
    if isinstance(value, bytes):
        raise Stopped("wrong type")
    return value


def string(value: Value) -> bytes:
    """A value that has to be a string."""
    if isinstance(value, int):
        raise Stopped("wrong type")
    return value


def within(result: int) -> int:
    """The result of an operation."""
    if not limits.LEAST <= result <= limits.GREATEST:
        raise Stopped("number overflow")
    return result


def quotient(left: int, right: int) -> int:
    """The quotient, rounded towards zero."""
    if right == 0:
        raise Stopped("division by zero")
    magnitude = abs(left) // abs(right)
    return magnitude if (left < 0) == (right < 0) else -magnitude


def remainder(left: int, right: int) -> int:
    """What the quotient leaves, with the sign of the dividend."""
    return left - right * quotient(left, right)


def power(base: int, exponent: int) -> int:
    """The power, or a number out of the range where it is out of the range."""
    if not 0 <= exponent <= limits.GREATEST_COUNT:
        raise Stopped("bad exponent")
    enough = 2 + exponent % 2 if base in (0, 1, -1) else 128
    return int(base ** min(exponent, enough))


OPERATIONS: dict[str, Callable[[int, int], int]] = {
    "+": lambda left, right: left + right,
    "-": lambda left, right: left - right,
    "*": lambda left, right: left * right,
    "/": lambda left, right: quotient(left, right),
    "%": lambda left, right: remainder(left, right),
    "^": lambda left, right: power(left, right),
}

COMPARISONS: dict[str, Callable[[int], bool]] = {
    "<": lambda order: order < 0,
    ">": lambda order: order > 0,
    "<=": lambda order: order <= 0,
    ">=": lambda order: order >= 0,
    "==": lambda order: order == 0,
    "!=": lambda order: order != 0,
}


def operate(operator: str, left: Value, right: Value) -> int:
    """The result of an operator on two values that have to be integers."""
    return within(OPERATIONS[operator](number(left), number(right)))


def negate(value: Value) -> int:
    return within(-number(value))


def order(left: Value, right: Value) -> int:
    """Less than 0, 0 or more than 0, as the left value is less than the right, equal or greater. They have to be of one type."""
    if isinstance(left, int) and isinstance(right, int):
        return left - right
    if isinstance(left, bytes) and isinstance(right, bytes):
        return (left > right) - (left < right)
    raise Stopped("wrong type")


def compare(comparison: str, left: Value, right: Value) -> bool:
    """The truth of a comparison."""
    return COMPARISONS[comparison](order(left, right))
