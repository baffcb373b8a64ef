"""What the patterns of a program say: how long their matches are, which words they list, and what is wrong with one."""
from __future__ import annotations

import re
import warnings
from collections.abc import Iterator, Sequence

from ctd_program import TEXT, Command, Token, Tree
from ctd_ranges import Range
from ctd_trees import all_commands

# What Python takes in a pattern and the checker does not.
NOT_THERE = ((r"\(\?<?[=!]", "there is no look-ahead and no look-behind"), (r"\\[1-9]", "there are no back references"), (r"\(\?P=", "there are no back references"))
# A class that may have digits, and the most repetitions of it.
DIGITS = re.compile(rb"(?:\[[^\]]*0-9[^\]]*\]|\\d|\\w|\\S|\[\^[^\]]*\]|\.)\{(?:[0-9]+,)?([0-9]+)\}")


def text_of_pattern(pattern: Tree) -> bytes:
    assert isinstance(pattern, Token) and pattern.symbol == TEXT and isinstance(pattern.value, bytes)
    return pattern.value


def lengths_of(pattern: Tree) -> Range:
    """The least and greatest length of what a pattern matches, where it is one class of ASCII with a number of repetitions."""
    found = re.fullmatch(rb"\[[ -Z_-~]+\]\{([0-9]{1,7})(?:,([0-9]{1,7}))?\}", text_of_pattern(pattern))
    return Range(int(found[1]), int(found[2] or found[1])) if found else Range()


def alternatives_of(pattern: Tree) -> list[bytes]:
    """The strings that a pattern matches, where it is a list of them: one or more, without those that begin with an earlier one."""
    text = text_of_pattern(pattern)
    found = re.fullmatch(rb"\((?:\?:)?([^()]*)\)", text)
    alternatives = (found[1] if found else text).split(b"|")
    literal = rb"(?:[A-Za-z0-9 _,;:!\"#%&'/<=>@`~-]|\\[.+*?()|\[\]{}^$\\-])*"
    if not all(re.fullmatch(literal, one) for one in alternatives):
        return []
    strings: list[bytes] = []
    for one in alternatives:
        string = re.sub(rb"\\(.)", rb"\1", one)
        if not any(string.startswith(earlier) for earlier in strings):
            strings.append(string)
    return strings


def patterns_in(commands: Sequence[Command]) -> Iterator[Tree]:
    return (command.arguments[0] for command in all_commands(commands) if command.word == "REGEX")


def most_digits(commands: Sequence[Command]) -> int:
    """How many digits a pattern of a program takes at most, where it says so; 0 where none does."""
    return max((int(most) for pattern in patterns_in(commands) for most in DIGITS.findall(text_of_pattern(pattern))), default=0)


def pattern_fault(pattern: bytes) -> str:
    """What is wrong with a pattern that the checker refuses, as far as Python knows; an empty text where it does not."""
    try:
        text = pattern.decode()
    except UnicodeDecodeError as fault:
        return f"byte {fault.start + 1} of the pattern is no UTF-8"
    try:
        with warnings.catch_warnings():
            warnings.simplefilter("ignore")
            re.compile(text)
    except re.error as fault:
        return fault.msg if fault.pos is None else f"{fault.msg} at byte {len(text[: fault.pos].encode()) + 1} of the pattern"
    except (OverflowError, RecursionError):
        return ""
    return next((told for form, told in NOT_THERE if re.search(form, text)), "")
