"""The numbers of a problem statement in TeX or Markdown: which it has, and which of them are limits, that stand alone at a side of < or ≤."""
from __future__ import annotations

import re
from collections.abc import Callable, Iterator
from dataclasses import dataclass
from functools import lru_cache
from pathlib import Path
from typing import Optional, Tuple

from ctd_companion import NO_FILE, is_special, printable
from ctd_settings import BadPackage

# What may stand between the digits of a number, three by three; and blanks of formulas.
GROUP = r"(?:\\[,;:! ]|\{,\}|\{\\,\}|\\thinspace ?|[~,' \u00a0\u2009\u202f])"
BLANKS = re.compile(r"(?:\s|~|&|\\[,;:! ]|\\q?quad(?![A-Za-z])|\\left(?![A-Za-z])|\\right(?![A-Za-z]))*")
SUPERSCRIPTS = "⁰¹²³⁴⁵⁶⁷⁸⁹"
PLAIN_DIGITS = str.maketrans(SUPERSCRIPTS, "0123456789")
POWER = rf"\s*\^\s*(?:\{{\s*([0-9]{{1,3}})\s*\}}|([0-9]{{1,3}}))|([{SUPERSCRIPTS}]{{1,3}})|<sup>([0-9]{{1,3}})</sup>"
FACTOR = re.compile(rf"([0-9]{{1,3}}(?:{GROUP}[0-9]{{3}}){{1,13}}(?![0-9])|[0-9]{{1,40}})(?:[eE]([0-9]{{1,2}})(?!\w)|{POWER})?")
DIGIT = re.compile(r"(?<![\w.])[0-9]")
TIMES = re.compile(r"\\(?:cdot|times|ast)(?![A-Za-z])|[*·×⋅]")
PLUS = re.compile(r"[+\-−]")
COMPARISON = r"\\(?:leqslant|leqq|leq|le|lt|geqslant|geqq|geq|ge|gt)(?![A-Za-z])|&[lg][te];|<=|>=|[<>≤≥⩽⩾]"
BEFORE = re.compile(rf"({COMPARISON})\Z")
AFTER = re.compile(COMPARISON)
STRICT = re.compile(r"\\[lg]t|&[lg]t;|[<>]")
# What goes on with a number, before or behind it: it is then a part of something else.
OPERATOR_BEFORE = re.compile(r"[\w^_+\-−*/·×⋅]\Z|\\[A-Za-z]+\Z")
OPERATOR_AFTER = re.compile(r"[\w^_+\-−*/·×⋅(!]|\\(?!q?quad|text|mbox|land|wedge|\\|\}|end)[A-Za-z]+|\{")
# How formulas begin, and how each ends by its first characters.
FORMULA = re.compile(r"(?<!\\)\$\$?|\\[(\[]|\\begin\{(?:equation|align|gather|multline|eqnarray|math|displaymath)\*?\}")
ENDS = {"$$": re.compile(r"(?<!\\)\$\$"), "$": re.compile(r"(?<!\\)\$"), r"\(": re.compile(r"\\\)"), r"\[": re.compile(r"\\\]"), r"\b": re.compile(r"\\end\{")}
COMMENT = re.compile(r"(?<!\\)%.*")
NUMBER_MACRO = re.compile(r"\\num\{([^{}]*)\}")
# The most bytes of a statement, numbers of a sum or product, and characters that are looked at before a number. So the time grows with the size.
MOST_BYTES, MOST_PARTS, LOOKED_AT = 1 << 16, 8, 256
# Larger powers are no numbers of the language. One that is much larger is taken for this one.
MOST = 2**127
HUGE = 2**500

# A value that a text spells, and the offset behind it; none where it spells none there. What looks for one between two offsets.
ValueAt = Optional[Tuple[int, int]]
PartAt = Callable[[str, int, int], ValueAt]


@dataclass(frozen=True)
class Mention:
    """A number that stands somewhere, with the place for people; and the numbers that mean the same, where a side of < or > is one more or less."""

    value: int
    place: str
    same: frozenset[int]


@dataclass(frozen=True)
class Statement:
    """All numbers of a statement, and its limits."""

    numbers: frozenset[int]
    limits: tuple[Mention, ...]


def statement_in(folder: Path, name: Path) -> Statement:
    """The statement in a file, which is named by its path from a folder. Raises OSError and BadPackage."""
    if is_special(folder / name):
        raise BadPackage(f"{folder / name}: {NO_FILE}")
    with open(folder / name, "rb") as file:
        written = file.read(MOST_BYTES + 1)
    if len(written) > MOST_BYTES:
        raise BadPackage(f"{folder / name}: has more than {MOST_BYTES} bytes")
    text = written.decode("utf-8", "replace")
    if name.suffix == ".tex":
        text = COMMENT.sub(lambda found: " " * len(found[0]), text)
    # (each offset stays what it is)
    text = NUMBER_MACRO.sub(lambda found: found[1].rjust(len(found[0]) - 1) + " ", text)
    numbers = {value for _, _, values in numerals(text, 0, len(text)) for value in values}
    return Statement(frozenset(numbers), tuple(limits_of(text, printable(name.as_posix()))))


@lru_cache(maxsize=256)
def factor_at(text: str, at: int, end: int) -> ValueAt:
    """A number with its power, and the offset behind it."""
    found = FACTOR.match(text, at, end)
    if found is None:
        return None
    number = int(re.sub("[^0-9]", "", found[1]))
    if found[2]:
        return number * 10 ** int(found[2]), found.end()
    power = int((found[3] or found[4] or found[5] or found[6] or "1").translate(PLAIN_DIGITS))
    return HUGE if power > 1 and number.bit_length() * power > HUGE.bit_length() else number**power, found.end()


def chain_at(text: str, at: int, end: int, part_at: PartAt, sign: re.Pattern[str], combined: Callable[[str, int, int], int]) -> ValueAt:
    """Parts with signs between them, combined from the left, and the offset behind them."""
    found = part_at(text, at, end)
    for _ in range(MOST_PARTS):
        operator = sign.match(text, behind_blanks(text, found[1], end), end) if found else None
        other = part_at(text, behind_blanks(text, operator.end(), end), end) if operator else None
        if not (found and operator and other):
            break
        found = combined(operator[0], found[0], other[0]), other[1]
    return found


@lru_cache(maxsize=256)
def product_at(text: str, at: int, end: int) -> ValueAt:
    return chain_at(text, at, end, factor_at, TIMES, lambda _, one, other: one * other)


def sum_at(text: str, at: int, end: int) -> ValueAt:
    return chain_at(text, at, end, product_at, PLUS, lambda sign, one, other: one + other if sign == "+" else one - other)


@lru_cache(maxsize=256)
def behind_blanks(text: str, at: int, end: int) -> int:
    found = BLANKS.match(text, at, end)
    assert found
    return found.end()


def numerals(text: str, start: int, end: int) -> Iterator[tuple[int, int, list[int]]]:
    """The numbers between two offsets: where each begins and ends, and its values: that of the whole sum or product first, then of its parts."""
    at = start
    while found := DIGIT.search(text, at, end):
        at = found.start()
        whole, product, factor = sum_at(text, at, end), product_at(text, at, end), factor_at(text, at, end)
        assert whole and product and factor
        values = [value for value, _ in (whole, product, factor) if abs(value) <= MOST]
        before = text[max(start, at - LOOKED_AT) : at].rstrip()
        if before.endswith(("-", "−")):
            values = [-value for value in values] + values
        # (the parts of a sum are looked at too, so that each is among the numbers)
        yield at, whole[1], values
        at = factor[1]


def formulas_in(text: str) -> Iterator[tuple[int, int]]:
    """Where the formulas of a text begin and end. (An end that is not found once is not looked for again.)"""
    at, endless = 0, set()
    while begin := FORMULA.search(text, at):
        at, kind = begin.end(), begin[0][:2]
        end = None if kind in endless else ENDS[kind].search(text, at + 1)
        if end is None:
            endless.add(kind)
            continue
        yield at, end.start()
        at = end.end()


def limits_of(text: str, name: str) -> Iterator[Mention]:
    """The limits of a statement, in order."""
    for start, end in formulas_in(text):
        behind = start
        for at, at_end, values in numerals(text, start, end):
            if at < behind or not values:
                continue
            behind = at_end
            shown_from = max(start, at - LOOKED_AT)
            first = re.search(r"[-−]\s*\Z", text[shown_from:at])
            begin = shown_from + first.start() if first else at
            if sign := comparison_of(text, start, begin, at_end, end):
                value = values[0]
                near = range(value - 1, value + 2) if STRICT.fullmatch(sign) else (value,)
                line, column = text.count("\n", 0, begin) + 1, len(text[text.rfind("\n", 0, begin) + 1 : begin].encode()) + 1
                yield Mention(value, f"{name}:{line}:{column}", frozenset(near))


def comparison_of(text: str, start: int, begin: int, at_end: int, end: int) -> str | None:
    """The sign of which a numeral in a formula is a whole side; none where it is not."""
    before = text[max(start, begin - LOOKED_AT) : begin]
    while (shorter := re.sub(r"(?:\s|~|&|\\[,;:! ]|\\q?quad)\Z", "", before)) != before:
        before = shorter
    behind = behind_blanks(text, at_end, end)
    sign_before, sign_after = BEFORE.search(before), AFTER.match(text, behind, end)
    if sign_before and (sign_after or not OPERATOR_AFTER.match(text, behind, end)):
        return sign_before[1]
    return sign_after[0] if sign_after and not OPERATOR_BEFORE.search(before) else None
