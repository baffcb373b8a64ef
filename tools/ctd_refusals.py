"""Why a program or its presets are refused, in more words than the checker has: what could stand there, or what is wrong with what does."""
from __future__ import annotations

import re
from functools import lru_cache

from ctd_companion import printable, text_of
from ctd_patterns import pattern_fault
from ctd_program import BLOCKS, END, NAME, NUMERAL, TEXT, Grammar, Refused, State, Token, commands_of, cut, parse, tables
from ctd_questions import place_at
from ctd_trees import DEEDS

# Groups of tokens, and what a group is called where all of it could stand somewhere.
GROUPS = [
    ("a command", {*DEEDS}),
    ("a test", {"!", "MATCH", "ISEOF", "UNIQUE", "INARRAY", NAME, NUMERAL, TEXT, "(", "-", "STRLEN"}),
    ("an expression", {NAME, NUMERAL, TEXT, "(", "-", "STRLEN"}),
    ("a comparison", {"<", ">", "<=", ">=", "==", "!="}),
    ("an operator", {"+", "-", "*", "/", "%", "^"}),
]
SINGLE = {NAME: "a name", NUMERAL: "a number", TEXT: "a string", END: "the end of the program"}
# The order of what could stand somewhere: marks, groups, words.
ORDER = [",", ")", "]", "=", "[", "(", "&&", "||", "!", *(title for title, _ in GROUPS), *SINGLE.values()]

# The grammar of presets in docs/LANGUAGE.md.
PRESETS = r"""
presets = preset {"," preset}
preset  = target "=" value
target  = NAME ["[" value {"," value} "]"]
value   = NUMERAL | "-" NUMERAL | TEXT
"""
# A numeral of the full language: its digits, a fraction, an exponent.
NUMERAL_FORM = re.compile(r"([0-9]+)(\.[0-9]*)?(?:[eE]([-+]?[0-9]*))?")
# How much is shown of the presets before a fault, and of a numeral.
ROOM = 30


def words_of_refusal(message: str, text: bytes, offset: int | None) -> str:
    """What more there is to say of a program that is refused with a message that points to an offset; an empty text where there is nothing."""
    if message == "syntax error":
        return expected_words(text)
    if offset is None:
        return ""
    if message == "not in this profile":
        return left_out(text, offset)
    token = next((token for token in cut(text) if token.offset == offset), None) if message == "bad pattern" else None
    return pattern_fault(token.value) if token and isinstance(token.value, bytes) else ""


def expected_words(text: bytes) -> str:
    """What could stand where a program has a syntax error, and which command is open where END could."""
    try:
        commands_of(text)
    except Refused as refused:
        told = open_command(text, refused.offset or 0) if "END" in refused.expected else ""
        return choices(refused.expected) + (f" ({told})" if told else "")
    return ""


def choices(expected: tuple[str, ...]) -> str:
    """Tokens, as what could stand somewhere."""
    rest, groups = set(expected), []
    for title, tokens in GROUPS:
        if tokens <= rest:
            rest -= tokens
            groups.append(title)
    found = [*groups, *(SINGLE.get(one, one) for one in sorted(rest))]
    found.sort(key=lambda one: ORDER.index(one) if one in ORDER else len(ORDER))
    return f"expected {' or '.join(found)}"


def open_command(text: bytes, offset: int) -> str:
    """The last command before an offset that has no END there, with its place; an empty text where there is none."""
    opened: list[Token] = []
    for token in cut(text):
        if token.offset >= offset:
            break
        if token.symbol in BLOCKS:
            opened.append(token)
        elif token.symbol == "END":
            opened.pop()
    if not opened:
        return ""
    place = place_at(text, opened[-1].offset)
    return f"{opened[-1].symbol} of line {place.line} column {place.column} is open"


def left_out(text: bytes, offset: int) -> str:
    """What is written at an offset that is no part of this profile, and what to write."""
    found = NUMERAL_FORM.match(text[offset : offset + ROOM].decode("ascii", "replace"))
    if found is None or found.end() == ROOM:
        return "numbers are whole here; REGEX reads others"
    digits, fraction, exponent = found.groups()
    if fraction is not None:
        return f"{found[0]} has a fraction, and numbers are whole here"
    if exponent is None:
        return f"{digits} has a leading zero: write {int(digits)}"
    factor = "" if int(digits) == 1 else f"{int(digits)}*"
    return f"{found[0]} has an exponent" + (f": write {factor}10^{int(exponent)}" if exponent.isdigit() else "")


@lru_cache(maxsize=None)
def preset_states() -> list[State]:
    """The tables of the language of presets."""
    grammar = Grammar()
    grammar.add_rules(PRESETS)
    return tables(grammar, "presets")


def words_of_presets(presets: bytes) -> str:
    """What is wrong with a text of presets; an empty text where nothing is."""
    try:
        tokens = cut(presets)
        end = 0
        for token in tokens:
            if token.offset > end:
                raise Refused("there is a blank or a comment", end)
            end = token.end
        parse(tokens, preset_states())
    except Refused as refused:
        if refused.message == "not in this profile":
            return left_out(presets, refused.offset or 0)
        told = choices(refused.expected).replace(SINGLE[END], "the end") if refused.expected else refused.message
        before = printable(text_of(presets[: refused.offset]))
        return f"{told} behind {'…' if len(before) > ROOM else ''}{before[-ROOM:]}" if before else f"{told} at the start"
    return ""
