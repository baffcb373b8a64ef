"""How deep a program nests (docs/LANGUAGE.md, How deep a program may nest)."""

from collections.abc import Iterable

from ctd_program import Token

from . import limits
from .faults import Refused

OPENS = frozenset({"(", "[", "REP", "REPI", "WHILE", "WHILEI", "IF"})
CLOSES = frozenset({")", "]", "END"})
ADDS = frozenset({"+", "-", "*", "/", "%", "^", "&&", "||", "!", "<", ">", "<=", ">=", "==", "!="})
RESETS = frozenset({",", "ELSE"})


def weigh(tokens: Iterable[Token]) -> None:
    """Refuses tokens at the first one that is nested too deeply."""
    counters = [0]
    weight = 0
    for token in tokens:
        symbol = token.symbol
        if symbol in OPENS:
            counters.append(0)
            weight += 1
        elif symbol in CLOSES and len(counters) > 1:
            weight -= counters.pop() + 1
        elif symbol in ADDS:
            counters[-1] += 1
            weight += 1
        elif symbol in RESETS:
            weight -= counters[-1]
            counters[-1] = 0
        if weight > limits.NESTING:
            raise Refused("nested too deeply", token.offset)
