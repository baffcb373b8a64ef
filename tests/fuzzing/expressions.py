"""Expressions and tests of generated programs, as lists of tokens."""

from dataclasses import dataclass, field
from random import Random

from .spelling import literal

Tokens = list[str]

SMALL = ["0", "1", "1", "2", "2", "3", "3", "4", "5", "7", "10", "12"]
LARGE = [
    "99",
    "128",
    "1000000000",
    "18446744073709551615",
    "18446744073709551616",
    "9223372036854775808",
    "85070591730234615865843651857942052864",
    "170141183460469231731687303715884105727",
]
TEXTS = [
    "", "a", "b", "ab", "abc", "yes", "no", " ", ",", "-", "x y", "#", ".", "0", "12", "\n", "a\n", '"', "\\", "\\d",
    "\xff", "\0", "\x80a", "\xe9", "\r\n", "\t\b", "\\\r\n", "abd",
]
NUMBER_NAMES = ["n", "m", "k", "x", "a1", "total"]
TEXT_NAMES = ["s", "t", "w"]
ARRAY_NAMES = ["a", "b", "c", "grid"]
TEXT_ARRAY_NAMES = ["u", "v"]
ALL_NAMES = NUMBER_NAMES + TEXT_NAMES + ARRAY_NAMES + TEXT_ARRAY_NAMES + ["i", "j", "unknown"]
COMPARISONS = ["<", ">", "<=", ">=", "==", "!=", "==", "!="]
OPERATORS = ["+", "+", "-", "-", "*", "/", "%", "%", "+", "-"]


@dataclass
class Scope:
    """What a program has given values so far: variables with numbers and with strings, and names with several values."""

    numbers: list[Tokens] = field(default_factory=list)
    texts: list[Tokens] = field(default_factory=list)
    arrays: list[str] = field(default_factory=list)

    def copy(self) -> "Scope":
        return Scope([*self.numbers], [*self.texts], [*self.arrays])


class Expressions:
    """Makes expressions and tests over the variables of a scope. Now and then they are wrong in their types or values."""

    def __init__(self, random: Random, scope: Scope) -> None:
        self.random = random
        self.scope = scope

    def chance(self, share: float) -> bool:
        return self.random.random() < share

    def variable(self, names: list[str], depth: int = 1) -> Tokens:
        """A variable with or without indices."""
        name = self.random.choice(names)
        if depth == 0 or self.chance(0.6):
            return [name]
        return [name, "[", *self.index(depth - 1), *([",", *self.index(0)] if self.chance(0.25) else []), "]"]

    def index(self, depth: int) -> Tokens:
        return self.text(0) if self.chance(0.15) else self.number(depth)

    def number(self, depth: int) -> Tokens:
        """An expression for a number."""
        share = self.random.random()
        if share < 0.30 or (depth == 0 and share < 0.45):
            return [self.random.choice(SMALL)]
        if share < 0.60 and self.scope.numbers:
            return self.random.choice(self.scope.numbers)
        if share < 0.66:
            return [self.random.choice(LARGE)]
        if share < 0.68:
            return self.wrong_number()
        if depth == 0:
            return [self.random.choice(SMALL)]
        return self.operation(depth, share)

    def operation(self, depth: int, share: float) -> Tokens:
        """A number that is computed."""
        if share < 0.74:
            return ["(", *self.number(depth - 1), ")"]
        if share < 0.80:
            return ["-", *self.number(depth - 1)]
        if share < 0.82:
            return ["-", self.random.choice(SMALL), self.random.choice("/%"), self.random.choice(SMALL)]
        if share < 0.84:
            return ["STRLEN", "(", *self.text(depth - 1), ")"]
        if share < 0.87:
            if self.chance(0.2):
                return [self.random.choice("012"), "^", self.random.choice(("18446744073709551615", "18446744073709551616"))]
            minus = ["-"] if self.chance(0.1) else []
            return [*self.number(0), "^", *minus, *self.number(depth - 1 if self.chance(0.3) else 0)]
        return [*self.number(depth - 1), self.random.choice(OPERATORS), *self.number(depth - 1)]

    def wrong_number(self) -> Tokens:
        """What is mostly no number."""
        if self.chance(0.5):
            return self.variable(ALL_NAMES)
        return [literal(self.random, self.random.choice(TEXTS))]

    def text(self, depth: int) -> Tokens:
        """An expression for a string."""
        share = self.random.random()
        if share < 0.25 and self.scope.texts:
            return self.random.choice(self.scope.texts)
        if share < 0.27:
            return self.number(0)
        if share < 0.29:
            return self.variable(ALL_NAMES)
        if share < 0.33 and depth > 0:
            return ["(", *self.text(depth - 1), ")"]
        return [literal(self.random, self.random.choice(TEXTS))]

    def test(self, depth: int) -> Tokens:
        """A test."""
        share = self.random.random()
        if depth > 0 and share < 0.30:
            if share < 0.10:
                return ["!", *self.negated(depth - 1)]
            if share < 0.16:
                return ["(", *self.test(depth - 1), ")"]
            return [*self.test(depth - 1), self.random.choice(("&&", "||")), *self.test(depth - 1)]
        if share < 0.65:
            part = self.text if self.chance(0.15) else self.number
            return [*part(depth), self.random.choice(COMPARISONS), *(part if self.chance(0.98) else self.text)(depth)]
        if share < 0.76:
            return self.match()
        if share < 0.82:
            return ["ISEOF"]
        if share < 0.92:
            return self.unique()
        wanted = self.text(depth) if self.chance(0.2) else self.number(depth)
        return ["INARRAY", "(", *wanted, ",", self.array(), ")"]

    def negated(self, depth: int) -> Tokens:
        """What stands behind a `!`."""
        test = self.test(depth)
        return test if self.chance(0.5) else ["(", *test, ")"]

    def match(self) -> Tokens:
        text = literal(self.random, self.random.choice(("\n", " ", "ab", "-0123456789", "abc", "")))
        return ["MATCH", "(", *([text] if self.chance(0.8) else self.text(1)), ")"]

    def unique(self) -> Tokens:
        names = [self.array() for _ in range(self.random.choice((1, 1, 2, 2, 3)))]
        return ["UNIQUE", "(", *",".join(names).replace(",", " , ").split(), ")"]

    def array(self) -> str:
        """A name with several values, or some name."""
        if self.scope.arrays and self.chance(0.85):
            return self.random.choice(self.scope.arrays)
        return self.random.choice(ALL_NAMES)
