"""Generated programs, as lists of tokens."""

from collections.abc import Callable, Sequence
from random import Random

from reference.limits import NESTING

from .expressions import (
    ALL_NAMES,
    ARRAY_NAMES,
    COMPARISONS,
    NUMBER_NAMES,
    OPERATORS,
    SMALL,
    TEXT_ARRAY_NAMES,
    TEXT_NAMES,
    TEXTS,
    Expressions,
    Scope,
    Tokens,
)
from .patterns import pattern
from .spelling import literal, pattern_literal

RANGES = [("0", "9"), ("1", "3"), ("1", "10"), ("-5", "5"), ("-3", "-1"), ("0", "1"), ("100", "1000"), ("5", "5"), ("2", "7")]
LARGE_RANGES = [
    ("-1000000000", "1000000000"),
    ("0", "18446744073709551616"),
    ("-170141183460469231731687303715884105727-1", "170141183460469231731687303715884105727"),
]


class Programs(Expressions):
    """Makes commands. They mostly have a meaning, so that a run gets far on data that fit."""

    def __init__(self, random: Random, scope: Scope) -> None:
        """The scope: what has values before the program begins."""
        super().__init__(random, scope)
        kinds: dict[Callable[[int], Tokens], int] = {
            self.integer_and_blank: 28,
            self.blank: 7,
            self.string: 6,
            self.regex: 12,
            self.assertion: 8,
            self.assignment: 9,
            self.unset: 2,
            self.loop: 8,
            self.filled_array: 9,
            self.choice: 6,
            self.cleared_array: 2,
            self.bounded_integer: 4,
            self.counting_loop: 2,
            self.endless_loop: 1,
            self.typed_variable: 2,
            self.end: 1,
        }
        self.kinds = [kind for kind, weight in kinds.items() for _ in range(weight)]

    def program(self) -> Tokens:
        return self.commands(self.random.choice((1, 2, 3, 4, 5, 6, 8)), 2)

    def commands(self, count: int, depth: int) -> Tokens:
        tokens: Tokens = []
        for _ in range(count):
            tokens += self.random.choice(self.kinds)(depth)
        return tokens

    def blank(self, depth: int) -> Tokens:
        return ["SPACE"] if self.chance(0.6) else ["NEWLINE"]

    def end(self, depth: int) -> Tokens:
        return ["EOF"]

    def bounds(self) -> Tokens:
        """Two bounds, with the comma between them."""
        share = self.random.random()
        if share < 0.6:
            least, greatest = self.random.choice(RANGES)
        elif share < 0.7:
            least, greatest = self.random.choice(LARGE_RANGES)
        elif share < 0.85:
            least = self.random.choice(("0", "1"))
            return [least, ",", *self.number(1)]
        elif share < 0.93:
            # data that fit have the value of this expression
            exact = self.number(2)
            return [*exact, ",", *exact]
        elif share < 0.98:
            low = self.number(1)
            return [*low, ",", *([*low, "+"] if self.chance(0.7) else []), *self.number(1)]
        else:
            least, greatest = "3", "2"
        return [least, ",", greatest]

    def integer(self, target: Tokens) -> Tokens:
        """INT, with a variable if a target is given."""
        return ["INT", "(", *self.bounds(), *([",", *target] if target else []), ")"]

    def integer_and_blank(self, depth: int) -> Tokens:
        target: Tokens = []
        if self.chance(0.6):
            target = self.variable(NUMBER_NAMES if self.chance(0.9) else ALL_NAMES)
        tokens = self.integer(target) + (self.blank(0) if self.chance(0.85) else [])
        if target:
            self.scope.numbers.append(target)
        return tokens

    def string(self, depth: int) -> Tokens:
        return ["STRING", "(", *self.text(depth), ")"]

    def regex(self, depth: int) -> Tokens:
        target: Tokens = []
        if self.chance(0.5):
            target = self.variable(TEXT_NAMES if self.chance(0.9) else ALL_NAMES)
            self.scope.texts.append(target)
        text = pattern_literal(self.random, pattern(self.random))
        return ["REGEX", "(", text, *([",", *target] if target else []), ")", *(self.blank(0) if self.chance(0.6) else [])]

    def assertion(self, depth: int) -> Tokens:
        return self.probe(self.test(2))

    def probe(self, test: Tokens) -> Tokens:
        """A command that shows whether a test is true. Most of them let the run go on in both cases."""
        if self.chance(0.35):
            return ["ASSERT", "(", *test, ")"]
        return ["IF", "(", *test, ")", "SPACE", "ELSE", "NEWLINE", "END"]

    def assignment(self, depth: int) -> Tokens:
        tokens = ["SET", "("]
        for index in range(self.random.choice((1, 1, 1, 2, 3))):
            if self.chance(0.25):
                target = self.variable(TEXT_NAMES + TEXT_ARRAY_NAMES)
                value = self.text(1)
                self.scope.texts.append(target)
            else:
                target = self.variable(NUMBER_NAMES + ARRAY_NAMES)
                value = self.number(2)
                self.scope.numbers.append(target)
            tokens += [*([","] if index else []), *target, "=", *value]
            self.scope.arrays.append(target[0])
        return [*tokens, ")"]

    def unset(self, depth: int) -> Tokens:
        return ["UNSET", "(", self.array(), *([",", self.random.choice(ALL_NAMES)] if self.chance(0.3) else []), ")"]

    def cleared_array(self, depth: int) -> Tokens:
        """An array that is filled and unset, and then looked at."""
        name = self.random.choice(ARRAY_NAMES)
        tokens = ["SET", "(", name, "[", *self.index(0), "]", "=", *self.number(0), ")", "UNSET", "(", name, ")"]
        if self.chance(0.3):
            tokens += ["SET", "(", name, "=", "1", ")"]
        self.scope.arrays.append(name)
        return tokens + self.probe(["INARRAY", "(", "2", ",", name, ")"] if self.chance(0.2) else self.test(1))

    def guard(self, depth: int) -> Tokens:
        """The test of a WHILE that mostly comes to an end."""
        share = self.random.random()
        if share < 0.35:
            return ["!", "ISEOF"]
        if share < 0.65:
            return ["!", "MATCH", "(", literal(self.random, "\n"), ")"]
        if share < 0.85:
            return ["MATCH", "(", literal(self.random, "0123456789-"), ")"]
        return self.test(1)

    def loop(self, depth: int) -> Tokens:
        """One of the four loops."""
        word = self.random.choice(("REP", "REPI", "WHILE", "WHILEI"))
        outer = self.scope.copy()
        counter = self.variable(["i", "j", *NUMBER_NAMES]) if word.endswith("I") else []
        separator = self.separator(depth)
        head = [*counter, ","] if counter else []
        if counter:
            self.scope.numbers.append(counter)
        if word.startswith("REP"):
            head += [self.random.choice("01233")] if self.chance(0.7) else self.number(1)
        elif counter and self.chance(0.5):
            head += [*counter, "<", *self.number(0)]
        else:
            head += self.guard(depth)
        body = self.body(depth)
        if self.chance(0.5):
            self.scope = outer
        return [word, "(", *head, *([",", *separator] if separator else []), ")", *body, "END"]

    def separator(self, depth: int) -> Tokens:
        """One command, or none."""
        if self.chance(0.45):
            return []
        if self.chance(0.8):
            return self.blank(0)
        kinds = [self.string, self.assertion, self.assignment, self.unset, self.blank]
        if depth > 0:
            kinds += [self.loop, self.choice]
        return self.random.choice(kinds)(max(depth - 1, 0))

    def body(self, depth: int) -> Tokens:
        if depth == 0 or self.chance(0.4):
            return self.integer([]) + (self.blank(0) if self.chance(0.6) else [])
        return self.commands(self.random.choice((0, 1, 1, 2, 3)), depth - 1)

    def choice(self, depth: int) -> Tokens:
        """IF, with or without ELSE."""
        tokens = ["IF", "(", *(self.match() if self.chance(0.3) else self.test(1)), ")", *self.body(depth)]
        if self.chance(0.5):
            tokens += ["ELSE", *self.body(depth)]
        return [*tokens, "END"]

    def bounded_integer(self, depth: int) -> Tokens:
        """An integer between two bounds, of which a variable may have the greater, and tests that compare it with them."""
        name = self.random.choice(NUMBER_NAMES)
        least, greatest = self.random.choice(RANGES)
        limit = self.random.choice(NUMBER_NAMES) if self.chance(0.5) else greatest
        tokens = ["SET", "(", limit, "=", greatest, ")"] if limit != greatest else []
        tokens += ["INT", "(", least, ",", limit, ",", name, ")", *self.blank(0)]
        self.scope.numbers.append([name])
        return tokens + self.comparisons(name, [least, greatest, limit], 2)

    def comparisons(self, name: str, values: Sequence[str], depth: int) -> Tokens:
        """A test that compares a variable with one of these values or a small one, or such tests in one another."""
        test = [name, self.random.choice(COMPARISONS), self.random.choice([*values, self.random.choice(SMALL)])]
        if depth == 0 or self.chance(0.5):
            return self.probe(test)
        otherwise = ["ELSE", *self.comparisons(name, values, depth - 1)] if self.chance(0.3) else []
        return ["IF", "(", *test, ")", *self.comparisons(name, values, depth - 1), *otherwise, "END"]

    def counting_loop(self, depth: int) -> Tokens:
        """A loop that changes a variable in each turn, and tests of it in the loop and behind it."""
        name = self.random.choice(NUMBER_NAMES)
        first = self.random.choice(SMALL)
        change = ["SET", "(", name, "=", name, self.random.choice(OPERATORS), self.random.choice(SMALL), ")"]
        inside = self.comparisons(name, [first], 1)
        body = [*inside, *change] if self.chance(0.5) else [*change, *inside]
        tokens = ["SET", "(", name, "=", first, ")", "REP", "(", self.random.choice("0123"), ")", *body, "END"]
        return tokens + self.comparisons(name, [first], 1)

    def endless_loop(self, depth: int) -> Tokens:
        """A WHILE whose test stays true, which takes a byte in each turn, and a command behind it."""
        name = self.random.choice(NUMBER_NAMES)
        head = ["SET", "(", name, "=", "1", ")", "WHILE", "(", name] if self.chance(0.5) else ["WHILE", "(", "1"]
        return [*head, "<", "2", ")", *self.integer([]), *self.blank(0), "END", *self.blank(0)]

    def typed_variable(self, depth: int) -> Tokens:
        """A variable that is a number, or a string, or the one or the other by a test, and a command that wants one of the two."""
        name = self.random.choice(NUMBER_NAMES + TEXT_NAMES)
        tokens = self.constant(name)
        if self.chance(0.5):
            tokens += ["IF", "(", *self.test(1), ")", *self.constant(name), "END"]
        use = ["STRING", "(", name, ")"] if self.chance(0.5) else self.probe([name, "==", *self.number(0)])
        return tokens + (["IF", "(", *self.test(1), ")", *use, "END"] if self.chance(0.5) else use)

    def constant(self, name: str) -> Tokens:
        """SET, which gives a variable a number or a string."""
        return ["SET", "(", name, "=", *(self.number(0) if self.chance(0.5) else self.text(0)), ")"]

    def filled_array(self, depth: int) -> Tokens:
        """Arrays that are read from the data, and a test of them."""
        names = self.random.sample(ARRAY_NAMES, self.random.choice((1, 1, 2)))
        index = ["i", "]"] if self.chance(0.8) else ["i", ",", *self.index(0), "]"]
        body: Tokens = []
        for number, name in enumerate(names):
            body += [*(["SPACE"] if number else []), "INT", "(", "0", ",", self.random.choice("12359"), ",", name, "[", *index, ")"]
        if self.chance(0.15):
            name = self.random.choice(TEXT_ARRAY_NAMES)
            body += ["REGEX", "(", '"[ab]"', ",", name, "[", "i", "]", ")"]
            names.append(name)
        count = [self.random.choice("1233455")] if self.chance(0.8) else self.number(1)
        between = [",", *self.blank(0)] if self.chance(0.7) else []
        self.scope.arrays += names
        self.scope.numbers += [[name, "[", "0", "]"] for name in names]
        tokens = ["REPI", "(", "i", ",", *count, *between, ")", *body, "END", *self.blank(0)]
        if self.chance(0.6):
            checked = ",".join(names if self.chance(0.8) else names[:1]).replace(",", " , ").split()
            tokens += self.probe([*(["!"] if self.chance(0.3) else []), "UNIQUE", "(", *checked, ")"])
        return tokens


WORDS = """
SPACE NEWLINE EOF INT STRING REGEX ASSERT SET UNSET REP REPI WHILE WHILEI IF ELSE END STRLEN MATCH ISEOF UNIQUE INARRAY FOO
""".split()
MARKS = "( ) [ ] , = + - * / % ^ ! < > <= >= == != && ||".split()
ODD = [
    *"FLOAT FIXED 1.5 1e3 05 00 $ & | a_b E . 1E 0x1 '".split(),
    *("\x0b", "\xe9", '"', '"\\400"', '"a', "99" * 20, "170141183460469231731687303715884105728"),
]

WEIGHED = "( [ IF REP REPI WHILE WHILEI + - * / % ^ && || ! < == + ^ ! > <= >= != ( [ IF , , ELSE = = ) ] END 1 a SPACE".split()


def some_token(random: Random) -> str:
    """A token, or now and then what is none."""
    share = random.random()
    if share < 0.4:
        return random.choice(MARKS)
    if share < 0.7:
        return random.choice(WORDS)
    if share < 0.8:
        return random.choice(ALL_NAMES)
    if share < 0.9:
        return random.choice(("0", "1", "17"))
    return literal(random, random.choice(TEXTS)) if share < 0.96 else random.choice(ODD)


def some_tokens(random: Random) -> Tokens:
    return [some_token(random) for _ in range(random.choice((1, 2, 3, 5, 8, 20)))]


def changed_tokens(random: Random, tokens: Tokens) -> Tokens:
    """These tokens with one or two changes."""
    tokens = [*tokens]
    for _ in range(random.choice((1, 1, 1, 2))):
        at = random.randrange(len(tokens) + 1)
        match random.randrange(6):
            case 0:
                del tokens[at : at + 1]
            case 1:
                tokens.insert(at, some_token(random))
            case 2:
                tokens[at : at + 1] = [some_token(random)]
            case 3:
                del tokens[at:]
            case 4:
                tokens[at:at] = tokens[at - 3 : at]
            case 5:
                tokens[at : at + 2] = tokens[at : at + 2][::-1]
    return tokens


def deep_program(random: Random) -> Tokens:
    """A program that nests about as deeply as it may."""
    weight = NESTING + random.choice((-2, -1, 0, 0, 1, 1, 2))
    match random.randrange(7):
        case 0 | 1:
            # no program, but the first token that is too deep tells how each is weighed
            return random.choices(WEIGHED, k=450)
        case 2:
            return ["ASSERT", "(", "1", *["+", "1"] * (weight - 2), "<", "0", ")"]
        case 3:
            return ["ASSERT", *["("] * (weight - 1), "1", "==", "1", *[")"] * (weight - 1)]
        case 4:
            blocks = weight - 1
            return [*["IF", "(", "ISEOF", ")"] * blocks, *["END"] * blocks]
        case 5:
            return ["SET", "(", "a", "=", *["-"] * (weight - 1), "1", ",", "b", "=", *["-"] * random.randrange(5), "2", ")"]
    return ["STRING", "(", *["a", "["] * (weight - 1), "0", *["]"] * (weight - 1), ")"]
