"""Patterns for REGEX: most of them of the part that the reference knows, some that are surely none."""

from random import Random

from reference.faults import LeftOut
from reference.patterns import BadPattern, read_pattern

BAD = [*"( a) [a * a|* [z-a] a{2,1} a{2 \\ (?: x(+) \\1 [".split(), "(" * 301 + "a" + ")" * 301, "\xff"]
TOO_LARGE = ["a{1000}{1000}", "(?:a{999}){1200}"]
LETTERS = ["a", "b", "c", "x", "ab", "0", "1", "-", ",", " ", "#", "_", '"']
SETS = [
    "[a-z]", "[0-9]", "[abc]", "[^a]", "[^\\n ]", "[a-c0-2]", "[.#]", "[\\d,]", "[^\\s]", "[-a]", "[]a]", "[a\\-z]",
    "[\\x41-\\x5a]", "[^0-9\\n]",
]
CLASSES = ["\\d", "\\w", "\\s", ".", ".", "\\.", "\\D", "\\W", "\\S", "\\n", "\\t", "\\\\", "\\x61", "\\+", "\\{"]
# UTF-8, written byte by byte
WIDE = ["\u00e9", "\u00df", "\u20ac", "\U0001f600", "[\u00e0-\u00ff]", "[^\u00e9]", "\\xe9"]
COUNTS = ["*", "+", "?", "{2}", "{1,3}", "{0,2}", "{2,}", "*?", "+?", "??", "{1,2}?"]
FLAGS = ["(?s)", "(?m)", "(?-u)", "(?s:.)", "(?-u:\\xff)", "(?-u:[^a])", "(?s-u:.)"]
# What flags do, and where they end.
FLAGGED = ["(?m)a$\\n^b", "(?m:$)\\n", "(?m)^$", "(?:(?s)a).", "(?:(?-u)[^a])[^a]", "(?s)a.|b.", "(?:(?m)a$)\\n?", "(?s:a.)."]
EDGES = ["^", "$", "\\b", "\\A", "\\z"]


def pattern(random: Random) -> str:
    """A pattern, as a text of Latin-1."""
    if random.random() < 0.04:
        # the checker takes its time for these
        return random.choice(BAD if random.random() < 0.98 else TOO_LARGE)
    while True:
        encoded = (random.choice(FLAGGED) if random.random() < 0.03 else alternatives(random, 2)).encode("utf-8")
        if is_known(encoded):
            return encoded.decode("latin-1")


def is_known(encoded: bytes) -> bool:
    """Whether the reference knows what a pattern matches."""
    try:
        read_pattern(encoded)
    except LeftOut:
        return False
    except BadPattern:
        pass
    return True


def alternatives(random: Random, depth: int) -> str:
    count = 1 if random.random() < 0.8 else random.randrange(2, 4)
    return "|".join(sequence(random, depth) for _ in range(count))


def sequence(random: Random, depth: int) -> str:
    return "".join(repeatable(random, depth) for _ in range(random.choice((1, 1, 1, 2, 2, 3))))


def repeatable(random: Random, depth: int) -> str:
    share = random.random()
    if share < 0.03:
        return random.choice(EDGES)
    if share < 0.05:
        return random.choice(FLAGS)
    part = atom(random, depth)
    if random.random() < 0.45:
        if len(part) > 1 and part[0] not in "[\\(":
            part = f"(?:{part})"
        return part + random.choice(COUNTS)
    return part


def atom(random: Random, depth: int) -> str:
    share = random.random()
    if share < 0.35:
        return random.choice(LETTERS)
    if share < 0.65:
        return random.choice(SETS)
    if share < 0.8:
        return random.choice(CLASSES)
    if share < 0.84:
        return random.choice(WIDE)
    if depth == 0:
        return "a"
    return random.choice(("(", "(?:")) + alternatives(random, depth - 1) + ")"
