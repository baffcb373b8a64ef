"""The case of a seed and a number."""

from random import Random

from reference import limits
from reference.faults import Fault, Refused
from reference.presets import Presets, read_presets
from reference.words import Settings

from .arrays import PRESETS, ArrayPrograms
from .case import DATA, PROGRAM, Case, Source
from .draft import changed_data, fitting_data
from .expressions import Scope
from .programs import Programs, changed_tokens, deep_program, some_tokens
from .spelling import text_of
from .words import changed_words, presets, words

MOST_STEPS = 400
LONG_PROGRAMS = [
    b'REGEX("[a-z]*",s)NEWLINE STRING(s)',
    b'REGEX("[^b]*")NEWLINE',
    b'REGEX("a+?b?")REGEX("a*")',
    b'REP(2)REGEX("a*|b")END',
]


def case_of(seed: int, number: int) -> Case:
    """The case of a seed and a number, and of nothing else."""
    random = Random(f"{seed} {number}")
    if random.random() < 0.0002:
        return long_case(random)
    define, scope = presets(random) if random.random() < 0.2 else (None, Scope())
    program = program_text(random, scope)
    whitespace_ok = random.random() < 0.2
    settings = Settings("program", None, presets_of(define), whitespace_ok, False, MOST_STEPS)
    data, needed = fitting_data(random, program, settings)
    if random.random() < 0.5:
        data = changed_data(random, data)
    source = random.choices(list(Source), (80, 12, 6, 2))[0]
    limit = step_limit(random, needed)
    given = words(random, limit, whitespace_ok, define, source)
    if random.random() < 0.02:
        given = changed_words(random, given)
    return Case(given, None if random.random() < 0.003 else program, data, source)


def case_with_arrays(seed: int, number: int) -> Case:
    """A case whose program fills arrays and reads them, of a seed and a number, and of nothing else."""
    random = Random(f"arrays {seed} {number}")
    program = ArrayPrograms(random).program().encode()
    define = random.choice(PRESETS) if random.random() < 0.15 else None
    data, _ = fitting_data(random, program, Settings("program", None, presets_of(define), False, False, MOST_STEPS))
    if random.random() < 0.2:
        data = changed_data(random, data)
    return Case(words(random, MOST_STEPS, False, define, Source.FILE), program, data)


def long_case(random: Random) -> Case:
    """A case with a string about as long as a REGEX sees."""
    program = random.choice(LONG_PROGRAMS)
    data = b"a" * (limits.WINDOW + random.choice((-1, -1, 0, 1))) + random.choice((b"\n", b"", b"b", b"b\n"))
    return Case((PROGRAM, DATA), program, data, random.choice((Source.FILE, Source.INPUT)))


def program_text(random: Random, scope: Scope) -> bytes:
    """The text of a program for variables with presets: one with a meaning or nearly so, one that nests deeply, or some tokens."""
    share = random.random()
    if share < 0.01:
        return text_of(random, deep_program(random))
    if share < 0.04:
        return text_of(random, some_tokens(random))
    tokens = Programs(random, scope).program()
    if share < 0.16:
        tokens = changed_tokens(random, tokens)
    text = text_of(random, tokens)
    if 0.16 < share < 0.18:
        return changed_data(random, text)
    if 0.18 < share < 0.1802:
        return text + b" " * (limits.PROGRAM_BYTES - len(text) + random.randrange(2))
    return text


def presets_of(define: str | None) -> Presets:
    """The presets of a text, if it spells some."""
    try:
        return {} if define is None else read_presets(define.encode("utf-8"))
    except (Fault, Refused):
        return {}


def step_limit(random: Random, needed: int) -> int:
    """A limit: far enough, or near to what the data need."""
    return MOST_STEPS if random.random() < 0.85 else max(needed + random.choice((-2, -1, -1, 0, 0, 1)), 0)
