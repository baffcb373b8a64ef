"""Holds what ctd-cover calls impossible against runs of the built checker. On data that fit a generated program nothing of it may happen, and no number may
lie outside of the range that is known of it: so a copy of the program that stops where it does has to fit too."""

from collections import Counter
from collections.abc import Iterator, Sequence
from dataclasses import dataclass, field
from pathlib import Path
from random import Random
from typing import NamedTuple

from reference.faults import Refused
from reference.words import Settings
from reference.tool import Answer

import ctd_companion
from ctd_asked import Linter
from ctd_coverage import DECIDED, ENDS, TIGHT, WORD, Skeleton, Thing
from ctd_possible import Possible
from ctd_questions import Copy, Question
from ctd_untried import TURNS, watched_program

from .arrays import PRESETS, ArrayPrograms
from .case import DATA, PROGRAM, Case
from .cases import MOST_STEPS, presets_of
from .checker import Checker, write_program
from .draft import whole_data
from .expressions import Scope
from .numbers import NumberPrograms
from .programs import Programs
from .spelling import text_of

# How many data are made for each program, and for one for which the first few turn out to be none; and how many steps the checker may take.
FILES, FIRST_FILES = 64, 4
STEP_LIMIT = b"--max-steps=10000"
# Kinds of things, by their names in the companion or by how these begin: those of tests, of bounds, of loops, and of numbers in a range.
KINDS = ("true", "false", *ENDS, *TURNS, TIGHT, DECIDED)
RANGE = "range"


class Claim(NamedTuple):
    """That a test is true wherever a thing is asked for, with its kind."""

    kind: str
    test: bytes


Claims = dict[Thing, Claim]


@dataclass(frozen=True)
class Denying:
    """Puts assertions of claims into a copy."""

    claims: Claims
    counter: None = None
    is_telling_turns: bool = False

    def is_open(self, thing: Thing) -> bool:
        return thing in self.claims

    def put(self, copy: Copy, thing: Thing) -> None:
        if thing in self.claims:
            copy.ask(Question(b"ASSERT(%b) " % self.claims[thing].test))


@dataclass
class Tried:
    """How many runs fitted, how many claims each kind has that were held against some, and which cases have a wrong one."""

    runs: int = 0
    kinds: Counter[str] = field(default_factory=Counter)
    wrong: list[int] = field(default_factory=list)

    def add(self, other: "Tried") -> None:
        self.runs += other.runs
        self.kinds += other.kinds
        self.wrong += other.wrong


def cases_to_try(seed: int, number: int) -> list[Case]:
    """A program with some data, of a seed and a number, and of nothing else."""
    random = Random(f"possible {seed} {number}")
    define = random.choice(PRESETS) if number % 4 == 0 and random.random() < 0.3 else None
    if number % 4 == 0:
        program = ArrayPrograms(random).program().encode()
    elif number % 4 == 1:
        program = text_of(random, Programs(random, Scope()).program())
    else:
        program = NumberPrograms(random).program().encode()
    settings = Settings("program", None, presets_of(define), False, False, MOST_STEPS)
    words = (*([f"--define={define}".encode()] if define else []), STEP_LIMIT, PROGRAM, DATA)
    made = {whole_data(random, program, settings) for _ in range(FIRST_FILES)}
    if made != {None}:
        made |= {whole_data(random, program, settings) for _ in range(FIRST_FILES, FILES)}
    return [Case(words, program, data) for data in sorted(data for data in made if data is not None)]


def possible_of(case: Case, path: Path | None) -> Possible | None:
    """What ctd-cover knows of the program of a case, if that is one."""
    options = [word.decode() for word in case.words if word.startswith(b"--")]
    write_program(case)
    try:
        linter = Linter(path and str(path), [option for option in options if option.startswith("--define=")])
        return watched_program(ctd_companion.Checker("", "program", options), linter)
    except Refused:
        return None


def kind_of(name: str) -> str:
    """The kind of a thing."""
    return next(kind for kind in (*KINDS, WORD) if name.startswith(kind))


def claims_of(possible: Possible) -> Claims:
    """What is called impossible in a program, and the ranges."""
    owners = possible.skeleton.owners
    possible.ask_all(thing for thing in owners if not thing.sign)
    claims = {thing: Claim(kind_of(name), thing.test) for thing, (_, name) in owners.items() if not thing.sign and not possible.can_be(thing)}
    ranges = {thing: Claim(RANGE, thing.stays(thing.bound)) for thing in owners if thing.sign and thing.bound is not None}
    return {**claims, **ranges}


def complaint(case: Case, checker: Checker, skeleton: Skeleton, claims: Claims) -> Iterator[str]:
    """How a claim is wrong, if the data of a case fit."""
    copy = skeleton.copy(Denying(claims))
    answer = told_by(checker.answer(Case(case.words, bytes(copy.text), case.data)))
    if answer.status and answer.message not in ("step limit reached", "nested too deeply") and fits(case, checker):
        question = copy.question_at(answer.in_program)
        wrong = question and question.text.decode("utf-8", "backslashreplace")
        yield f"{answer.line}: {wrong or 'the copy does something else'}"


def told_by(answer: Answer) -> ctd_companion.Answer:
    return ctd_companion.answer_of(answer.status, answer.out, answer.err)


def fits(case: Case, checker: Checker) -> bool:
    return checker.answer(case).status == 0


def complaints_of(case: Case, checker: Checker, linter: Path) -> list[str]:
    """How what is called impossible happens in a case."""
    possible = possible_of(case, linter) if case.words[-2:] == (PROGRAM, DATA) else None
    return list(complaint(case, checker, possible.skeleton, claims_of(possible))) if possible else []


def try_all(checker: Checker, linter: Path, seed: int, numbers: Sequence[int]) -> Tried:
    """Holds what is called impossible in the programs of these numbers against runs on their data."""
    tried = Tried()
    for number in numbers:
        cases = cases_to_try(seed, number)
        possible = possible_of(cases[0], linter) if cases else None
        claims = claims_of(possible) if possible else {}
        if possible and claims:
            tried.runs += len(cases)
            tried.kinds.update(claim.kind for claim in claims.values())
            if any(any(complaint(case, checker, possible.skeleton, claims)) for case in cases):
                tried.wrong.append(number)
    return tried


def wrong_claims(skeleton: Skeleton) -> Iterator[tuple[str, Claims]]:
    """Claims that are wrong on many cases: that all things of a kind are impossible, and ranges that are too small."""
    for kind in KINDS:
        yield f"all are impossible: {kind}", {thing: Claim(kind, thing.test) for thing, (_, name) in skeleton.owners.items() if name.startswith(kind)}
    bounds = {thing: thing.bound - thing.sign for thing in skeleton.owners if thing.sign and thing.bound is not None}
    yield "each range is smaller by one", {thing: Claim(RANGE, thing.stays(bound)) for thing, bound in bounds.items()}


def wrong_claims_seen(checker: Checker, seed: int, count: int) -> Iterator[tuple[str, int | None]]:
    """Which wrong claims are complained of, each with the number of the first case that shows it, and at last those that no case shows."""
    missing: list[str] = [name for name, _ in wrong_claims(Skeleton(b"", [], b"", [], {}))]
    for number in range(count):
        cases = cases_to_try(seed, number)
        possible = possible_of(cases[0], None) if cases else None
        for name, claims in wrong_claims(possible.skeleton) if possible else []:
            if name in missing and any(any(complaint(case, checker, possible.skeleton, claims)) for case in cases):
                missing.remove(name)
                yield name, number
        if not missing:
            return
    for name in missing:
        yield name, None
