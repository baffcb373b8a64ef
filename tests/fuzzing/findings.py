"""Holds what the built ctd-lint finds in the programs of generated cases against the runs of the reference.

A variable that nothing reads, or only its own assignments, counts for nothing: without what gives it values each run with a verdict has the same
answer. The other kinds say of a command that something never happens there: no run begins it or passes it, or its test is never true or never
false. These are held against all runs, up to the end of those without a verdict."""

import re
from collections import Counter
from collections.abc import Iterator, Sequence
from contextlib import ExitStack, contextmanager
from dataclasses import dataclass, field
from enum import Enum
from unittest.mock import patch

from reference import tool
from reference.commands import Command, Set
from reference.conditions import Condition
from reference.expressions import Variable
from reference.faults import LeftOut
from reference.run import Run, Site
from reference.store import Store
from reference.values import Value
from traps_told import said_in

from .case import Case
from .cases import case_of
from .verdicts import VERDICTS, Linter

NAME = re.compile(rb"[a-z][a-z0-9]*")
WORD = re.compile(rb"[A-Z]+")

right_assign = Variable.assign
right_begin = Run.begin
right_holds = Run.holds
right_perform = Run.perform


class Event(Enum):
    """What may happen in a run at the place of a command."""

    BEGUN = "the command begins"
    PASSED = "a run passes the command"
    TRUE = "the test is true"
    FALSE = "the test is false"


IDLE_KINDS = ("unread", "own-reads")
# What never happens, by the kinds that say so.
NEVER = {
    "after-eof": [Event.PASSED],
    "always-false": [Event.TRUE],
    "always-true": [Event.FALSE],
    "empty-range": [Event.PASSED],
    "range-false": [Event.TRUE],
    "range-true": [Event.FALSE],
    "repeats-bounds": [Event.FALSE],
    "unreachable": [Event.BEGUN],
    "wrong-type": [Event.PASSED, Event.TRUE, Event.FALSE],
}


class Happened(Exception):
    """Something happened that is said never to do so."""


@dataclass(frozen=True)
class Claims:
    """The variables that count for nothing, and the events that never happen, each with the place of its command."""

    idle: frozenset[bytes] = frozenset()
    never: frozenset[tuple[Event, str]] = frozenset()


@dataclass
class Held:
    """How many claims were held against runs, by the kind of the finding, and which cases have a wrong one."""

    kinds: Counter[str] = field(default_factory=Counter)
    wrong: list[int] = field(default_factory=list)

    def add(self, other: "Held") -> None:
        self.kinds += other.kinds
        self.wrong += other.wrong


def never_at(places: Sequence[str], kind: str) -> Claims:
    """What findings of a kind at these places claim."""
    return Claims(never=frozenset((event, place) for event in NEVER[kind] for place in places))


def found_in(output: str) -> Iterator[tuple[str, Claims]]:
    """The kinds of the findings that claim something of runs, each with its claim."""
    for one in said_in(output):
        if one.kind in IDLE_KINDS:
            yield one.kind, Claims(idle=frozenset([one.name.encode()]))
        elif one.kind in NEVER and one.place:
            yield one.kind, never_at([f"line {one.place.line} column {one.place.column}"], one.kind)


def all_of(claims: Sequence[Claims]) -> Claims:
    return Claims(frozenset().union(*(one.idle for one in claims)), frozenset().union(*(one.never for one in claims)))


@contextmanager
def without_assignments(idle: frozenset[bytes]) -> Iterator[None]:
    """The reference, in which nothing gives these variables values."""

    def assign(variable: Variable, store: Store, value: Value) -> None:
        if variable.name not in idle:
            right_assign(variable, store, value)

    def act(command: Set, run: Run) -> None:
        for variable, expression in command.assignments:
            if variable.name not in idle:
                variable.assign(run.store, expression.value(run.store))

    with ExitStack() as patches:
        patches.enter_context(patch.object(Variable, "assign", assign))
        patches.enter_context(patch.object(Set, "act", act))
        yield


@contextmanager
def without_events(never: frozenset[tuple[Event, str]], text: bytes) -> Iterator[None]:
    """The reference, which raises Happened where one of these events happens in a run of a program with this text."""

    def happens(event: Event, site: Site) -> None:
        if isinstance(site, int) and (event, tool.place(text, site)) in never:
            raise Happened(f"{event.value} at {tool.place(text, site)}")

    def begin(run: Run, site: Site) -> None:
        happens(Event.BEGUN, site)
        right_begin(run, site)

    def holds(run: Run, test: Condition) -> bool:
        is_true = right_holds(run, test)
        happens(Event.TRUE if is_true else Event.FALSE, run.site)
        return is_true

    def perform(run: Run, commands: Sequence[Command]) -> None:
        for command in commands:
            right_perform(run, [command])
            happens(Event.PASSED, command.place)

    with patch.multiple(Run, begin=begin, holds=holds, perform=perform):
        yield


def complaints(case: Case, claims: Claims) -> Iterator[str]:
    """How claims are wrong on a case. Raises LeftOut where the reference has no answer."""
    try:
        with without_events(claims.never, case.program or b""):
            right = case.reference_answer()
    except Happened as event:
        yield str(event)
        return
    if claims.idle and right.status in VERDICTS:
        with without_assignments(claims.idle):
            answer = case.reference_answer()
        if answer != right:
            yield f"without what gives {claims.idle} values the answer is {answer}"


def complaints_of(case: Case, linter: Linter) -> list[str]:
    """How the findings in the program of a case are wrong, if they are."""
    try:
        return list(complaints(case, all_of([claims for _, claims in found_in(linter.output(case))])))
    except LeftOut:
        return []


def hold(linter: Linter, seed: int, numbers: Sequence[int]) -> Held:
    """Holds the findings in the programs of the cases of these numbers against their runs, as far as the reference can follow these."""
    held = Held()
    for number in numbers:
        case = case_of(seed, number)
        found = list(found_in(linter.output(case)))
        try:
            if found and case.reference_answer().status not in VERDICTS:
                found = [(kind, claims) for kind, claims in found if not claims.idle]
            if any(complaints(case, all_of([claims for _, claims in found]))):
                held.wrong.append(number)
            held.kinds.update(kind for kind, _ in found)
        except LeftOut:
            continue
    return held


def wrong_claims(case: Case) -> Iterator[tuple[str, Claims]]:
    """Claims that are wrong on many cases: that all variables count for nothing, and findings of a kind at each command."""
    text = case.program or b""
    yield "all variables count for nothing", Claims(idle=frozenset(NAME.findall(text)))
    places = [tool.place(text, word.start()) for word in WORD.finditer(text)]
    for kind in NEVER:
        yield f"{kind} at each command", never_at(places, kind)


def wrong_claims_seen(seed: int, count: int) -> Iterator[tuple[str, int | None]]:
    """Which wrong claims are complained of, each with the number of the first case that shows it, and at last those that no case shows."""
    missing = [name for name, _ in wrong_claims(Case((), None, b""))]
    for number in range(count):
        case = case_of(seed, number)
        for name, claims in wrong_claims(case):
            try:
                seen = name in missing and any(complaints(case, claims))
            except LeftOut:
                continue
            if seen:
                missing.remove(name)
                yield name, number
        if not missing:
            return
    for name in missing:
        yield name, None
