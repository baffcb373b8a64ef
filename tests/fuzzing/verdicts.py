"""Compares the faults of values by which the built checker stops on generated cases with the traps that the built ctd-lint tells."""

import re
import subprocess
from collections import Counter
from collections.abc import Iterator, Sequence
from dataclasses import dataclass, field, replace
from pathlib import Path
from unittest.mock import patch

from reference.faults import LeftOut, Misused, Stopped
from reference.store import Indices, Store
from reference.tool import Answer
from reference.values import Value
from reference.words import Asked, sort_words
from traps_told import EVERY, KINDS, TRAP_KINDS, Report, report_of

from .case import Case
from .cases import case_of, case_with_arrays
from .checker import Checker, write_program

STOP = re.compile(rb"checktestdata: line \d+ column \d+: (.*) \(program line (\d+) column (\d+)\)\n")
VERDICTS = (0, 1)


@dataclass(frozen=True)
class Stop:
    """A fault of a value, and the line and the column of the command that stopped by it."""

    fault: str
    line: int
    column: int


@dataclass
class Comparison:
    """How many faults were compared by the kind of trap that tells them, what was said of programs, and which cases have a fault that is not told."""

    kinds: Counter[str] = field(default_factory=Counter)
    programs: Counter[str] = field(default_factory=Counter)
    untold: list[int] = field(default_factory=list)

    def add(self, other: "Comparison") -> None:
        self.kinds += other.kinds
        self.programs += other.programs
        self.untold += other.untold


class Linter:
    """The built ctd-lint, on the programs of cases, in the folder that the process works in."""

    def __init__(self, program: Path) -> None:
        self.program = program

    def output(self, case: Case, *options: str) -> str:
        """What it writes of the program with --json, these options and the presets of the case; nothing where the words of the case ask for no check."""
        try:
            given = sort_words([word.decode() for word in case.words])
        except (Asked, Misused, UnicodeDecodeError):
            return ""
        write_program(case)
        define = given.options.get("define")
        presets = [] if define is None else [f"--define={define}"]
        words = [self.program, "--json", *options, *presets, "--", given.files[0]]
        done = subprocess.run(words, stdin=subprocess.DEVNULL, capture_output=True, text=True, errors="replace", check=False)
        return done.stdout

    def report(self, case: Case) -> Report | None:
        """What it tells of the program of a case, if it tells something."""
        report = report_of(self.output(case, "--ignore=no-value,wrong-type"))
        return report if report.verdicts else None


def case_to_compare(seed: int, number: int) -> Case:
    """The case of a seed and a number: of each eight one that fills arrays and reads them."""
    return case_with_arrays(seed, number) if number % 8 == 7 else case_of(seed, number)


def stop_of(answer: Answer) -> Stop | None:
    """The fault of a value by which a run stopped, if it did."""
    match = STOP.fullmatch(answer.err)
    if not match or match[1].decode() not in KINDS:
        return None
    return Stop(match[1].decode(), int(match[2]), int(match[3]))


def kinds_of(stop: Stop, case: Case) -> Sequence[str]:
    """The kinds of traps that tell a fault. Whether a variable without a value has indices is known from the reference alone."""
    if stop.fault != "variable has no value":
        return KINDS[stop.fault]
    right_value = Store.value
    has_indices: list[bool] = []

    def value(store: Store, name: bytes, indices: Indices) -> Value:
        try:
            return right_value(store, name, indices)
        except Stopped:
            has_indices.append(bool(indices))
            raise

    try:
        with patch.object(Store, "value", value):
            case.reference_answer()
    except LeftOut:
        return KINDS[stop.fault]
    return ["no-element-here" if has_indices[-1] else "no-value-here"]


def complaints(stop: Stop, kinds: Sequence[str], report: Report) -> Iterator[str]:
    """How a report leaves out a fault of these kinds."""
    if not any((stop.line, stop.column, kind) in report.traps for kind in kinds):
        yield f"ctd-lint does not tell {' or '.join(kinds)} at {stop.line}:{stop.column}"
    if all(report.excludes(kind) for kind in kinds):
        yield f"ctd-lint says: {report.verdicts}"


def complaints_of(case: Case, checker: Checker, linter: Linter) -> list[str]:
    """How ctd-lint leaves out the fault by which the checker stops on a case, if it does both."""
    stop = stop_of(checker.answer(case))
    report = linter.report(case)
    if stop is None or report is None:
        return []
    return list(complaints(stop, kinds_of(stop, case), report))


def compare(checker: Checker, linter: Linter, seed: int, numbers: Sequence[int]) -> Comparison:
    """Compares the faults of the cases of these numbers."""
    found = Comparison()
    for number in numbers:
        case = case_to_compare(seed, number)
        answer = checker.answer(case)
        stop = stop_of(answer)
        if stop is None and answer.status not in VERDICTS:
            continue
        report = linter.report(case)
        if report is None:
            continue
        found.programs[report.verdicts if report.verdicts == EVERY else "others"] += 1
        if stop is None:
            continue
        kinds = kinds_of(stop, case)
        found.kinds["/".join(kinds)] += 1
        if any(complaints(stop, kinds, report)):
            found.untold.append(number)
    return found


def wrong_reports(report: Report) -> Iterator[tuple[str, Report]]:
    """Reports that leave something out: the traps of a kind, or that there are traps."""
    for kind in TRAP_KINDS:
        yield f"no line for {kind}", replace(report, traps=frozenset(trap for trap in report.traps if trap[2] != kind))
    yield "each data file is said to get a verdict", replace(report, verdicts=EVERY)


def wrong_reports_seen(checker: Checker, linter: Linter, seed: int, count: int) -> Iterator[tuple[str, int | None]]:
    """Which wrong reports are complained of, each with the number of the first case that shows it, and at last those that no case shows."""
    missing = [name for name, _ in wrong_reports(Report(frozenset()))]
    for number in range(count):
        case = case_to_compare(seed, number)
        stop = stop_of(checker.answer(case))
        report = linter.report(case) if stop else None
        if stop is None or report is None:
            continue
        kinds = kinds_of(stop, case)
        if any(complaints(stop, kinds, report)):
            continue
        for name, wrong in wrong_reports(report):
            if name in missing and any(complaints(stop, kinds, wrong)):
                missing.remove(name)
                yield name, number
        if not missing:
            return
    for name in missing:
        yield name, None
