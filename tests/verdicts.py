#!/usr/bin/env python3
"""Springs the traps of the programs of tests/verdicts/ with the built checker: a run on the data of a row of programs.toml stops by the fault and at
the place of the row. With --lint the built ctd-lint reads all programs there: it tells the trap of the row, and of other traps just the `reports` of
the row, which no data can spring.

The last line counts what passed and failed. usage: tests/verdicts.py [--lint] [PROGRAM]"""
from __future__ import annotations

import subprocess
import sys
import tomllib
from collections.abc import Iterator
from dataclasses import dataclass, field
from pathlib import Path

from results import TOP, checker_to_test, linter_to_test, print_results
from traps_told import KINDS, Told, report_of

FOLDER = TOP / "tests/verdicts"


@dataclass(frozen=True)
class Row:
    """A program, with the data that spring its trap, if it has one, how the run then stops, and what else ctd-lint tells."""

    name: str
    data: str | None = None
    fault: str = ""
    line: int = 0
    column: int = 0
    reports: list[list[int | str]] = field(default_factory=list)


def rows() -> list[Row]:
    return [Row(**row) for row in tomllib.loads((FOLDER / "programs.toml").read_text())["program"]]


def faults_of_run(checker: Path, row: Row) -> Iterator[str]:
    """How the run on the data ends in another way."""
    data = (row.data or "").encode()
    run = subprocess.run([checker, FOLDER / f"{row.name}.ctd"], input=data, capture_output=True, check=False)
    end = f": {row.fault} (program line {row.line} column {row.column})"
    if run.returncode != 2:
        yield f"the status is {run.returncode}, wanted 2"
    if not run.stderr.decode().strip().endswith(end):
        yield f"says {run.stderr.decode()!r}, wanted {end!r}"


def traps_told(linter: Path, row: Row) -> frozenset[Told]:
    """The traps that ctd-lint tells of a program, and those that a finding would tell in their place."""
    run = subprocess.run([linter, "--json", "--ignore=no-value,wrong-type", FOLDER / f"{row.name}.ctd"], capture_output=True, text=True, check=False)
    return report_of(run.stdout).traps


def faults_of_lint(linter: Path, row: Row) -> Iterator[str]:
    """The trap that is not told, and what else is told and not in the row, or in the row and not told."""
    told = traps_told(linter, row)
    planted = [(row.line, row.column, kind) for kind in KINDS.get(row.fault, [])]
    if planted and not told.intersection(planted):
        yield f"does not tell the {row.fault} at {row.line}:{row.column}"
    others = sorted(trap for trap in told if trap not in planted)
    reports = sorted(tuple(report) for report in row.reports)
    if others != reports:
        yield f"tells {others}, wanted {reports}"


def results(checker: Path) -> Iterator[tuple[str, list[str]]]:
    for row in rows():
        if row.data is not None:
            yield row.name, list(faults_of_run(checker, row))


def results_of_lint(linter: Path) -> Iterator[tuple[str, list[str]]]:
    for row in rows():
        yield row.name, list(faults_of_lint(linter, row))


def main() -> int:
    if sys.argv[1:2] == ["--lint"]:
        return print_results("verdicts --lint", results_of_lint(linter_to_test()))
    return print_results("verdicts", results(checker_to_test()))


if __name__ == "__main__":
    sys.exit(main())
