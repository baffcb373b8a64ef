#!/usr/bin/env python3
"""Sees that what sentences of the documents say is so, where a run or a count shows it: what a program answers (tests/sentences.toml), how many there
are of something, which crates of the toolchain are trusted, which programs have a false report of ctd-lint.

The last line counts what passed and failed. usage: tests/sentences.py [CHECKER [LINTER]]"""
from __future__ import annotations

import re
import subprocess
import sys
import tempfile
import tomllib
from collections.abc import Iterator
from dataclasses import dataclass, field
from pathlib import Path

import lint
import verdicts
from fuzzing.findings import IDLE_KINDS, NEVER
from reference import limits
from results import TOP, checker_to_test, linter_to_test, print_results
from tables import unfolded
from traps_told import said_in

TESTED = "docs/TESTED.md"
WORDS = "zero one two three four five six seven eight nine ten eleven twelve thirteen fourteen fifteen sixteen seventeen eighteen nineteen twenty".split()
NUMBER = r"(\d[\d,]*\.?\d*|[a-z]+)"
# How README says what bench/README.md measured.
RATIOS = "{integers} times as long as by a C program for just that, and arithmetic alone {arithmetic} times"


def text_of(document: str) -> str:
    """A document, its lines joined."""
    return " ".join((TOP / document).read_text().split())


@dataclass(frozen=True)
class Run:
    """A program with data and words; of the checker all that it writes, or of ctd-lint the kinds that it tells, its verdict and its status."""

    program: str
    data: str = ""
    words: list[str] = field(default_factory=list)
    writes: str | None = None
    kinds: list[str] = field(default_factory=list)
    verdict: str | None = None
    status: int | None = None

    def fault(self, checker: Path, linter: Path) -> str | None:
        """How the answer is another one."""
        with tempfile.TemporaryDirectory() as folder:
            file = Path(folder) / "F"
            file.write_text(unfolded(self.program))
            command = [*([linter, "--json"] if self.writes is None else [checker]), *self.words, file]
            done = subprocess.run(command, input=self.data, capture_output=True, text=True, check=False)
        if self.writes is None:
            said = list(said_in(done.stdout))
            last = said[-1].text if self.verdict is not None else None
            found, wanted = str(([one.kind for one in said if one.kind], last, done.returncode)), str((self.kinds, self.verdict, self.status))
        else:
            found, wanted = (done.stdout + done.stderr).strip(), self.writes
        return None if found == wanted else f"{self.program!r} gives {found}, wanted {wanted}"


def results_of_runs(checker: Path, linter: Path) -> Iterator[tuple[str, list[str]]]:
    """What the runs of each sentence of the table show, and whether the sentence is there."""
    for row in tomllib.loads((TOP / "tests/sentences.toml").read_text())["sentences"]:
        faults = [] if row["says"] in text_of(row["document"]) else ["it does not say this"]
        faults += [fault for run in row["runs"] if (fault := Run(**run).fault(checker, linter)) is not None]
        yield f"{row['document']}: {row['says']}", faults


@dataclass(frozen=True)
class Claim:
    """A sentence with numbers, as a regular expression with a group for each, and what they are today."""

    document: str
    says: str
    numbers: tuple[float | str, ...]

    def faults(self) -> Iterator[str]:
        """That the sentence is not there, or has another number."""
        found = list(re.finditer(self.says, text_of(self.document)))
        if not found:
            yield f"no sentence says {self.says!r}"
        for match in found:
            if [value_of(word) for word in match.groups()] != [float(number) for number in self.numbers]:
                yield f"{match[0]!r}, but it is {self.numbers}"


def value_of(word: str) -> float:
    """The value of a number in figures or in words; -1 for any other word."""
    if word in WORDS:
        return WORDS.index(word)
    return float(word.replace(",", "")) if word[0].isdigit() else -1


def crates() -> dict[str, list[str]]:
    """What crates.txt has: each crate with those that it stands on."""
    lines = [line.partition(":") for line in (TOP / "crates.txt").read_text().splitlines()]
    return {name.split()[0]: others.split() for name, _, others in lines}


def false_reports() -> tuple[list[str], list[str]]:
    """The examples and programs of documents, and the programs of tests/verdicts/, that have a false report."""
    explained = tomllib.loads((TOP / "tests/lint.toml").read_text())["explained"]
    return [row["name"] for row in explained if "reports" in row], [row.name for row in verdicts.rows() if row.reports]


def claims() -> Iterator[Claim]:
    """The numbers in the documents that a count shows."""
    rows = [line.split() for line in (TOP / "bench/README.md").read_text().splitlines()]
    ratios = {row[0]: row[4] for row in rows if len(row) > 4 and row[0] in ["integers", "arithmetic"]}
    yield Claim("README.md", RATIOS.format(integers=NUMBER, arithmetic=NUMBER), (ratios["integers"], ratios["arithmetic"]))
    yield Claim("README.md", rf"programs {NUMBER}, and a `REGEX` matches fewer than {NUMBER} ", (limits.PROGRAM_BYTES, limits.WINDOW))
    yield Claim("README.md", rf"the default is {NUMBER} ", (limits.STEPS,))
    yield Claim("SECURITY.md", rf"\| steps \| {NUMBER} \|", (limits.STEPS,))
    yield Claim("SECURITY.md", rf"the length of a program \| {NUMBER} bytes", (limits.PROGRAM_BYTES,))
    yield Claim("docs/TRUST.md", rf"at most a window of {NUMBER} bytes", (limits.WINDOW,))
    tests = sum(name.startswith("test_") for name in crates())
    yield Claim("CONTRIBUTING.md", rf"one of the {NUMBER} crates of tests", (tests,))
    yield Claim("docs/DECISIONS.md", rf"The tests are {NUMBER} crates of their own", (tests,))
    yield Claim("crates/ctd_findings/README.md", rf"of a megabyte at most {NUMBER} processor second", (lint.TIME_LIMIT,))
    yield Claim(TESTED, rf"holds {NUMBER} kinds against runs", (len(IDLE_KINDS) + len(NEVER),))
    findings_row = next(line for line in (TOP / "crates/ctd_findings/README.md").read_text().splitlines() if "what is so in all runs" in line)
    yield Claim(TESTED, rf"What the {NUMBER} kinds say that are \[about all runs\]", (findings_row.count("`") // 2 - 2,))
    documented, tried = false_reports()
    programs = sum(1 for _ in lint.documented(tomllib.loads((TOP / "tests/lint.toml").read_text())))
    yield Claim(TESTED, rf"that the documents show \| {NUMBER} \| {NUMBER} \|", (programs, len(documented)))
    yield Claim(TESTED, rf"of `tests/verdicts/` \| {NUMBER} \| {NUMBER} \|", (len(verdicts.rows()), len(tried)))
    without_trap = sum(row.data is None for row in verdicts.rows())
    yield Claim(TESTED, rf"of {NUMBER} examples and documents \| of {NUMBER} in `tests/verdicts/`", (programs, without_trap))


def faults_of_trusted() -> Iterator[str]:
    """Which crates of the toolchain docs/TRUST.md does not name among what is trusted, or names for nothing."""
    own = crates()
    used = {other for others in own.values() for other in others} - set(own)
    statement = text_of("docs/TRUST.md").partition("The statements of the toolchain's crates (")[2].partition(")")[0]
    named = set(re.findall(r"`(\w+)`", statement))
    yield from (f"{name} is used and not named" for name in sorted(used - named))
    yield from (f"{name} is named and not used" for name in sorted(named - used))


def faults_of_reports() -> Iterator[str]:
    """Which programs of tests/verdicts/ with a false report docs/TESTED.md does not name, or names for nothing."""
    named = set(re.findall(r"`((?:safe|trap)_\w+)`", text_of(TESTED)))
    reported = set(false_reports()[1])
    yield from (f"{name} has a false report and is not named" for name in sorted(reported - named))
    yield from (f"{name} is named and has no false report" for name in sorted(named - reported))


def results(checker: Path, linter: Path) -> Iterator[tuple[str, list[str]]]:
    yield from results_of_runs(checker, linter)
    for claim in claims():
        yield claim.document, list(claim.faults())
    yield "docs/TRUST.md, the crates of the toolchain", list(faults_of_trusted())
    yield f"{TESTED}, false reports", list(faults_of_reports())


if __name__ == "__main__":
    sys.exit(print_results("sentences", results(checker_to_test(), linter_to_test())))
