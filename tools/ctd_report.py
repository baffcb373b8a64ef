"""What ctd-package finds: the checks and remarks of a package or of a part of it, as text, JSON and JUnit, and the parts put together."""
from __future__ import annotations

import json
import tempfile
from collections.abc import Iterable, Iterator, Sequence
from dataclasses import asdict, dataclass, replace
from hashlib import sha256
from itertools import accumulate
from pathlib import Path
from typing import Optional
from xml.etree import ElementTree

from ctd_asked import Linter
from ctd_companion import FITS, NO_FILE, NO_VERDICT, REJECTED, Checker, is_special, printable, text_of
from ctd_coverage import Findings, Found, Skeleton, Spot, merged
from ctd_problem import Package
from ctd_program import Refused
from ctd_questions import CannotAsk
from ctd_schema import BadValue, Count, Line, Status, read
from ctd_shares import MOST_PARTS, Share, size_of
from ctd_untried import Coverage, notes, rows, summary, watched_program


# The most bytes of a report, characters of a program in it, and levels of its brackets; the checker takes some two hundred.
MOST_BYTES, MOST_OF_PROGRAM, DEEPEST = 1 << 28, 1 << 16, 1000


class BadReport(Exception):
    """A report cannot be read, or does not belong to the others: one line that says so."""


@dataclass(frozen=True)
class Check:
    """What a program, or all programs together, said to a file; `fault` is empty where it is as it has to be."""

    file: Line
    group: Line
    program: Line
    has_to_fit: bool
    options: Sequence[str]
    status: Status
    answer: Line
    fault: Line
    seconds: float


@dataclass(frozen=True)
class Remark:
    """What ctd-lint or ctd-cover says of a program."""

    program: Line
    options: Sequence[str]
    lines: Sequence[Line]
    summary: Line = Line("")


@dataclass(frozen=True)
class Opinion(Remark):
    """What ctd-mutate says of two validators, or why one was not asked; the status is 0 where that is no fault, 1 where they disagree, and 2 where one
    was not asked."""

    status: Status = Status(FITS)


@dataclass(frozen=True)
class Tried(Remark):
    """What ctd-cover says of a program: also its text, how many files fit, and what was found, from which what it says can be made again. Each
    find has the number of the watched command, the name of what is watched, the place in the data, and a number."""

    source: str = ""
    files: Count = Count(0)
    found: Sequence[tuple[Count, Line, Line, Count, Count, int]] = ()


@dataclass(frozen=True)
class Report:
    """What was found of a package, or of a part of it; `data` is a digest of the names, sizes and flags of all its files. `statement` has the notes
    on limits, where there is a statement."""

    package: Line
    part: Share
    data: Line
    checks: Sequence[Check]
    lint: Sequence[Remark] = ()
    statement: Optional[Sequence[Line]] = None
    cover: Sequence[Tried] = ()
    against: Sequence[Opinion] = ()

    @property
    def status(self) -> int:
        faults = [NO_VERDICT if check.status == NO_VERDICT else REJECTED for check in self.checks if check.fault]
        return max([*faults, *(opinion.status for opinion in self.against)], default=FITS)

    def json(self) -> str:
        return json.dumps(asdict(self), indent=2)


def data_digest(package: Package) -> str:
    """A digest that is another one where a file is missing or has another size or other flags."""
    files = [[data.path.as_posix(), size_of(package.folder / data.path), data.flags.words, data.flags.by_name] for data in package.data]
    return sha256(json.dumps(files).encode()).hexdigest()


def tried(program: str, source: bytes, options: Sequence[str], coverage: Coverage) -> Tried:
    """What is said of a program, of which the text is given, and what it is made from."""
    said = rows(coverage)
    found = [
        (number, name, find.spot.file, find.spot.line, find.spot.column, find.value)
        for number, watched in enumerate(coverage.skeleton.watched)
        for name, find in watched.found_by_name(coverage.found).items()
    ]
    return Tried(program, options, list(notes(program, said)), summary(coverage, said), text_of(source), coverage.files, found)


def findings_of(one: Tried, skeleton: Skeleton) -> Findings:
    """What a part found of the things that are watched."""
    return {
        skeleton.watched[number].thing(name): Found(Spot(file, line, column), value) for number, name, file, line, column, value in one.found
    }


def tried_together(parts: Sequence[Tried]) -> Tried:
    """What the files of all parts try of a program."""
    first, fault = parts[0], next((one for one in parts if not one.source), None)
    if fault:
        return fault
    if len(first.source) > MOST_OF_PROGRAM:
        raise BadReport(f"the program {first.program} has more than {MOST_OF_PROGRAM} characters")
    if nesting_of(first.source) > DEEPEST:
        raise BadReport(f"the program {first.program} nests too deeply")
    with tempfile.TemporaryDirectory() as folder:
        program = Path(folder) / "program.ctd"
        program.write_bytes(program_bytes(first))
        checker = Checker("", str(program), first.options)
        possible = watched_program(checker, Linter.beside(checker))
    found: Findings = {}
    for one in parts:
        found = merged(found, findings_of(one, possible.skeleton))
    coverage = Coverage(possible, found, files=sum(one.files for one in parts))
    return tried(first.program, program_bytes(first), first.options, coverage)


def nesting_of(source: str) -> int:
    """How deep brackets lie in each other in a program, with those of its texts."""
    depths = accumulate((one in "([") - (one in ")]") for one in source)
    return max(depths, default=0)


def program_bytes(one: Tried) -> bytes:
    """The program as it stands in a file."""
    return one.source.encode("utf-8", "surrogateescape")


def read_report(path: Path) -> Report:
    """A report from a file. Raises OSError and BadReport."""
    name = printable(str(path))
    if is_special(path):
        raise BadReport(f"{name}: {NO_FILE}")
    if size_of(path) > MOST_BYTES:
        raise BadReport(f"{name}: has more than {MOST_BYTES} bytes")
    try:
        report: Report = read(Report, json.loads(path.read_bytes()))
    except (ValueError, RecursionError) as fault:
        raise BadReport(f"{name}: is no report of ctd-package --json") from fault
    except BadValue as fault:
        raise BadReport(f"{name}: is no report of ctd-package --json: {fault}") from fault
    if not report.part.number <= report.part.of <= MOST_PARTS:
        raise BadReport(f"{name}: is no report of ctd-package --json: there is no part {report.part.number} of {report.part.of}")
    return report


def merge(paths: Sequence[Path]) -> Report:
    """The reports of all parts of a package, put together. Raises OSError and BadReport."""
    reports = {path: read_report(path) for path in paths}
    first, *_ = reports.values()
    named: dict[int, str] = {}
    for path, report in reports.items():
        name = printable(str(path))
        if (report.package, report.part.of) != (first.package, first.part.of):
            part = f"part {report.part.number} of {report.part.of} of {report.package}"
            raise BadReport(f"{name}: is {part}, and not of the same package and parts")
        if report.data != first.data:
            raise BadReport(f"{name}: was made of other files or flags")
        if report.part.number in named:
            raise BadReport(f"{name}: is part {report.part.number} too, as {named[report.part.number]}")
        named[report.part.number] = name
    missing = [number for number in range(1, first.part.of + 1) if number not in named]
    if missing:
        raise BadReport(f"part {missing[0]} of {first.part.of} is missing")
    checks = sorted((check for report in reports.values() for check in report.checks), key=lambda check: (not check.has_to_fit, check.file.split("/")))
    # (a validator that cannot be asked is told of by each part)
    against = list({(one.program, one.summary, *one.options, *one.lines): one for report in reports.values() for one in report.against}.values())
    return replace(first, part=Share(), checks=checks, cover=cover_together(reports.values()), against=against)


def cover_together(reports: Iterable[Report]) -> list[Tried]:
    """What the files of all reports try, of each program with each choice of flags."""
    parts: dict[tuple[str, ...], list[Tried]] = {}
    for report in reports:
        for one in report.cover:
            parts.setdefault((one.program, *one.options), []).append(one)
    if any(len({one.source for one in of_program if one.source}) > 1 for of_program in parts.values()):
        raise BadReport("the reports are of different programs")
    try:
        return [tried_together(of_program) for of_program in parts.values()]
    except (KeyError, IndexError, Refused, CannotAsk, RecursionError) as fault:
        raise BadReport("the reports were made by another version of ctd-package, or of no programs") from fault


def junit(report: Report) -> ElementTree.ElementTree:
    """The checks in the form of JUnit: a suite for each group and program, a failure for a fault, an error where there is no verdict."""
    root = ElementTree.Element("testsuites", name=valid_xml(report.package))
    suites: dict[tuple[str, str], list[Check]] = {}
    for check in report.checks:
        suites.setdefault((check.group, check.program), []).append(check)
    for (group, program), members in suites.items():
        suite = ElementTree.SubElement(root, "testsuite", name=valid_xml(f"{group} ({program})"), **counts(members))
        for check in members:
            name = valid_xml(check.file.rpartition("/")[2])
            case = ElementTree.SubElement(suite, "testcase", classname=valid_xml(group), name=name, time=f"{check.seconds:.3f}")
            if check.fault:
                kind = "error" if check.status == NO_VERDICT else "failure"
                ElementTree.SubElement(case, kind, message=valid_xml(check.fault)).text = valid_xml(check.answer)
    root.attrib.update(counts(report.checks))
    ElementTree.indent(root)
    return ElementTree.ElementTree(root)


def valid_xml(text: str) -> str:
    """A text without the bytes outside of UTF-8, which no XML can have."""
    return text.encode("utf-8", "backslashreplace").decode()


def counts(checks: Sequence[Check]) -> dict[str, str]:
    """How many checks there are, how many have a fault, and how many no verdict where one is asked for."""
    failed = sum(1 for check in checks if check.fault and check.status != NO_VERDICT)
    errors = sum(1 for check in checks if check.fault and check.status == NO_VERDICT)
    return {"tests": str(len(checks)), "failures": str(failed), "errors": str(errors), "time": f"{sum(check.seconds for check in checks):.3f}"}


def options_text(options: Sequence[str]) -> str:
    return f" ({' '.join(printable(one) for one in options)})" if options else ""


def lines_of(report: Report, is_verbose: bool) -> Iterator[str]:
    """What is written for a person to read."""
    for check in report.checks:
        told = check.fault or (check.answer if is_verbose else "")
        if told:
            yield f"{check.file}{options_text(check.options)}: {told}"
    for remark in report.lint:
        yield from remark.lines
        yield f"ctd-lint: {remark.program}: {remark.summary}"
    if report.statement is not None:
        yield from report.statement
        yield f"statement: {'1 note' if len(report.statement) == 1 else f'{len(report.statement)} notes'}"
    for remark in report.cover:
        yield from remark.lines if is_verbose else []
        yield f"ctd-cover: {remark.program}{options_text(remark.options)}: {remark.summary}"
    for remark in report.against:
        yield from remark.lines
        yield f"ctd-mutate: {remark.program}{options_text(remark.options)}: {remark.summary}"
    wrong = sum(1 for check in report.checks if check.fault)
    yield f"{len(report.checks)} checked, {len(report.checks) - wrong} as they have to be, {wrong} not"
