#!/usr/bin/env python3
"""Runs the built checker and ctd-lint with one read or write of the process failing, each in turn, and counts its reads and writes. Where a stream is
closed and `/` cannot be opened in its place, no file may stand for it.

A call that fails, with whatever error, is made once: an interrupted one is not made again. So each run has to end as it stands here, with so
many calls, though the calls behind the failing one would be served. The last line counts the runs that did so, as passed, and the others.
usage: tests/failing_calls.py [CHECKER [LINTER]]"""
import errno
import os
import subprocess
import sys
import tempfile
from collections.abc import Iterator
from dataclasses import dataclass
from itertools import chain
from pathlib import Path

from results import TOP, checker_to_test, linter_to_test, print_results

# An interrupted call, one that would have to wait, and one that failed; and for a write one that takes no byte.
ERRORS = [errno.EINTR, errno.EAGAIN, errno.EIO]
TAKES_NONE = 0

PROGRAM = b"INT(1,10) NEWLINE"
NO_PROGRAM = b"checktestdata: cannot read program\n"
NO_FIRST_BYTE = b"checktestdata: line 1 column 1: read failed (program line 1 column 1)\n"
NO_END = b"checktestdata: line 2 column 1: read failed (program end)\n"
FITS = b"testdata ok!\n"
NO_NEWLINE = b"line 1 column 2: expected a newline (program line 1 column 11)\n"
BAD_ARGUMENTS = b"checktestdata: bad arguments\nTry 'checktestdata --help'.\n"
FINDING = b"false.ctd:1:1: warning: the test is false whatever the data are [always-false]\n"
NOT_READ = b"false.ctd: error: cannot read program\n"
NOT_THERE = b"none.ctd: error: cannot open\n"


@dataclass(frozen=True)
class Left:
    """What a run leaves: its status, both streams, and how often it read and wrote."""

    status: int
    out: bytes
    err: bytes
    reads: int
    writes: int


@dataclass(frozen=True)
class Case:
    """The words of a run, which calls of it fail, what it has to leave, and the number of a stream that is closed."""

    name: str
    words: list[str]
    calls: dict[str, int | str]
    wanted: Left
    closed: int | None = None


class Checker:
    """The built checker or ctd-lint, with a library preloaded that lets a call fail."""

    def __init__(self, program: Path, folder: Path) -> None:
        self.program = program
        self.folder = folder
        self.library = folder / "failing_call.so"
        subprocess.run(["cc", "-O2", "-shared", "-fPIC", "-o", self.library, TOP / "tests/failing_call.c"], check=True)

    def run(self, case: Case) -> Left:
        """What a run leaves, whose standard input has the data that fit."""
        told = self.folder / "told"
        told.unlink(missing_ok=True)
        calls = {name: str(value) for name, value in case.calls.items()}
        close = None if case.closed is None else lambda: os.close(case.closed)
        environment = {**os.environ, "LD_PRELOAD": str(self.library), "CALLS_TOLD": str(told), **calls}
        with (self.folder / "right.in").open("rb") as data:
            ended = subprocess.run(
                [self.program, *case.words], stdin=data, capture_output=True, cwd=self.folder, env=environment, check=False, preexec_fn=close
            )
        reads, writes, *_ = map(int, told.read_text().split())
        return Left(ended.returncode, ended.stdout, ended.stderr, reads, writes)


def failing_reads(error: int) -> Iterator[Case]:
    """Runs in which one read fails, of the program or of the data."""
    for data in [["right.in"], []]:
        words = ["p.ctd", *data]
        # The program and its end, the data and their end: each takes a read.
        for turn, err in enumerate([NO_PROGRAM, NO_PROGRAM, NO_FIRST_BYTE, NO_END], 1):
            yield Case(f"read {turn}", words, {"READ_FAILS": turn, "FAILS_WITH": error}, Left(2, b"", err, turn, 1))
        # Each byte and each end takes a read.
        for turn in range(1, len(PROGRAM) + 5):
            behind = turn - len(PROGRAM) - 1
            err = NO_PROGRAM if behind < 1 else [NO_FIRST_BYTE, NO_FIRST_BYTE, NO_END][behind - 1]
            calls = {"READ_FAILS": turn, "READ_MOST": 1, "FAILS_WITH": error}
            yield Case(f"read {turn} of a byte", words, calls, Left(2, b"", err, turn, 1))


def texts() -> Iterator[tuple[list[str], bool, bytes, int]]:
    """Command lines, with whether their text goes to standard output, that text, and how many reads come before it."""
    yield ["p.ctd", "right.in"], True, FITS, 4
    yield ["p.ctd", "short.in"], True, NO_NEWLINE, 4
    yield ["p.ctd", "folder"], False, NO_FIRST_BYTE, 3
    yield ["p.ctd", "right.in", "more"], False, BAD_ARGUMENTS, 0


def failing_writes(error: int) -> Iterator[Case]:
    """Runs in which a write fails behind so many bytes of the text, for each number of them, written in one piece or byte by byte."""
    for words, is_out, text, reads in texts():
        for count in range(len(text)):
            streams = (text[:count], b"") if is_out else (b"", text[:count])
            turn = 2 if count else 1
            calls = {"WRITE_FAILS": turn, "WRITE_MOST": count, "FAILS_WITH": error}
            yield Case(f"a write behind {count} bytes", words, calls, Left(2, *streams, reads, turn))
        for count in [1, 7, len(text) - 1]:
            streams = (text[:count], b"") if is_out else (b"", text[:count])
            calls = {"WRITE_FAILS": count + 1, "WRITE_MOST": 1, "FAILS_WITH": error}
            yield Case(f"a write of a byte behind {count} bytes", words, calls, Left(2, *streams, reads, count + 1))


def unfailing() -> Iterator[Case]:
    """Runs in which no call fails, but each moves a byte."""
    reads = len(PROGRAM) + 1 + 3
    for words in [["p.ctd", "right.in"], ["p.ctd"], ["p.ctd", "-"]]:
        yield Case("no call fails", words, {}, Left(0, FITS, b"", 4, 1))
        yield Case("each call moves a byte", words, {"READ_MOST": 1, "WRITE_MOST": 1}, Left(0, FITS, b"", reads, len(FITS)))


def without_folder(words: list[str], err: bytes) -> Iterator[Case]:
    """Runs with a closed stream and no folder to hold its number: the first file would get it, so it is not opened."""
    for stream in [0, 1, 2]:
        yield Case(f"stream {stream} is closed", words, {"OPEN_FAILS": "/"}, Left(2, b"", b"" if stream == 2 else err, 0, 1), stream)


def cases() -> Iterator[Case]:
    """All runs."""
    yield from unfailing()
    yield from without_folder(["p.ctd", "right.in"], b"checktestdata: cannot open p.ctd\n")
    for error in ERRORS:
        yield from failing_reads(error)
    for error in [*ERRORS, TAKES_NONE]:
        yield from failing_writes(error)


def lint_cases() -> Iterator[Case]:
    """Runs of ctd-lint in which a read or a write fails: a program that is not read has its line, and a failed write ends the run."""
    words = ["false.ctd", "space.ctd"]
    yield Case("no call fails", words, {}, Left(1, FINDING, b"", 4, 1))
    yield Case("each call moves a byte", words, {"READ_MOST": 1, "WRITE_MOST": 1}, Left(1, FINDING, b"", 13 + 6, len(FINDING)))
    yield from without_folder(["space.ctd"], b"space.ctd: error: cannot open\n")
    for error in ERRORS:
        for turn in [1, 2]:
            yield Case(f"read {turn}", words, {"READ_FAILS": turn, "FAILS_WITH": error}, Left(2, b"", NOT_READ, turn + 2, 1))
    for error in [*ERRORS, TAKES_NONE]:
        for count in [0, 1, 40, len(FINDING) - 1]:
            calls = {"WRITE_FAILS": 2 if count else 1, "WRITE_MOST": count, "FAILS_WITH": error}
            yield Case(f"a write behind {count} bytes", words, calls, Left(2, FINDING[:count], b"", 2, calls["WRITE_FAILS"]))
        calls = {"WRITE_FAILS": 1, "FAILS_WITH": error}
        yield Case("a write of a fault", ["none.ctd", "space.ctd"], calls, Left(2, b"", b"", 0, 1))
        calls = {"WRITE_FAILS": 2, "FAILS_WITH": error}
        yield Case("a write behind that of a fault", ["none.ctd", *words], calls, Left(2, b"", NOT_THERE, 2, 2))


def faults(checker: Checker, case: Case) -> list[str]:
    """What a run left that it should not."""
    left = checker.run(case)
    return [] if left == case.wanted else [f"{left}, wanted {case.wanted}"]


def results(checker: Checker, cases: Iterator[Case]) -> Iterator[tuple[str, list[str]]]:
    """What each run of a program left that it should not, by what was run."""
    for case in cases:
        yield f"{checker.program.name}: {case.name}, {' '.join(case.words)}, {case.calls}", faults(checker, case)


def main() -> int:
    programs = checker_to_test(), linter_to_test()
    with tempfile.TemporaryDirectory() as name:
        folder = Path(name)
        (folder / "p.ctd").write_bytes(PROGRAM)
        (folder / "false.ctd").write_bytes(b"ASSERT(1==2)")
        (folder / "space.ctd").write_bytes(b"SPACE")
        (folder / "right.in").write_bytes(b"5\n")
        (folder / "short.in").write_bytes(b"5")
        (folder / "folder").mkdir()
        checker, linter = (Checker(program, folder) for program in programs)
        return print_results("failing calls", chain(results(checker, cases()), results(linter, lint_cases())))


if __name__ == "__main__":
    sys.exit(main())
