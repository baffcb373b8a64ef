#!/usr/bin/env python3
"""Runs the built checker on the rows of the tables in tests/tables/, and compares both streams and the status.

A table says what all of its rows share, and its columns what each row gives. A row is a program with data, or a command line. In its texts a
character stands for the byte of its number, `{3 ab}` for `ababab`, and each `@` in such a part for the number of its turn, so `{3 n@,}` for
`n0,n1,n2,`.

A program with data is run on two files that have these columns:

    program, data   the bytes of both files
    words           further words of the command line, as ["-w"], in UTF-8
    answer          the line that is written: to standard error, with status 2, where it begins with `checktestdata: `; else to standard
                    output, with status 0 where it is `testdata ok!` and 1 where it is another
    steps           how many steps that takes: with a limit of one step less the run stops at it
    reads           sizes of pieces: the data come by standard input too, in pieces of each of these sizes, each after the last was read; with the
                    same limits of steps
    fails           whether the data come by standard input alone, and a read fails behind them; the reads behind that find the end
    wrong           a mark that fits nowhere in the program, of which single blanks part the tokens: cut before a token, or with that mark
                    or the word FOO in its place and nothing behind it, it is a syntax error there; each of these counts as a row

A command line is run in a folder with the `files` that its document lists at the top; a name that ends with a slash is a folder. Its columns:

    case            what it is about
    words           all words of the command line
    stdin           what standard input gives before its end
    stays_open      whether standard input has no end, so that a run that waits for it is killed
    status          the status that it ends with
    out, err        what it writes to standard output and to standard error

The last line counts the rows that were answered so, as passed, and the others. usage: tests/tables.py [PROGRAM [FOLDER]], with another
folder of tables"""
import fcntl
import os
import re
import socket
import subprocess
import sys
import tempfile
import termios
import threading
import tomllib
from collections.abc import Callable, Iterator, Sequence
from contextlib import contextmanager
from dataclasses import dataclass
from functools import partial
from pathlib import Path
from typing import Any

from results import checker_to_test, print_results

TABLES = Path(__file__).resolve().parent / "tables"
STEP_LIMIT = re.compile(rb"checktestdata: line \d+ column \d+: step limit reached \(program [a-z0-9 ]+\)\n")
FOLDED = re.compile(r"\{(\d+) ([^{}]*)\}")
OUT_OF_TIME = 60
# What a pipe is made to hold, so that a piece of up to this size is one write.
PIPE_SIZE = 1 << 20

# A status, and what stands on standard output and on standard error.
Left = tuple[int, bytes, bytes]


@dataclass(frozen=True)
class Row:
    """A program with data, how the checker is called, and what it has to answer."""

    program: str
    answer: str
    data: str = ""
    words: Sequence[str] = ()
    steps: int | None = None
    reads: Sequence[int] = ()
    fails: bool = False

    def wanted(self) -> Left:
        line = self.answer.encode("latin-1") + b"\n"
        if line.startswith(b"checktestdata: "):
            return 2, b"", line
        return int(line != b"testdata ok!\n"), line, b""

    def faults(self, run: Callable[[list[str]], Left], how: str) -> Iterator[tuple[str, Left]]:
        """What runs left that they should not, each with how it was run: one with the row's steps, and one with a step less."""
        words = [unfolded(word) for word in self.words]
        limits = [] if self.steps is None else [f"--max-steps={self.steps}"]
        found = run([*words, *limits])
        if found != self.wanted():
            yield " ".join([how, *limits]), found
        if self.steps:
            status, out, err = run([*words, f"--max-steps={self.steps - 1}"])
            if (status, out) != (2, b"") or not STEP_LIMIT.fullmatch(err):
                yield f"{how}, with a limit of {self.steps - 1} steps", (status, out, err)


@dataclass(frozen=True)
class CommandLine:
    """How the checker is called, and what it has to leave."""

    case: str
    words: Sequence[str]
    status: int
    out: str = ""
    err: str = ""
    stdin: str = ""
    stays_open: bool = False

    def wanted(self) -> Left:
        return self.status, bytes_of(self.out), bytes_of(self.err)


def cells_of(file: Path) -> Iterator[tuple[str, dict[str, Any]]]:
    """The rows of a file of tables as they stand, each by its columns and with the name of its table."""
    for table in tomllib.loads(file.read_text())["tables"]:
        name = f"{file.stem}: {table.pop('name')}"
        columns, rows = table.pop("columns"), table.pop("rows")
        for row in rows:
            yield name, {**table, **dict(zip(columns, row, strict=True))}


def rows_of(file: Path) -> Iterator[tuple[str, Row]]:
    """The programs with data of a file of tables, each with the name of its table."""
    cut_programs: set[Row] = set()
    for name, cells in cells_of(file):
        if "program" not in cells:
            continue
        wrong = cells.pop("wrong", None)
        yield name, Row(**cells)
        if wrong is not None:
            parts = [part for part in cut(cells["program"], wrong) if part not in cut_programs]
            cut_programs.update(parts)
            yield from ((name, part) for part in parts)


def command_lines_of(file: Path) -> Iterator[tuple[str, CommandLine]]:
    """The command lines of a file of tables, each with the name of its table."""
    for name, cells in cells_of(file):
        if "program" not in cells:
            yield name, CommandLine(**cells)


def write_files(file: Path, folder: Path) -> None:
    """Writes the files that a file of tables lists."""
    for name, text in tomllib.loads(file.read_text()).get("files", {}).items():
        path = os.path.join(os.fsencode(folder), bytes_of(name))
        if name.endswith("/"):
            os.mkdir(path)
        else:
            with open(path, "wb") as written:
                written.write(bytes_of(text))


def cut(program: str, wrong: str) -> Iterator[Row]:
    """A program cut before each token behind a blank, and with a wrong token in its place."""
    answer = "checktestdata: program line 1 column {}: syntax error"
    for blank in re.finditer(" ", program):
        front = program[: blank.start()]
        yield Row(front, answer.format(len(front) + 1))
        for token in [wrong, "FOO"]:
            yield Row(f"{front} {token}", answer.format(len(front) + 2))


def unfolded(text: str) -> str:
    """A text in which `{3 ab}` stands for `ababab`, and `{3 n@,}` for `n0,n1,n2,`."""

    def repeated(found: re.Match[str]) -> str:
        times, part = int(found[1]), found[2]
        return "".join(part.replace("@", str(turn)) for turn in range(times)) if "@" in part else times * part

    return FOLDED.sub(repeated, text)


def bytes_of(text: str) -> bytes:
    """The bytes that the text of a file stands for."""
    return unfolded(text).encode("latin-1")


def is_held(end: int) -> bool:
    """Whether a pipe or a socket holds bytes that were not read."""
    return int.from_bytes(fcntl.ioctl(end, termios.FIONREAD, bytes(4)), sys.byteorder) > 0


def wait_until_read(process: subprocess.Popen[bytes], end: int) -> None:
    """Waits until a process has read all that its standard input holds, or has ended."""
    while is_held(end) and process.poll() is None:
        os.sched_yield()


def send_to(process: subprocess.Popen[bytes], end: socket.socket, data: bytes) -> None:
    """Sends all data, or as much as a process reads before it ends."""
    end.setblocking(False)
    rest = memoryview(data)
    while rest and process.poll() is None:
        try:
            rest = rest[end.send(rest) :]
        except BlockingIOError:
            os.sched_yield()


def left_by(process: subprocess.Popen[bytes]) -> Left:
    """What a process leaves once it ends."""
    out, err = process.communicate()
    return process.returncode, out, err


class Checker:
    """The built checker, and the folder that it runs in."""

    def __init__(self, checker: Path, folder: Path) -> None:
        self.checker = checker
        self.folder = folder
        self.program = folder / "program"
        self.data = folder / "data"

    @contextmanager
    def started(self, words: Sequence[str | bytes | Path], stdin: int | socket.socket) -> Iterator[subprocess.Popen[bytes]]:
        """A run of the checker, which is killed where it takes too long."""
        call = [self.checker, *words]
        with subprocess.Popen(call, cwd=self.folder, stdin=stdin, stdout=subprocess.PIPE, stderr=subprocess.PIPE) as process:
            timer = threading.Timer(OUT_OF_TIME, process.kill)
            timer.start()
            try:
                yield process
            finally:
                timer.cancel()

    def run(self, words: list[str]) -> Left:
        """What a run on the two files leaves."""
        with self.started([*words, self.program, self.data], subprocess.DEVNULL) as process:
            return left_by(process)

    def run_on_pieces(self, words: list[str], data: bytes, size: int) -> Left:
        """What a run on the program leaves that gets the data by standard input, each piece once the last was read."""
        read_end, write_end = os.pipe()
        fcntl.fcntl(write_end, fcntl.F_SETPIPE_SZ, PIPE_SIZE)
        with self.started([*words, self.program], read_end) as process:
            for start in range(0, len(data), size):
                # a run that has ended reads no more
                if process.poll() is not None:
                    break
                os.write(write_end, data[start : start + size])
                wait_until_read(process, read_end)
            os.close(write_end)
            left = left_by(process)
        os.close(read_end)
        return left

    def run_on_failing(self, words: list[str], data: bytes) -> Left:
        """What a run on the program leaves that gets the data by standard input, and then a failed read."""
        ours, theirs = socket.socketpair()
        with ours, theirs, self.started([*words, self.program], theirs) as process:
            # the end that is closed before it has read all makes the other's read fail
            theirs.send(b"unread")
            send_to(process, ours, data)
            wait_until_read(process, theirs.fileno())
            ours.close()
            return left_by(process)

    def run_line(self, line: CommandLine) -> Left:
        """What a run with the words of a command line leaves."""
        read_end, write_end = os.pipe()
        with open(read_end, "rb") as theirs, open(write_end, "wb") as ours:
            ours.write(bytes_of(line.stdin))
            ours.flush()
            if not line.stays_open:
                ours.close()
            with self.started([bytes_of(word) for word in line.words], theirs.fileno()) as process:
                return left_by(process)

    def faults(self, row: Row) -> Iterator[tuple[str, Left]]:
        """What the runs of a row left that they should not, each with how it was run."""
        data = bytes_of(row.data)
        self.program.write_bytes(bytes_of(row.program))
        self.data.write_bytes(data)
        yield from row.faults(partial(self.run_on_failing, data=data) if row.fails else self.run, "as it stands")
        for size in row.reads:
            yield from row.faults(partial(self.run_on_pieces, data=data, size=size), f"in pieces of {size} bytes")


def results_of(file: Path, checker: Checker) -> Iterator[tuple[str, list[str]]]:
    """Each row of a file of tables with what was wrong in its runs."""
    for name, row in rows_of(file):
        faults = [f"{how}: {found}, wanted {row.wanted()}" for how, found in checker.faults(row)]
        yield f"{name}: {row.program[:80]!r} on {row.data[:40]!r}", faults
    for name, line in command_lines_of(file):
        found = checker.run_line(line)
        yield f"{name}: {line.case}", [] if found == line.wanted() else [f"{found}, wanted {line.wanted()}"]


def all_results(program: Path, tables: Path) -> Iterator[tuple[str, list[str]]]:
    """The results of each file of tables, which has a folder of its own."""
    for file in sorted(tables.glob("*.toml")):
        with tempfile.TemporaryDirectory() as folder:
            write_files(file, Path(folder))
            yield from results_of(file, Checker(program, Path(folder)))


if __name__ == "__main__":
    sys.exit(print_results("tables", all_results(checker_to_test(), Path(sys.argv[2]) if len(sys.argv) > 2 else TABLES)))
