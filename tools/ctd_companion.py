"""What the programs beside the checker share: how they find and run it, what its answers say, and how bytes are shown."""
from __future__ import annotations

import argparse
import contextlib
import errno
import io
import os
import re
import shutil
import signal
import stat
import subprocess
import sys
import tempfile
import threading
import time
import traceback
from collections import deque
from collections.abc import Callable, Iterable, Iterator, Sequence
from concurrent.futures import Future, ThreadPoolExecutor, wait
from dataclasses import dataclass, field
from pathlib import Path
from typing import IO, TextIO, TypeVar

from ctd_processes import WATCHER, run_command, started

VERSION = "1.0"
CHECKER = "checktestdata"
# How the name of a program that can be run ends.
EXECUTABLE_SUFFIX = ".exe" if os.name == "nt" else ""
FITS, REJECTED, NO_VERDICT = 0, 1, 2
# The variable of the environment that has the traceback of an unforeseen fault shown.
TRACEBACK = "CTD_TRACEBACK"
# The name that stands for standard input.
STANDARD_INPUT = "-"
# How the names of the files end that are looked for in a folder.
DATA_SUFFIX = ".in"
# What is said of a pipe or a device among files.
NO_FILE = "is no file"
# Bytes that are handed on at once, where data can be read only once.
BLOCK = 65536
# How many tasks for each worker are begun or wait, before the first result is taken.
TASKS_AHEAD = 16

# What the checker writes below its message, where the command line is refused.
ADVICE = b"Try 'checktestdata --help'.\n"
DATA_FAULT = re.compile(r"(?:checktestdata: )?line (\d+) column (\d+): (.*) \((program (?:line (\d+) column (\d+)|start|end))\)", re.DOTALL)
PROGRAM_FAULT = re.compile(r"checktestdata: program line (\d+) column (\d+): (.*)", re.DOTALL)

Task = TypeVar("Task")
Result = TypeVar("Result")


@dataclass(frozen=True)
class Place:
    """A line and a column, both from 1; columns count bytes."""

    line: int
    column: int


@dataclass(frozen=True)
class Answer:
    """What the checker said: its status and the line that it wrote; and of this line the message, and what it names: the place in the
    data where the command began, the command as it is written there, and the place of the command in the program."""

    status: int
    line: str
    message: str
    in_data: Place | None = None
    command: str = ""
    in_program: Place | None = None

    @property
    def is_of_the_call(self) -> bool:
        """Whether the program, or an option, is refused: the answer is then the same for all data."""
        of_this_run = ("out of memory", "the checker ")
        return self.status == NO_VERDICT and self.in_data is None and not self.message.startswith(of_this_run)


def place_of(line: str | None, column: str | None) -> Place | None:
    """The place that two numbers of a message name, where they stand in it."""
    return None if line is None or column is None else Place(int(line), int(column))


def printable(text: str) -> str:
    """A text on one line of a terminal: control characters and a backslash are shown by escapes. Bytes outside of UTF-8 are left."""
    return "".join(one if (one.isprintable() and one != "\\") or "\udc80" <= one <= "\udcff" else repr(one)[1:-1] for one in text)


def text_of(written: bytes) -> str:
    """What a program wrote, as text. Bytes outside of UTF-8 are kept, also on Windows, where names have none."""
    return written.decode("utf-8", "surrogateescape")


def answer_of(status: int, out: bytes, err: bytes) -> Answer:
    """The answer that a status and the bytes of both streams are."""
    written = (err if status == NO_VERDICT else out).removesuffix(ADVICE).removesuffix(b"\n")
    line = printable(text_of(written))
    if status not in (FITS, REJECTED, NO_VERDICT) or not line:
        ending = f"was ended by signal {-status}" if status < 0 else f"ended with status {status}"
        return Answer(NO_VERDICT, f"{CHECKER}: the checker {ending}", f"the checker {ending}")
    if found := DATA_FAULT.fullmatch(line):
        return Answer(status, line, found[3], place_of(found[1], found[2]), found[4], place_of(found[5], found[6]))
    if found := PROGRAM_FAULT.fullmatch(line):
        return Answer(status, line, found[3], in_program=place_of(found[1], found[2]))
    return Answer(status, line, line.removeprefix(f"{CHECKER}: "))


@dataclass(frozen=True)
class Checker:
    """The checker with a program and options. It gets the data by standard input, so that a name of data is never one of its words."""

    path: str
    program: str
    options: Sequence[str] = ()

    @property
    def words(self) -> list[str]:
        return [self.path, *self.options, "--", self.program]

    def check_file(self, data: IO[bytes], seconds: float | None = None) -> tuple[Answer, IO[bytes]]:
        """Checks the data of a file from where it stands. The second result is a file that can be read again: the same, or where it is a pipe
        a copy of what the checker was given. Raises subprocess.TimeoutExpired where a file takes longer than so many seconds."""
        if data.seekable():
            ran = run_command(self.words, data, seconds)
            return answer_of(ran.status, ran.out, ran.err), data
        copy = tempfile.TemporaryFile()
        answer = self.check_blocks(copied_blocks(data, copy))
        copy.flush()
        return answer, copy

    def check_blocks(self, blocks: Iterable[bytes]) -> Answer:
        """Checks data that come in blocks. No more are asked for than the checker takes."""
        with started(self.words, stdin=subprocess.PIPE, stdout=subprocess.PIPE, stderr=subprocess.PIPE) as process:
            assert process.stdin and process.stdout and process.stderr
            try:
                with process.stdin:
                    for block in blocks:
                        process.stdin.write(block)
                        process.stdin.flush()
            except BrokenPipeError:
                pass
            # The checker writes one line, which the pipes have room for.
            out, err = process.stdout.read(), process.stderr.read()
        return answer_of(process.returncode, out, err)


def copied_blocks(data: IO[bytes], copy: IO[bytes]) -> Iterator[bytes]:
    """The bytes of a file that can be read only once, in blocks as they come; each is written to a copy."""
    while block := data.read1(BLOCK):  # type: ignore[attr-defined]
        copy.write(block)
        yield block


def find_program(name: str, *folders: Path) -> str | None:
    """The path of a program: in one of these folders, or as it is built in the checkout of this program, or on PATH."""
    checkout, crate = Path(__file__).resolve().parent.parent, name.replace("-", "_")
    for path in (*(folder / name for folder in folders), checkout / "crates" / crate / "out" / crate, checkout / "out" / name):
        path = path.with_name(path.name + EXECUTABLE_SUFFIX)
        if path.is_file() and os.access(path, os.X_OK):
            return str(path.resolve())
    return shutil.which(name)


def find_checker(given: str | None) -> str | None:
    """The path of the checker: what was given, or beside this program, or in its checkout, or on PATH."""
    if given is not None:
        found = shutil.which(given)
        return found and os.path.abspath(found)
    return find_program(CHECKER, Path(sys.argv[0]).parent, Path(__file__).resolve().parent)


NAMED_BYTES = {0x20: "·", 0x09: r"\t", 0x0A: r"\n", 0x0D: r"\r", 0x5C: r"\\"}


def visible(data: bytes) -> str:
    """Bytes as text in which each can be told from any other: blanks, control characters and bytes outside ASCII are shown."""
    return "".join(NAMED_BYTES.get(byte) or (chr(byte) if 0x20 < byte < 0x7F else f"\\x{byte:02x}") for byte in data)


def fault_text(error: OSError) -> str:
    """A fault of the system in words, with the name of the file where it is of one."""
    told = error.strerror or str(error)
    return told if error.filename is None else f"{printable(os.fsdecode(error.filename))}: {told}"


@dataclass(frozen=True)
class DataFile:
    """A file of test data by its name; or the name of what has none, and why."""

    name: str
    fault: str | None = None

    @property
    def shown(self) -> str:
        """The name as it is written."""
        return printable(self.name)


def is_special(path: str | Path) -> bool:
    """Whether something is there that is no file and no folder, as a pipe or a device: to open it may wait without end."""
    try:
        mode = os.stat(path).st_mode
    except OSError:
        return False
    return not stat.S_ISREG(mode) and not stat.S_ISDIR(mode)


def open_data(name: str) -> IO[bytes]:
    """Opens a file, or standard input, to read bytes."""
    if name == STANDARD_INPUT and sys.stdin is None:
        raise OSError(errno.EBADF, os.strerror(errno.EBADF))
    return open(0, "rb", closefd=False) if name == STANDARD_INPUT else open(name, "rb")


def files_below(folder: str) -> list[DataFile]:
    """The data below a folder, by name; and the folders in it that cannot be read."""
    unread: list[DataFile] = []

    def note(error: OSError) -> None:
        unread.append(DataFile(os.fsdecode(error.filename), f"cannot read: {error.strerror}"))

    names = (os.path.join(path, name) for path, _, names in os.walk(folder, onerror=note) for name in names if name.endswith(DATA_SUFFIX))
    found = [DataFile(name, NO_FILE if is_special(name) else None) for name in names]
    if not found and not unread:
        return [DataFile(folder, f"no files *{DATA_SUFFIX} in this folder")]
    return sorted([*found, *unread], key=lambda file: os.fsencode(file.name))


def listed_names(path: str) -> list[str]:
    """The names that a file lists, or standard input: each ended by a byte 0 where there is one, and else by a line feed."""
    with open_data(path) as file:
        text = file.read()
    names = text.split(b"\0") if b"\0" in text else text.replace(os.linesep.encode(), b"\n").split(b"\n")
    # (bytes that no name can have on Windows are left to the system to refuse)
    return [name.decode(sys.getfilesystemencoding(), "surrogateescape") for name in names if name]


def data_files(words: argparse.ArgumentParser, given: argparse.Namespace) -> list[DataFile]:
    """The files that the command line asks for: those that it names, then those of the list, with the data below a folder in its place."""
    names = list(given.data)
    if given.files_from is not None:
        names += listed_names(given.files_from)
        if given.files_from == STANDARD_INPUT and STANDARD_INPUT in names:
            words.error("standard input is the list of files, and cannot be data too")
    elif not names:
        words.error("the following arguments are required: DATA, or --files-from")
    if not names:
        words.error("the list of files is empty")
    return [file for name in names for file in (files_below(name) if os.path.isdir(name) else [DataFile(name)])]


@dataclass
class Progress:
    """A line on the terminal that says how far a run is, once it has taken longer than a second."""

    total: int
    unit: str
    due: float = field(default_factory=lambda: time.monotonic() + 1)
    shown: bool = False
    # how many were done before those that are counted, and how many runs with questions there were
    before: int = 0
    runs: int = 0

    def behind(self, before: int) -> Progress:
        """The same line, where so many are done already."""
        self.before = before
        return self

    def show(self, done: int) -> None:
        """Says how many of all are done, at most ten times a second."""
        if time.monotonic() >= self.due and sys.stderr.isatty():
            sys.stderr.write(f"\r\x1b[K{self.before + done} of {self.total} {self.unit}{f', {self.runs} runs with questions' if self.runs else ''}")
            sys.stderr.flush()
            self.due, self.shown = time.monotonic() + 0.1, True

    def clear(self) -> None:
        """Takes the line away, before something else is written."""
        if self.shown:
            sys.stderr.write("\r\x1b[K")
            sys.stderr.flush()
            self.shown = False


def results_in_order(work: Callable[[Task], Result], tasks: Sequence[Task], jobs: int, progress: Progress) -> Iterator[Result]:
    """The result of the work on each task, in the order of the tasks, with several at work at once. Tasks that were not begun are
    dropped where the caller wants no more."""
    pool = ThreadPoolExecutor(jobs)
    begun: deque[Future[Result]] = deque()
    try:
        for number in range(len(tasks)):
            last = min(len(tasks), number + jobs * TASKS_AHEAD)
            begun.extend(pool.submit(work, task) for task in tasks[number + len(begun) : last])
            future = begun.popleft()
            while not wait([future], timeout=0.2).done:
                progress.show(number)
            progress.show(number + 1)
            yield future.result()
    finally:
        progress.clear()
        pool.shutdown(cancel_futures=True)


def positive(text: str) -> int:
    """A number of one or more, of the command line."""
    number = int(text)
    if number < 1:
        raise ValueError
    return number


def parser_of_a_checker(name: str, description: str, epilog: str) -> argparse.ArgumentParser:
    """A command line with the options that all companions have, and no files."""
    words = argparse.ArgumentParser(prog=name, description=description, epilog=epilog, allow_abbrev=False)
    words.add_argument("-V", "--version", action="version", version=f"{name} {VERSION}")
    words.add_argument("--checker", metavar="PATH", help="the checker (default: beside this program, or on PATH)")
    return words


def parser_of_checks(name: str, description: str, epilog: str) -> argparse.ArgumentParser:
    """A command line for many checks."""
    words = parser_of_a_checker(name, description, epilog)
    jobs = min(os.cpu_count() or 1, 8)
    words.add_argument("-j", "--jobs", metavar="N", type=positive, default=jobs, help="run N checks at once (default: one for each processor, at most 8)")
    words.add_argument("--max-steps", metavar="N", action="append", default=[], help="given to the checker: stop a check after N steps")
    return words


def parser(name: str, description: str, epilog: str) -> argparse.ArgumentParser:
    """A command line with a program, its options, and data."""
    words = parser_of_checks(name, description, epilog)
    words.add_argument("-D", "--define", metavar="NAME=VALUE,..", action="append", default=[], help="given to the checker: values of variables")
    words.add_argument("-w", "--whitespace-ok", action="store_true", help="given to the checker: blanks may differ")
    words.add_argument("--files-from", metavar="FILE", help="read the names of further files from a file, one a line or ended by a byte 0; - is standard input")
    words.add_argument("program", metavar="PROGRAM", help="the program of checktestdata")
    words.add_argument("data", metavar="DATA", nargs="*", help=f"a file of test data, or a folder for all *{DATA_SUFFIX} below it; - is standard input")
    return words


def given_words(words: argparse.ArgumentParser) -> argparse.Namespace:
    """The words of the command line, options before, between and behind the files; argparse cannot have `--` and the latter at once."""
    return words.parse_args() if "--" in sys.argv else words.parse_intermixed_args()


def checker_path(words: argparse.ArgumentParser, given: argparse.Namespace) -> str:
    """The path of the checker; where it is not found, that is said and the run ends."""
    path = find_checker(given.checker)
    if path is None:
        words.error("the checker is not found; say where it is by --checker")
    return path


def refuse_special(program: str) -> None:
    """Ends the run where a program is a pipe or a device."""
    if is_special(program):
        sys.exit(fails(f"{printable(program)}: the program is no file, and cannot be read again"))


def checker_of(words: argparse.ArgumentParser, given: argparse.Namespace) -> Checker:
    """The checker with the program and the options that were given."""
    path = checker_path(words, given)
    refuse_special(given.program)
    # (an option that is given twice is refused by the checker)
    options = ["-w"] if given.whitespace_ok else []
    options += [f"--define={value}" for value in given.define]
    options += [f"--max-steps={number}" for number in given.max_steps]
    return Checker(path, given.program, options)


def prepare_output() -> bool:
    """Has standard output and error write UTF-8, with names of files as the bytes that they are. One that is closed goes nowhere. Gives
    whether standard output is open."""
    is_open = sys.stdout is not None
    sys.stdout = sys.stdout or open(os.devnull, "w")
    sys.stderr = sys.stderr or open(os.devnull, "w")
    for stream in (sys.stdout, sys.stderr):
        if isinstance(stream, io.TextIOWrapper):
            stream.reconfigure(encoding="utf-8", errors="surrogateescape")
    return is_open


def finish(stream: TextIO) -> None:
    """Writes what a stream still holds. Where that fails it goes nowhere, so that Python does not try again at its end."""
    try:
        stream.flush()
    except OSError:
        os.dup2(os.open(os.devnull, os.O_WRONLY), stream.fileno())


def fails(told: str) -> int:
    """Ends the output with a line on standard error, behind the name of this program. Gives the status."""
    finish(sys.stdout)
    with contextlib.suppress(OSError):
        print(f"{Path(sys.argv[0]).name}: {told}", file=sys.stderr)
    finish(sys.stderr)
    return NO_VERDICT


def run(main: Callable[[], int]) -> int:
    """Runs a companion and gives its status. Standard output that is closed or full, a reader that goes away, a fault of the system and what nobody
    has foreseen end it with a line and without a traceback. An interrupt ends it at once, as other signals do; the watcher ends what it started."""
    if signal.getsignal(signal.SIGINT) is signal.default_int_handler:
        signal.signal(signal.SIGINT, signal.SIG_DFL)
    is_open = prepare_output()
    threading.excepthook = lambda fault: tell_unforeseen(fault.exc_value)
    if not is_open:
        return fails("standard output is closed")
    try:
        WATCHER.begin()
        try:
            status = main()
        except SystemExit as end:
            status = int(end.code or 0)
        sys.stdout.flush()
        return status
    except BrokenPipeError:
        finish(sys.stdout)
        return NO_VERDICT
    except OSError as error:
        return fails(fault_text(error))
    except Exception as fault:
        return tell_unforeseen(fault)
    finally:
        WATCHER.end()


def tell_unforeseen(fault: BaseException | None) -> int:
    """Says that something happened that nobody has foreseen, and where, if that is asked for. Gives the status."""
    if os.environ.get(TRACEBACK):
        traceback.print_exception(type(fault), fault, fault.__traceback__ if fault else None)
    return fails(f"unforeseen fault: {type(fault).__name__}: {printable(str(fault))[:200]} ({TRACEBACK}=1 in the environment shows where)")
