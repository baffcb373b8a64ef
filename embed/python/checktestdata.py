"""Checks contest test data against a program of the checktestdata language, in this process.

    >>> import checktestdata
    >>> result = checktestdata.check("INT(1,10) NEWLINE", b"5\\n")
    >>> result.accepted
    True
    >>> result = checktestdata.check("INT(1,n) NEWLINE", b"50\\n", presets={"n": 10})
    >>> result.status.name, result.spot
    ('REJECTED', Spot(line=1, column=1))

The work is done by the shared library libchecktestdata.so, which is looked for where the variable CHECKTESTDATA_LIBRARY says,
beside this file, in the folder lib of the prefix in which this file is installed, and where the system keeps its libraries. It keeps no
state, and Python runs other threads during a check. Each check has a thread of its own, whose stack is large enough.
"""

from __future__ import annotations

import ctypes
import os
import re
import threading
from collections.abc import Callable, Mapping
from dataclasses import dataclass
from enum import Enum, IntEnum
from functools import cache
from pathlib import Path

__all__ = ["Edge", "Place", "Result", "Spot", "Status", "check"]

_LIBRARY = "libchecktestdata.so.1"
_TEXT_SIZE = 4096
_STACK_SIZE = 1 << 20
"""Bytes of stack for a call of the library: docs/EMBEDDING.md says what it needs."""
_STACK_SIZE_LOCK = threading.Lock()
_BEYOND = 10**40
"""Past every number that the checker takes."""
_DATA_SPOT = re.compile(r"(?:checktestdata: )?line (\d+) column (\d+): ")
_PROGRAM_PLACE = re.compile(r"(?:\(program|checktestdata: program) (?:line (\d+) column (\d+)|(start|end))")


class Status(IntEnum):
    """How a check ended. The numbers are the exit statuses of the command line."""

    ACCEPTED = 0
    """The data fit the program."""
    REJECTED = 1
    """The data do not fit."""
    NO_VERDICT = 2
    """The program or the presets are wrong, a value is missing or too large, a limit is passed, or memory ran out."""


@dataclass(frozen=True)
class Spot:
    """Where in the data a command began. Lines and columns count from 1, and columns count bytes."""

    line: int
    column: int


@dataclass(frozen=True)
class Place:
    """Where in the program a command stands. Lines and columns count from 1, and columns count bytes."""

    line: int
    column: int


class Edge(Enum):
    """A place that is no command of the program."""

    START = "start"
    """Before the first command: the blanks that are skipped at the start of the data."""
    END = "end"
    """Behind the last command: the end of the data is asked for there."""


@dataclass(frozen=True)
class Result:
    """The answer to a check."""

    status: Status
    message: str
    """The line that the command line would write, without its line feed."""
    spot: Spot | None
    """Where in the data the failing command began; None if the data fit or were not looked at."""
    place: Place | Edge | None
    """The failing command; None if the data fit, or if the message names no place."""

    @property
    def accepted(self) -> bool:
        """Whether the data fit the program."""
        return self.status is Status.ACCEPTED


class _Lengths(ctypes.Structure):
    _fields_ = [("out", ctypes.c_size_t), ("err", ctypes.c_size_t)]


def check(
    program: str | bytes,
    data: bytes,
    *,
    presets: str | Mapping[str, int | str | bytes] = "",
    whitespace_ok: bool = False,
    max_steps: int | None = None,
) -> Result:
    """Checks data against a program.

    `program` is the text of the program, and `data` are the bytes to check.

    `presets` gives values to variables, which the program cannot change: a text as the option -D of the command line takes it, such
    as 'n=5,s="yes"', or a mapping of names to integers and strings, such as {"n": 5, "a[1]": "yes"}.

    `whitespace_ok` lets the blanks of the data differ from what the program asks for, as the option -w does.

    `max_steps` stops the check after that many steps; None stands for the checker's own limit of 10,000,000,000.

    Whatever is wrong with the program, the presets or the data is told in the result. What is raised:

    TypeError: an argument has another type than those above, or a preset has.
    ValueError: the presets have a byte 0, which no command line can hold; or a text has a lone surrogate, which no file can hold.
    OSError: the library is not found, or is another one.
    RuntimeError, MemoryError: there is no thread, or no memory, for the check.
    """
    if not isinstance(program, (str, bytes)):
        raise TypeError(f"the program must be its text, as str or bytes, and not {type(program).__name__}")
    if not isinstance(data, bytes):
        hint = ": write b\"..\", or encode the text by .encode()" if isinstance(data, str) else ""
        raise TypeError(f"the data must be bytes, and not {type(data).__name__}{hint}")
    if not isinstance(whitespace_ok, int):
        raise TypeError(f"whitespace_ok must be a bool, and not {type(whitespace_ok).__name__}")
    words = ["checktestdata"]
    if whitespace_ok:
        words.append("-w")
    given = presets if isinstance(presets, str) else _preset_text(presets)
    if given:
        words.append(f"--define={given}")
    if max_steps is not None:
        if not isinstance(max_steps, int):
            raise TypeError(f"max_steps must be an int or None, and not {type(max_steps).__name__}")
        words.append(f"--max-steps={_digits(max_steps)}")
    words += ["--", "program", "testdata"]
    if any("\0" in word for word in words):
        raise ValueError("a byte 0 in the presets")
    return _run(_encoded("\0".join(words), "presets"), _encoded(program, "program") if isinstance(program, str) else program, data)


def _encoded(text: str, what: str) -> bytes:
    """The bytes of a text."""
    try:
        return text.encode()
    except UnicodeEncodeError as error:
        raise ValueError(f"a lone surrogate in the {what}") from error


def _digits(number: int) -> str:
    """A number in decimal. Of a longer one than Python writes, one stands that is past every limit too."""
    return str(max(-_BEYOND, min(int(number), _BEYOND)))


def _preset_text(presets: Mapping[str, int | str | bytes]) -> str:
    """The text of the option -D for a mapping."""
    if not isinstance(presets, Mapping):
        raise TypeError(f"the presets must be a text or a mapping, and not {type(presets).__name__}")
    for name, value in presets.items():
        if not isinstance(name, str) or not isinstance(value, (int, str, bytes)):
            raise TypeError(f"a preset must be a str with an int, str or bytes, and not {type(name).__name__} with {type(value).__name__}")
    return ",".join(f"{name}={_literal(value)}" for name, value in presets.items())


def _literal(value: int | str | bytes) -> str:
    """A value as a literal of the language. Bytes outside of printable ASCII are written as octal escapes."""
    if isinstance(value, int):
        return _digits(value)
    text = _encoded(value, "presets") if isinstance(value, str) else value
    return '"' + "".join(chr(byte) if 32 <= byte < 127 and byte not in b'"\\' else f"\\{byte:03o}" for byte in text) + '"'


def _run(words: bytes, program: bytes, data: bytes) -> Result:
    """Calls the library. Both of its texts together are one line, or a few lines of help."""
    out, err = (ctypes.create_string_buffer(_TEXT_SIZE) for _ in range(2))
    lengths = _Lengths()
    statuses: list[int] = []
    run = _library().checktestdata_run
    arguments = (words, len(words), program, len(program), data, len(data), out, _TEXT_SIZE, err, _TEXT_SIZE, ctypes.byref(lengths))
    _in_thread(lambda: statuses.append(run(*arguments)))
    if not statuses:
        raise MemoryError("no memory for the check")
    status = statuses[0]
    text = out.raw[: lengths.out] + err.raw[: lengths.err]
    return _result(Status(status), text.decode(errors="replace").removesuffix("\n"))


def _in_thread(work: Callable[[], None]) -> None:
    """Does some work in a thread that has stack enough for the library, whatever the caller's has, and waits for it."""
    thread = threading.Thread(target=work, daemon=True)
    with _STACK_SIZE_LOCK:
        before = threading.stack_size(_STACK_SIZE)
        try:
            thread.start()
        finally:
            threading.stack_size(before)
    thread.join()


def _result(status: Status, message: str) -> Result:
    """Takes the spot and the place out of a message."""
    spot = _DATA_SPOT.match(message)
    return Result(status, message, Spot(int(spot[1]), int(spot[2])) if spot else None, _place(message))


def _place(message: str) -> Place | Edge | None:
    found = _PROGRAM_PLACE.search(message)
    if found is None:
        return None
    return Edge(found[3]) if found[3] else Place(int(found[1]), int(found[2]))


def _library_path() -> str:
    """Where the shared library is; its name alone where the system looks for it."""
    if named := os.environ.get("CHECKTESTDATA_LIBRARY"):
        return named
    here = Path(__file__).resolve()
    # (installed, this file stands in share/checktestdata/python of a prefix)
    for path in (here.with_name(_LIBRARY), *(prefix / "lib" / _LIBRARY for prefix in here.parents[3:4])):
        if path.exists():
            return str(path)
    return _LIBRARY


@cache
def _library() -> ctypes.CDLL:
    """The shared library, loaded once."""
    library = ctypes.CDLL(_library_path())
    if not hasattr(library, "checktestdata_run"):
        raise OSError(f"{_library_path()} is no library of checktestdata")
    text = [ctypes.c_char_p, ctypes.c_size_t]
    library.checktestdata_run.argtypes = text * 5 + [ctypes.POINTER(_Lengths)]
    library.checktestdata_run.restype = ctypes.c_uint8
    return library
