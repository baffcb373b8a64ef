"""What the tool writes, and its status (README.md, How to read the answer; docs/LANGUAGE.md, Answers)."""

import sys
from collections.abc import Callable, Sequence
from dataclasses import dataclass
from functools import lru_cache

from ctd_program import cut

from . import limits, nesting, syntax, tree
from .commands import Command
from .data import BlanksMayDiffer, Data
from .faults import LeftOut, Misused, Refused, Rejected, Stopped
from .run import Run
from .store import Store
from .words import Asked, Settings, settings

# The texts of both options, which tests/tables/process.toml has too.
TEXTS = {
    "help": b"""\
Usage: checktestdata [OPTION]... PROGRAM [TESTDATA]
Check TESTDATA (or standard input) against PROGRAM.
  -g, --generate                     not supported
  -D, --define=<name>=<value>[,...]  preset variables
  -q, --quiet                        write nothing to standard output
  -w, --whitespace-ok                accept changes of whitespace
      --max-steps=N                  stop after N steps
      --help                         show this text
      --version                      show the version
""",
    "version": b"checktestdata 1.0 (whole-number profile)\n",
}
NEWLINE = b"\n"
# What nests as deeply as a program may is read and run by recursion.
sys.setrecursionlimit(20_000)
# A run of more steps takes too long here.
MOST_STEPS = 200_000


@dataclass(frozen=True)
class Answer:
    """What a run of the tool leaves."""

    status: int
    out: bytes = b""
    err: bytes = b""


@dataclass(frozen=True)
class File:
    """What a file gives: its bytes, and whether reading fails behind them, as it does at once for a folder."""

    content: bytes
    fails: bool = False


# Opens the file of a name, or standard input where there is none.
Opener = Callable[[str | None], File | None]


def answer(words: Sequence[bytes], opener: Opener) -> Answer:
    """The answer of the tool to these words, without its own name. Raises LeftOut where the reference has none."""
    try:
        asked = settings(words)
        program = file_of(opener, asked.program)
        data = file_of(opener, None if asked.data in (None, "-") else asked.data)
        return verdict(asked, commands_of(program), data, program.content)
    except Asked as question:
        return Answer(0, out=TEXTS[question.option])
    except Misused as fault:
        return without_verdict(fault.message)
    except Refused as fault:
        where = "" if fault.offset is None else f"program {place(program.content, fault.offset)}: "
        return without_verdict(where + fault.message)


def without_verdict(text: str) -> Answer:
    return Answer(2, err=f"checktestdata: {text}\n".encode())


def file_of(opener: Opener, name: str | None) -> File:
    file = opener(name)
    if file is None:
        raise Misused(f"cannot open {name}")
    return file


@lru_cache(maxsize=1)
def commands_of(program: File) -> list[Command]:
    """The commands of a program. Raises Refused for the first fault in the order of docs/LANGUAGE.md."""
    if len(program.content) > limits.PROGRAM_BYTES:
        raise Refused("program too long")
    if program.fails:
        raise Refused("cannot read program")
    tokens = cut(program.content)
    nesting.weigh(tokens)
    return tree.commands(syntax.parse(tokens))


def verdict(asked: Settings, commands: Sequence[Command], data: File, text: bytes) -> Answer:
    """The answer for a program that is read."""
    cursor = (BlanksMayDiffer if asked.whitespace_ok else Data)(data.content, data.fails)
    run = Run(Store(asked.presets), cursor, min(asked.steps, MOST_STEPS))
    try:
        run.whole(commands)
    except Rejected as fault:
        return Answer(1, out=b"" if asked.quiet else f"{with_places(run, fault.message, text)}\n".encode())
    except Stopped as fault:
        if run.steps_left == 0 and asked.steps > MOST_STEPS:
            raise LeftOut("a long run") from fault
        return without_verdict(with_places(run, fault.message, text))
    return Answer(0, out=b"" if asked.quiet else b"testdata ok!\n")


def with_places(run: Run, message: str, text: bytes) -> str:
    """A message with its places in the data and in the program."""
    site = run.site if isinstance(run.site, str) else f"program {place(text, run.site)}"
    return f"{place(run.data.content, run.spot)}: {message} ({site})"


def place(text: bytes, offset: int) -> str:
    """The line and the column of an offset."""
    before = text[:offset]
    return f"line {before.count(NEWLINE) + 1} column {offset - before.rfind(NEWLINE)}"
