"""Validators of data beside the program that is checked: other programs of checktestdata, and commands. How they are run, and what they say."""
from __future__ import annotations

import os
import shlex
import shutil
import signal
import subprocess
import sys
from collections.abc import Sequence
from dataclasses import dataclass, replace
from pathlib import Path
from typing import Protocol

from ctd_companion import FITS, NO_FILE, NO_VERDICT, REJECTED, Answer, Checker, is_special, printable, text_of
from ctd_problem import PROGRAM_SUFFIX, BadPackage, options_of
from ctd_processes import TooMuchWritten, run_command

# The statuses by which commands accept and reject: those of scripts, of the problem package format, and of testlib.
ACCEPTING = (0, 42)
REJECTING = (1, 3, 43)
# The word of a command in whose place the name of the file is put.
FILE_WORD = "{}"
LATE = "no answer after"
# How many characters of what a command says are told, and how many bytes it may write to each of its streams.
ROOM = 100
MOST_WRITTEN = 1 << 20
PYTHON_SUFFIX = ".py"
# What Python writes where a script ends by an exception; one of an assertion is how a script rejects.
TRACEBACK = "Traceback (most recent call last):"
FAILED_ASSERTION = "AssertionError"


class BadCommand(Exception):
    """A command for data cannot be run: one line that says why."""


class Validator(Protocol):
    """Something that says whether data are valid, and the name by which it is told of."""

    @property
    def name(self) -> str: ...

    def judge(self, path: str) -> Answer:
        """What it says of a file, which is there and can be read."""


@dataclass(frozen=True)
class ProgramValidator:
    """A program of checktestdata. A run may take so many seconds, where a number is given."""

    name: str
    checker: Checker
    seconds: float | None = None

    def judge(self, path: str) -> Answer:
        with open(path, "rb") as data:
            try:
                answer, _ = self.checker.check_file(data, self.seconds)
            except subprocess.TimeoutExpired:
                return late(self.seconds)
        return answer


@dataclass(frozen=True)
class CommandValidator:
    """A command that gets the data on standard input, or in place of a word `{}` the name of their file."""

    name: str
    words: Sequence[str]
    seconds: float | None = None

    def judge(self, path: str) -> Answer:
        words = [path if word == FILE_WORD else word for word in self.words]
        return answer_to(words, os.devnull if FILE_WORD in self.words else path, self.seconds)


def answer_to(words: Sequence[str], path: str, seconds: float | None) -> Answer:
    """What a command says of a file that it gets on standard input. Raises OSError."""
    with open(path, "rb") as data:
        try:
            ran = run_command(words, data, seconds, MOST_WRITTEN)
        except subprocess.TimeoutExpired:
            return late(seconds)
        except TooMuchWritten:
            return no_verdict(f"wrote more than {MOST_WRITTEN} bytes")
    return answer_of(ran.status, text_of(ran.out), text_of(ran.err))


def late(seconds: float | None) -> Answer:
    """The answer of a validator that took too long."""
    return no_verdict(f"{LATE} {seconds:g} seconds")


def is_late(answer: Answer) -> bool:
    return answer.status == NO_VERDICT and answer.message.startswith(LATE)


def no_verdict(told: str) -> Answer:
    return Answer(NO_VERDICT, told, told)


def answer_of(status: int, out: str, err: str) -> Answer:
    """What the status and the texts of a command say. Statuses that are not known, signals, and exceptions of Python are no verdict."""
    told = last_line(err) or last_line(out)
    if status in ACCEPTING:
        return Answer(FITS, told, told)
    if TRACEBACK in err and not last_line(err).startswith(FAILED_ASSERTION):
        return no_verdict(f"crashed: {told}")
    if status in REJECTING:
        return Answer(REJECTED, told, told)
    ending = f"ended by {signal_name(-status)}" if status < 0 else f"ended with status {status}"
    return no_verdict(f"{ending}: {told}" if told else ending)


def signal_name(number: int) -> str:
    try:
        return signal.Signals(number).name
    except ValueError:
        return f"signal {number}"


def last_line(text: str) -> str:
    """The last line of a text with something in it, as it is told; empty where there is none."""
    lines = [line.strip() for line in text.splitlines() if line.strip()]
    told = printable(lines[-1]) if lines else ""
    return told if len(told) <= ROOM else f"{told[:ROOM - 1]}…"


def validator_of(command: str, checker: Checker, seconds: float | None) -> Validator:
    """The validator that a command names: a program of checktestdata, which gets the options of the checker and those behind it, or a file or
    command that can be run, with its words. Raises BadCommand."""
    try:
        words = shlex.split(command)
    except ValueError as fault:
        raise BadCommand(f"{printable(command)}: {fault}") from fault
    if not words:
        raise BadCommand("the command is empty")
    name = printable(command)
    if is_special(words[0]):
        raise BadCommand(f"{printable(words[0])}: {NO_FILE}")
    if words[0].endswith(PROGRAM_SUFFIX):
        try:
            options = options_of(Path(words[0]), words[1:])
        except BadPackage as bad:
            raise BadCommand(printable(str(bad))) from bad
        program = ProgramValidator(name, replace(checker, program=words[0], options=[*checker.options, *options]), seconds)
        answer = program.judge(os.devnull)
        if answer.is_of_the_call:
            raise BadCommand(f"{name}: {answer.line}")
        return program
    return CommandValidator(name, [*words_to_run(words[0]), *words[1:]], seconds)


def words_to_run(command: str) -> list[str]:
    """The words that run a file, or a command that is on PATH. Raises BadCommand where neither can be run."""
    file = Path(command)
    if not file.is_file():
        found = shutil.which(command)
        if found is None:
            raise BadCommand(f"{printable(command)}: no such command")
        return [found]
    if os.access(file, os.X_OK):
        return [str(file.resolve())]
    if file.suffix == PYTHON_SUFFIX:
        return [sys.executable, str(file.resolve())]
    raise BadCommand(f"{printable(command)}: cannot be run")
