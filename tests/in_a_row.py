#!/usr/bin/env python3
"""Lets the built ctd-lint read programs that are made of 1 to 12 of the examples' own programs in a row, with names of their own. Each gets a line on
verdicts, and of up to 8 in a row no line says that less is known.

The last line counts what passed and failed. usage: tests/in_a_row.py [CHECKER LINTER]"""
from __future__ import annotations

import random
import re
import subprocess
import sys
import tempfile
from collections.abc import Iterator, Sequence
from pathlib import Path

from results import TOP, linter_to_test, print_results

SEED = 1
MOST = 12
WHOLLY_KNOWN = 8
EACH = 8
LESS_KNOWN = ": note: less is known from here on"
VERDICTS = re.compile(r".*: (?:every data file gets a verdict|places that may stop a run without a verdict: at most )[^:]*")

# A string, a comment, or a name. Words of the language have capital letters.
TOKEN = re.compile(r'"(?:[^"\\]|\\.)*"|#[^\n]*|[a-z][a-z0-9]*', re.DOTALL)


def parts() -> list[Path]:
    """The programs of the examples, but for those that read on to the end of the data."""
    return sorted(path for path in (TOP / "examples").rglob("*.ctd") if "EOF" not in path.read_text())


def renamed(program: str, number: int) -> str:
    """A program with names of its own."""

    def token(match: re.Match[str]) -> str:
        return match[0] if match[0][0] in '"#' else f"{match[0]}x{number}"

    return TOKEN.sub(token, program)


def in_a_row(programs: Sequence[Path]) -> str:
    """The programs one after the other."""
    return "\n".join(renamed(path.read_text(), number) for number, path in enumerate(programs))


def faults(linter: Path, program: Path, length: int) -> Iterator[str]:
    """How ctd-lint gives up a program that is made of so many."""
    run = subprocess.run([linter, "--verdicts", program], capture_output=True, text=True, check=False)
    if run.returncode not in (0, 1):
        yield f"the status is {run.returncode}: {run.stderr.strip()}"
    lines = run.stdout.splitlines()
    if not any(VERDICTS.fullmatch(line) for line in lines[-1:]):
        yield "nothing is said of verdicts"
    yield from (line for line in lines if LESS_KNOWN in line and length <= WHOLLY_KNOWN)


def results(linter: Path) -> Iterator[tuple[str, list[str]]]:
    chosen = random.Random(SEED)
    programs = parts()
    with tempfile.TemporaryDirectory() as folder:
        path = Path(folder) / "row.ctd"
        for length in range(1, MOST + 1):
            for _ in range(EACH):
                row = chosen.sample(programs, min(length, len(programs)))
                path.write_text(in_a_row(row))
                yield ", ".join(part.stem for part in row), list(faults(linter, path, len(row)))


if __name__ == "__main__":
    sys.exit(print_results("in_a_row", results(linter_to_test())))
