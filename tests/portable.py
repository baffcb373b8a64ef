#!/usr/bin/env python3
"""Sees that the packed C file is what these sources give: its sums are theirs, and made again it is the same, byte for byte. And compiles both
programs of it, and runs the checker on the rows of tests/tables/ and ctd-lint in tests/lint.py; and once more the checker with the compiler's
sanitizers, on some of the rows. The last line counts what passed and failed."""
from __future__ import annotations

import difflib
import lzma
import shutil
import subprocess
import sys
import tempfile
from collections.abc import Iterator, Sequence
from concurrent.futures import ThreadPoolExecutor
from pathlib import Path

from results import TOP, print_results
from tables import TABLES, all_results

PORTABLE = TOP / "portable"
PACKED = PORTABLE / "checktestdata.c.xz"
SUMS = PORTABLE / "checktestdata.c.sums"
SANITIZERS = ["-g0", "-fsanitize=address,undefined", "-fno-sanitize-recover=all"]
# The tables that the checker with sanitizers runs.
SANITIZED = ["arrays", "depths", "expressions", "integers", "patterns", "refusals", "strings"]
MEND = "make portable renews the packed file"


def output_of(*words: str | Path) -> str:
    return subprocess.run(words, cwd=TOP, stdout=subprocess.PIPE, text=True, check=True).stdout


def faults_of_sums() -> list[str]:
    """The sources of which the packed file was not made."""
    changes = difflib.ndiff(SUMS.read_text().splitlines(), output_of(PORTABLE / "sums.sh").splitlines())
    names = {line.split()[-1] for line in changes if line[0] in "+-"}
    return [f"{name} is not what the packed file was made of: {MEND}" for name in sorted(names)]


def results_of_bytes(packed: bytes, folder: Path) -> list[tuple[str, Sequence[str]]]:
    """Whether the C file is the same when it is made again; no result where another version of the toolchain made it, which may compile otherwise."""
    kit = output_of("rt", "version").strip()
    if kit.encode() not in packed.partition(b"\n")[0]:
        print(f"portable: left out whether the file is the same when it is made again: it was made with another toolchain than {kit}")
        return []
    made = folder / "again.c"
    ran = subprocess.run([PORTABLE / "whole.sh", made], cwd=TOP, check=False)
    if ran.returncode:
        faults = [f"whole.sh ended with status {ran.returncode}"]
    else:
        faults = [] if made.read_bytes() == packed else [f"it is another file: {MEND}"]
    return [("the packed file, made again", faults)]


def faults_of(*words: str | Path) -> list[str]:
    """Whether a command ends with another status than 0."""
    ran = subprocess.run(words, stdout=sys.stderr, check=False)
    return [f"it ended with status {ran.returncode}"] if ran.returncode else []


def results_with_sanitizers(folder: Path) -> Iterator[tuple[str, Sequence[str]]]:
    """The rows of some tables, by a checker that stops at an access out of bounds and at what C leaves undefined."""
    checker, tables = folder / "checktestdata-sanitized", folder / "tables"
    yield "compiling with sanitizers", faults_of(PORTABLE / "compile.sh", "checktestdata", checker, *SANITIZERS)
    tables.mkdir()
    for name in SANITIZED:
        shutil.copy(TABLES / f"{name}.toml", tables)
    if checker.exists():
        yield from all_results(checker, tables)


def results(folder: Path) -> Iterator[tuple[str, Sequence[str]]]:
    if not PACKED.exists():
        yield "the packed file", [f"it is not there: {MEND}"]
        return
    packed = lzma.decompress(PACKED.read_bytes())
    yield "the sources of the packed file", faults_of_sums()
    with ThreadPoolExecutor() as pool:
        again = pool.submit(results_of_bytes, packed, folder)
        checker, linter = folder / "checktestdata", folder / "ctd-lint"
        for program in checker, linter:
            yield f"compiling {program.name}", faults_of(PORTABLE / "compile.sh", program.name, program, "-Wall", "-Wextra", "-Werror")
        if checker.exists():
            yield from all_results(checker, TABLES)
        if linter.exists():
            yield "tests/lint.py", faults_of(TOP / "tests/lint.py", linter)
        yield from results_with_sanitizers(folder)
        yield from again.result()


if __name__ == "__main__":
    with tempfile.TemporaryDirectory() as scratch:
        sys.exit(print_results("portable", results(Path(scratch))))
