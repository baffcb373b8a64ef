#!/usr/bin/env python3
"""Runs the examples, and the programs of the cookbook on data that are made for them.

A small example has its data beside its program, each file with its message in the `.txt` beside it. Of a problem package, the files of
data/sample and data/secret fit, and each file of data/invalid_inputs gets the message in the `.txt` beside it. Then the samples are spoilt: a
jury wants status 1 for each of these, and never status 2.

The last line counts the files that were answered so, as passed, and the others. usage: tests/examples.py [PROGRAM]"""
import subprocess
import sys
import tempfile
from collections.abc import Iterator
from pathlib import Path

from results import TOP, checker_to_test, print_results

sys.path.insert(0, str(TOP / "bench"))
from cookbook import IDIOMS, programs  # noqa: E402

FITS = "testdata ok!"
SMALL_SIZES = [1, 2, 3, 7, 100]
OUT_OF_TIME = 60

# A name for the report, the program, the data (a file, or bytes for standard input), and how the answer begins.
Case = tuple[str, Path, Path | bytes, str]


def spoilt(sample: bytes) -> Iterator[tuple[str, bytes, str]]:
    """Wrong data that are made from a sample, each with how the message begins; every program here ends with NEWLINE."""
    lines = sample.split(b"\n")
    last = f"line {len(lines) - 1} column {len(lines[-2]) + 1}"
    yield "no last newline", sample[:-1], f"{last}: expected a newline (program line "
    yield "an empty line at the end", sample + b"\n", f"line {len(lines)} column 1: expected end of file (program end)"
    yield "CRLF", sample.replace(b"\n", b"\r\n"), f"line 1 column {len(lines[0]) + 1}: expected a newline (program line "
    yield "a byte order mark", b"\xef\xbb\xbf" + sample, "line 1 column 1: expected an integer (program line "
    yield "a blank at the start", b" " + sample, "line 1 column 1: expected an integer (program line "
    yield "nothing", b"", "line 1 column 1: expected an integer (program line "
    yield "all bytes", bytes(range(256)), "line 1 column 1: expected an integer (program line "


def name_in_repository(file: Path) -> str:
    return str(file.relative_to(TOP))


def cases_with_messages(program: Path, folder: Path) -> Iterator[Case]:
    """The files of data of a folder that have their message beside them."""
    for file in sorted(folder.glob("*.in")):
        yield name_in_repository(file), program, file, file.with_suffix(".txt").read_text().rstrip("\n")


def cases_of_package(program: Path) -> Iterator[Case]:
    """The files of a problem package, and its spoilt samples."""
    data = program.parent.parent / "data"
    samples = sorted(data.glob("sample/*.in"))
    for file in [*samples, *sorted(data.glob("secret/*.in"))]:
        yield name_in_repository(file), program, file, FITS
    yield from cases_with_messages(program, data / "invalid_inputs")
    for file in samples:
        for how, spoilt_data, message in spoilt(file.read_bytes()):
            yield f"{name_in_repository(file)}, {how}", program, spoilt_data, message


def cases_of_cookbook(folder: Path) -> Iterator[Case]:
    """The programs of the cookbook, each on data of a few sizes."""
    texts = programs()
    for name, make in IDIOMS.items():
        program = folder / name
        program.write_text(texts[name])
        for size in SMALL_SIZES:
            yield f"{name} of the cookbook, size {size}", program, make(size), FITS


def faults(checker: Path, case: Case) -> list[str]:
    """What is wrong with the answer to a case: its text, its stream or its status."""
    _, program, data, message = case
    words, given = ([checker, program], data) if isinstance(data, bytes) else ([checker, program, data], b"")
    done = subprocess.run(words, input=given, capture_output=True, timeout=OUT_OF_TIME, check=False)
    line = done.stdout.decode("latin-1")
    is_right = line.startswith(message) and line.count("\n") == 1 and done.stderr == b""
    if is_right and done.returncode == int(message != FITS):
        return []
    return [f"{line!r}, {done.stderr!r}, status {done.returncode}, wanted {message!r}"]


def cases(folder: Path) -> Iterator[Case]:
    """All cases; the programs of the cookbook are written to the folder."""
    for program in sorted(TOP.glob("examples/*/program.ctd")):
        yield from cases_with_messages(program, program.parent)
    for program in sorted(TOP.glob("examples/*/input_validators/*.ctd")):
        yield from cases_of_package(program)
    yield from cases_of_cookbook(folder)


def main() -> int:
    checker = checker_to_test()
    with tempfile.TemporaryDirectory() as folder:
        return print_results("examples", ((case[0], faults(checker, case)) for case in cases(Path(folder))))


if __name__ == "__main__":
    sys.exit(main())
