#!/usr/bin/env python3
"""Counts the bytes that the reads of the built checker give in a process, and holds them to what README.md promises.

Of the data they are at most a window past what the run consumes, and of the program at most one byte past its limit; of each at most one
buffer more. The last line counts the runs that kept to it, as passed, and the others. usage: tests/reads.py [PROGRAM]"""
import os
import subprocess
import sys
import tempfile
import threading
from collections.abc import Iterator
from dataclasses import dataclass
from pathlib import Path

from reference.limits import PROGRAM_BYTES, WINDOW
from results import TOP, checker_to_test, print_results

BUFFER = 16_384

FITS = b"testdata ok!\n"
TOO_LONG = b"checktestdata: program too long\n"


@dataclass(frozen=True)
class Case:
    """A program with data, what is written, and how many bytes of the data the run consumes; and the size of the pieces in which the data
    come by a pipe, or none where they are a regular file."""

    name: str
    program: bytes
    data: bytes
    written: bytes
    consumed: int
    piece: int | None = None

    @property
    def most_of_data(self) -> int:
        """How many bytes of the data may be read."""
        return 0 if self.written == TOO_LONG else min(len(self.data), self.consumed + WINDOW + BUFFER)

    @property
    def most_of_program(self) -> int:
        """How many bytes of the program may be read."""
        return min(len(self.program), PROGRAM_BYTES + 1 + BUFFER)


def data_left(offset: int) -> bytes:
    """What is written where the program ends at an offset of data that go on in one line."""
    return f"line 1 column {offset + 1}: expected end of file (program end)\n".encode()


def cases() -> Iterator[Case]:
    """Long data of which a run consumes little, nearly all or all, in one piece and in small ones; and programs about their limit."""
    letters = 3_000_000 * b"a"
    for piece in [None, 1_000, 65_536]:
        how = "a file" if piece is None else f"pieces of {piece} bytes"
        yield Case(f"two matches of a byte, {how}", b'REGEX("a",x) REGEX("a",y)', letters, data_left(2), 2, piece)
        yield Case(f"one byte, {how}", b'STRING("a")', letters, data_left(1), 1, piece)
        yield Case(f"no byte, {how}", b"", letters, data_left(0), 0, piece)
        yield Case(f"many matches, {how}", b'REP(20000) REGEX("a") END', letters, data_left(20_000), 20_000, piece)
        yield Case(f"all bytes, {how}", b'REP(3000) REGEX("a{1000}") END', letters, FITS, 3_000_000, piece)
    yield Case("a program of the limit", PROGRAM_BYTES * b" ", b"", FITS, 0)
    yield Case("a program a byte too long", (PROGRAM_BYTES + 1) * b" ", letters, TOO_LONG, 0)
    yield Case("a program three times too long", 3 * PROGRAM_BYTES * b" ", letters, TOO_LONG, 0)


def send(end: int, case: Case) -> None:
    """Sends the data piece by piece, as far as they are read."""
    assert case.piece
    try:
        for start in range(0, len(case.data), case.piece):
            os.write(end, case.data[start : start + case.piece])
    except BrokenPipeError:
        pass
    finally:
        os.close(end)


def run(checker: Path, library: Path, folder: Path, case: Case) -> tuple[bytes, int, int]:
    """What a run writes, and how many bytes its reads gave of the data and of the program."""
    (folder / "program").write_bytes(case.program)
    (folder / "data").write_bytes(case.data)
    environment = {**os.environ, "LD_PRELOAD": str(library), "CALLS_TOLD": str(folder / "told")}
    writer = None
    if case.piece is None:
        data = os.open(folder / "data", os.O_RDONLY)
    else:
        data, end = os.pipe()
        writer = threading.Thread(target=send, args=(end, case))
        writer.start()
    with os.fdopen(data, "rb", buffering=0) as stdin:
        ended = subprocess.run([checker, "program"], stdin=stdin, capture_output=True, cwd=folder, env=environment, check=False)
    if writer is not None:
        writer.join()
    _, _, of_data, of_program = map(int, (folder / "told").read_text().split())
    return ended.stdout + ended.stderr, of_data, of_program


def faults(checker: Path, library: Path, folder: Path, case: Case) -> Iterator[str]:
    """What a run did that it should not."""
    written, of_data, of_program = run(checker, library, folder, case)
    if written != case.written:
        yield f"wrote {written!r}, wanted {case.written!r}"
    if not case.consumed <= of_data <= case.most_of_data:
        yield f"read {of_data} bytes of the data, wanted {case.consumed} to {case.most_of_data}"
    if of_program > case.most_of_program:
        yield f"read {of_program} bytes of the program, wanted at most {case.most_of_program}"


def main() -> int:
    checker = checker_to_test()
    with tempfile.TemporaryDirectory() as name:
        folder = Path(name)
        library = folder / "failing_call.so"
        subprocess.run(["cc", "-O2", "-shared", "-fPIC", "-o", library, TOP / "tests/failing_call.c"], check=True)
        results = ((case.name, list(faults(checker, library, folder, case))) for case in cases())
        return print_results("reads", results)


if __name__ == "__main__":
    sys.exit(main())
