#!/usr/bin/env python3
"""Sees that what ctd-lint --guarantees says is so, and what it says of the examples.

Each line is put as an ASSERT at its place into each program of the examples and of the tutorial, and no file that the program accepts may be rejected
then. What is told of the examples is that of tests/guarantees.txt, which a reader compares with the programs.

The last line counts as passed the files that were accepted and the programs that were told so, and the others.
usage: tests/guarantees.py [CHECKER [LINTER]]"""
import re
import subprocess
import sys
import tempfile
from collections.abc import Iterator, Sequence
from pathlib import Path

from guaranteed import Said, asserted, guarantees_in, is_of_all
from results import TOP, checker_to_test, linter_to_test, print_results

OUT_OF_TIME = 120
TOLD = TOP / "tests/guarantees.txt"
FINDING = re.compile(r"[^:\n]*:\d+:\d+: .*\n")
WRITTEN = re.compile(r"Write `(\w+\.ctd)`.*?```ctd\n(.*?)```", re.DOTALL)
CALL = re.compile(r"^\$ printf '([^']*)' \| checktestdata ((?:-D \S+ )?)(\w+\.ctd)$", re.MULTILINE)

# A name for the report, a program, words for both tools, and data.
Example = tuple[str, str, list[str], list[bytes]]


def examples() -> Iterator[Example]:
    """The programs of the examples, each with all files beside it."""
    for program in sorted((TOP / "examples").rglob("*.ctd")):
        name = str(program.relative_to(TOP))
        folder = TOP / "examples" / Path(name).parts[1]
        yield name, program.read_text("latin-1"), [], [file.read_bytes() for file in sorted(folder.rglob("*.in"))]


def documented() -> Iterator[Example]:
    """The programs of the tutorial, each with the data of the calls there, and their presets."""
    text = (TOP / "docs/TUTORIAL.md").read_text()
    programs = dict(WRITTEN.findall(text))
    for data, presets, name in CALL.findall(text):
        if name in programs:
            yield f"{name} of the tutorial", programs[name], presets.split(), [data.encode().decode("unicode_escape").encode("latin-1")]


class Tools:
    """The built programs, in a folder of their own."""

    def __init__(self, checker: Path, linter: Path, folder: Path) -> None:
        self.checker, self.linter, self.program = checker, linter, folder / "program.ctd"

    def lines(self, text: str, words: list[str]) -> list[Said]:
        """What ctd-lint says that every file has which is accepted."""
        self.program.write_text(text, "latin-1")
        call = [self.linter, "--json", "--guarantees", *words, self.program]
        return guarantees_in(subprocess.run(call, capture_output=True, text=True, timeout=OUT_OF_TIME, check=False).stdout)

    def accepts(self, text: str, words: list[str], data: bytes) -> bool:
        """Whether the checker accepts data."""
        self.program.write_text(text, "latin-1")
        done = subprocess.run([self.checker, *words, self.program], input=data, capture_output=True, timeout=OUT_OF_TIME, check=False)
        return done.returncode == 0

    def faults(self, text: str, words: list[str], data: bytes) -> list[str]:
        """The lines that reject data."""
        lines = [said for said in self.lines(text, words) if is_of_all(said)]
        if self.accepts(asserted(text, lines), words, data):
            return []
        alone = [said["text"] for said in lines if not self.accepts(asserted(text, [said]), words, data)]
        return [f"not so: {line}" for line in alone] or ["not accepted with all lines"]


def held(tools: Tools) -> Iterator[tuple[str, Sequence[str]]]:
    """What is wrong with the lines of programs by data that these accept."""
    for name, text, words, all_data in [*examples(), *documented()]:
        for data in all_data:
            if tools.accepts(text, words, data):
                yield f"{name} {' '.join(words)}", tools.faults(text, words, data)


def seen(tools: Tools) -> Iterator[tuple[str, Sequence[str]]]:
    """Whether a wrong line rejects data that are accepted without it, in the end and in a loop."""
    wrong = {"relations": [["1", "=", "0"]]}
    program, data = "INT(0,9,n) NEWLINE\nREP(n) NEWLINE END", b"2\n\n\n"
    for said in [wrong, wrong | {"line": 2, "column": 1}]:
        is_seen = tools.accepts(program, [], data) and not tools.accepts(asserted(program, [said]), [], data)
        yield f"a wrong line {said}", [] if is_seen else ["accepted"]


def told(linter: Path) -> Iterator[tuple[str, Sequence[str]]]:
    """What is told of the examples otherwise than in the text."""
    wanted = TOLD.read_text()
    for name, *_ in examples():
        done = subprocess.run([linter, "--guarantees", name], cwd=TOP, capture_output=True, text=True, timeout=OUT_OF_TIME, check=False)
        found = FINDING.sub("", done.stdout)
        place = re.search(rf"^{re.escape(name)}:.*\n(?: .*\n)*", wanted, re.MULTILINE)
        yield name, [] if found == (place[0] if place else "") else [f"told otherwise:\n{found}"]


def main() -> int:
    checker, linter = checker_to_test(), linter_to_test()
    with tempfile.TemporaryDirectory() as folder:
        tools = Tools(checker, linter, Path(folder))
        return print_results("guarantees", [*held(tools), *seen(tools), *told(linter)])


if __name__ == "__main__":
    sys.exit(main())
