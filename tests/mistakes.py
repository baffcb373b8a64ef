#!/usr/bin/env python3
"""Runs all tools on typical mistakes in programs: each row of mistakes.toml is a program with a mistake and data that are right. The tool that the row
names has to tell of it, and those that need less of a jury nothing. With --write the table of docs/MISTAKES.md is made of the rows; else it has to be
that.

The last line counts what passed and failed. usage: tests/mistakes.py [--write] [PROGRAM]"""
from __future__ import annotations

import subprocess
import sys
import tempfile
import tomllib
from collections.abc import Iterator, Sequence
from dataclasses import dataclass
from pathlib import Path

from results import TOP, checker_to_test, print_results

IS_WRITING = "--write" in sys.argv
sys.argv = [word for word in sys.argv if word != "--write"]
CHECKER = checker_to_test()
LINTER = TOP / "crates/ctd_lint/out/ctd_lint"
PAGE = TOP / "docs/MISTAKES.md"
ROWS = TOP / "tests/mistakes.toml"
# The tools with data in the order of the work that they make: what each says where it has nothing to tell.
SILENT = {"ctd-show": ("rejected", "0 rejected"), "ctd-cover": ("note:", "")}


@dataclass(frozen=True)
class Mistake:
    """A mistake: its title, how it looks, the tool that tells it, and what that says, in the table and in its own words; a program with it, right
    data, the settings of a group of a package, where they have the mistake, and a second validator in Python, where the tool asks one."""

    title: str
    as_in: str
    tool: str
    shown: str
    says: str
    program: str
    data: Sequence[str]
    settings: str = ""
    second: str = ""

    def row(self) -> str:
        """The row of the table."""
        title, as_in = (text.replace("|", "\\|") for text in (self.title, self.as_in))
        return f"| {title} | {as_in} | `{self.tool}`: {self.shown} |"

    def write(self, folder: Path) -> None:
        """Writes the program and the data to a folder, which is a problem package too."""
        (folder / "input_validators").mkdir()
        (folder / "data/secret").mkdir(parents=True)
        for name in ("p.ctd", "input_validators/p.ctd"):
            (folder / name).write_text(self.program)
        for number, text in enumerate(self.data, start=1):
            for name in (f"{number}.in", f"data/secret/{number}.in"):
                (folder / name).write_text(text)
        if self.settings:
            (folder / "data/secret/testdata.yaml").write_text(self.settings)
        if self.second:
            (folder / "second.py").write_text(self.second)

    def output(self, folder: Path, tool: str) -> str:
        """What a tool says of the program and the data in a folder."""
        if tool == "ctd-lint":
            call = [LINTER, "p.ctd"]
        else:
            data = ["."] if tool == "ctd-package" else ["p.ctd", *(f"{number}.in" for number in range(1, len(self.data) + 1))]
            name, *options = tool.split()
            options += ["second.py"] if "--against" in options else []
            call = [TOP / "tools" / name, "--checker", CHECKER, *options, *data]
        ran = subprocess.run(call, cwd=folder, capture_output=True, check=False)
        return (ran.stdout + ran.stderr).decode()

    def faults(self) -> Iterator[str]:
        with tempfile.TemporaryDirectory() as name:
            folder = Path(name)
            self.write(folder)
            told = self.output(folder, self.tool)
            if self.says not in told:
                yield f"{self.tool} says {told!r}, wanted {self.says!r}"
            if self.tool in ("ctd-lint", "ctd-package"):
                return
            for tool, (word, silence) in SILENT.items():
                if tool == self.tool:
                    break
                if word in (told := self.output(folder, tool)) and not (silence and silence in told):
                    yield f"{tool} says {told!r}"


def mistakes() -> list[Mistake]:
    return [Mistake(**row) for row in tomllib.loads(ROWS.read_text())["mistake"]]


def rows_of_page() -> list[str]:
    return [line for line in PAGE.read_text().splitlines() if line.startswith("| ") and not line.startswith("| Mistake")]


def write_page(rows: Sequence[str]) -> None:
    """Puts the rows in the place of those of the page."""
    text = PAGE.read_text()
    start = text.index("|---|") + len("|---|---|---|\n")
    PAGE.write_text(text[:start] + "".join(f"{row}\n" for row in rows) + text[text.index("\n\n", start) + 1 :])


def results() -> Iterator[tuple[str, list[str]]]:
    wanted = [mistake.row() for mistake in mistakes()]
    if IS_WRITING:
        write_page(wanted)
    found = rows_of_page()
    yield "the table", [] if found == wanted else [f"has other rows: {set(found) ^ set(wanted)}"]
    for mistake in mistakes():
        yield mistake.title, list(mistake.faults())


if __name__ == "__main__":
    sys.exit(print_results("mistakes", results()))
