#!/usr/bin/env python3
"""Runs ctd-mutate --against on pairs of programs with all kinds of changes: each row of planted.toml is a right program, one with a mistake, and
right data, on which the two agree. It has to find a file on which they disagree; how small that gets was worked out by hand.

The last line counts what passed and failed. usage: tests/planted.py [PROGRAM]"""
from __future__ import annotations

import subprocess
import sys
import tempfile
import tomllib
from collections.abc import Iterator, Sequence
from dataclasses import dataclass
from pathlib import Path

from results import TOP, checker_to_test, print_results

CHECKER = checker_to_test()
ROWS = TOP / "tests/planted.toml"
# How many files are made of each kind where nothing is said.
MOST = 10


@dataclass(frozen=True)
class Planted:
    """A mistake: its title, the right program, what is mistaken for what in it, right data, whether the wrong program accepts what the right one
    rejects, and the small file that shows it."""

    title: str
    program: str
    right: str
    wrong: str
    data: Sequence[str]
    small: str
    wrong_accepts: bool = True

    def faults(self, kinds: int) -> Iterator[str]:
        with tempfile.TemporaryDirectory() as name:
            folder, names = Path(name), [f"{number}.in" for number in range(1, len(self.data) + 1)]
            if self.program.count(self.right) != 1:
                yield f"the program has {self.right!r} {self.program.count(self.right)} times"
            (folder / "right.ctd").write_text(self.program)
            (folder / "wrong.ctd").write_text(self.program.replace(self.right, self.wrong))
            for file, text in zip(names, self.data):
                (folder / file).write_text(text)
            call = [TOP / "tools/ctd-mutate", "--checker", CHECKER, "--against", "wrong.ctd", "right.ctd", *names]
            ran = subprocess.run(call, cwd=folder, capture_output=True, text=True, check=False)
        lines = ran.stdout.splitlines()
        verdicts = ("rejects", "accepts") if self.wrong_accepts else ("accepts", "rejects")
        for wanted in ["right.ctd {}, wrong.ctd {}".format(*verdicts), f"reduced to {self.shown()}"]:
            if wanted not in ran.stdout:
                yield f"says {ran.stdout[ran.stdout.rfind('may fit: ') :] + ran.stderr!r}, wanted {wanted!r}"
        if ran.returncode != 1 or any("as it is" in line for line in lines):
            yield f"status {ran.returncode}, or the two disagree on right data"
        made = sum(int(line.split(" made")[0].rpartition(" ")[2]) for line in lines if " made, " in line)
        if made > kinds * MOST * len(self.data):
            yield f"{made} files are made, which are more than {MOST} of {kinds} kinds"

    def shown(self) -> str:
        """The small file as it is written."""
        text = self.small.replace("\n", "\\n").replace(" ", "·")
        return f'"{text}"'


def results() -> Iterator[tuple[str, list[str]]]:
    listed = subprocess.run([TOP / "tools/ctd-mutate", "--kinds"], capture_output=True, text=True, check=True).stdout
    for row in tomllib.loads(ROWS.read_text())["planted"]:
        planted = Planted(**row)
        yield planted.title, list(planted.faults(len(listed.splitlines())))


if __name__ == "__main__":
    sys.exit(print_results("planted", results()))
