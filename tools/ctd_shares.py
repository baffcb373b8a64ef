"""How files are shared out between machines, so that each takes a part that all of them know without a word."""
from __future__ import annotations

import argparse
import os
import re
from collections.abc import Callable, Sequence
from dataclasses import dataclass
from pathlib import Path
from typing import TypeVar

from ctd_schema import Number

# How many bytes to check take about the time that it takes to begin with a file.
BEGIN = 4096

# The most parts that there are.
MOST_PARTS = 99_999

File = TypeVar("File")


@dataclass(frozen=True)
class Share:
    """The part of this number, from 1, of so many."""

    number: Number = Number(1)
    of: Number = Number(1)

    def take(self, files: Sequence[File], size_of: Callable[[File], int]) -> list[File]:
        """The files of this part, in their order. The largest come first, each into the part that has the fewest bytes, so that parts are
        about even; on each machine on which the files and their sizes in bytes are the same, so are the parts."""
        sizes, taken = [size_of(file) for file in files], [0] * self.of
        mine = []
        for index in sorted(range(len(files)), key=lambda index: (-sizes[index], index)):
            part = taken.index(min(taken))
            taken[part] += sizes[index] + BEGIN
            if part == self.number - 1:
                mine.append(index)
        return [files[index] for index in sorted(mine)]


def size_of(path: str | Path) -> int:
    """The size of a file in bytes; 0 for one that is not there."""
    try:
        return os.stat(path).st_size
    except OSError:
        return 0


def share(text: str) -> Share:
    """A part as it is given on the command line, such as 2/4."""
    found = re.fullmatch("([0-9]{1,5})/([0-9]{1,5})", text)
    if found is None or not 1 <= int(found[1]) <= int(found[2]) <= MOST_PARTS:
        raise argparse.ArgumentTypeError(f"{text} is not K/N, with K from 1 to N")
    return Share(Number(int(found[1])), Number(int(found[2])))


def add_share(words: argparse.ArgumentParser) -> None:
    """Gives a command line the option for a part."""
    words.add_argument("--shard", metavar="K/N", type=share, default=Share(), help="take the K-th of N parts of the files, the same on each machine")
