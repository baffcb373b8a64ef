"""A second opinion: what another validator says of the files that a program is tried with, and small files on which the two disagree."""
from __future__ import annotations

import os
import shutil
import tempfile
from collections.abc import Iterable, Iterator, Sequence
from dataclasses import dataclass
from itertools import zip_longest
from pathlib import Path
from typing import Protocol

from ctd_companion import FITS, NO_VERDICT, REJECTED, Answer, Progress, results_in_order, visible
from ctd_reduce import Reduction
from ctd_validators import ProgramValidator, Validator, is_late

# Larger files, in bytes, are not reduced.
MOST_REDUCED = 1 << 20
# How many bytes of a reduced file are shown.
SHOWN = 80
VERBS = {FITS: "accepts", REJECTED: "rejects", NO_VERDICT: "has no verdict"}
# What the program and the other say where that is listed. Where the program has no verdict, that is told without the other.
LISTED = [(FITS, REJECTED), (REJECTED, FITS), (FITS, NO_VERDICT), (REJECTED, NO_VERDICT)]


class Candidate(Protocol):
    """A file that both are given: its bytes, how it is told of, its sort, of which others are much alike, and the name to keep it under."""

    @property
    def sort(self) -> str: ...

    def blocks(self) -> Iterable[bytes]: ...

    def described(self) -> str: ...

    def file_name(self) -> str: ...


@dataclass(frozen=True)
class Pair:
    """What the program and the other validator say of a file."""

    ours: Answer
    theirs: Answer

    @property
    def verdicts(self) -> tuple[int, int]:
        return self.ours.status, self.theirs.status

    @property
    def have_verdicts(self) -> bool:
        return NO_VERDICT not in self.verdicts

    @property
    def agree(self) -> bool:
        return self.have_verdicts and self.ours.status == self.theirs.status


@dataclass(frozen=True)
class Comparison:
    """A file that both were given, and what they say. Where they do not agree: how it is told of, its sort, the name to keep it under, and
    where its bytes are."""

    pair: Pair
    told: str = ""
    sort: str = ""
    name: str = ""
    path: str = ""


@dataclass(frozen=True)
class SecondOpinion:
    """The program and the other validator; a folder for files while they are compared, and one for those on which the two do not agree, where
    one is given."""

    program: ProgramValidator
    other: Validator
    shop: Path
    keep: Path | None = None

    def compare(self, candidate: Candidate) -> Comparison:
        """What both say of a file; it is held where they do not agree."""
        path = self.write(candidate.blocks())
        pair = Pair(self.program.judge(path), self.other.judge(path))
        if pair.agree:
            os.remove(path)
            return Comparison(pair)
        return Comparison(pair, candidate.described(), candidate.sort, candidate.file_name(), path)

    def write(self, blocks: Iterable[bytes]) -> str:
        """Writes a file to the folder, and gives its path."""
        descriptor, path = tempfile.mkstemp(dir=self.shop)
        with open(descriptor, "wb") as file:
            file.writelines(blocks)
        return path

    def listed(self, comparison: Comparison) -> str:
        """What is told of a file on which they do not agree, which is kept, made smaller where both have a verdict."""
        told, pair = comparison.told, comparison.pair
        if pair.have_verdicts and os.path.getsize(comparison.path) <= MOST_REDUCED:
            data = self.reduced(Path(comparison.path).read_bytes(), pair)
            Path(comparison.path).write_bytes(data)
            more = f"… ({len(data)} bytes)" if len(data) > SHOWN else ""
            told += f': reduced to "{visible(data[:SHOWN])}"{more}'
        if self.keep is not None:
            self.keep.mkdir(parents=True, exist_ok=True)
            shutil.copyfile(comparison.path, self.keep / comparison.name)
        return f"{told}: {pair.theirs.message}" if pair.theirs.message and pair.theirs.status != FITS else told

    def reduced(self, data: bytes, pair: Pair) -> bytes:
        """Smaller data of which both say the same; and where they do not fit the program, also the program says why as before."""

        def is_like(smaller: bytes) -> bool:
            path = self.write([smaller])
            try:
                ours = self.program.judge(path)
                if (ours.status, ours.in_program) != (pair.ours.status, pair.ours.in_program):
                    return False
                theirs = self.other.judge(path)
            finally:
                os.remove(path)
            if is_late(theirs):
                reduction.left = 0
            return theirs.status == pair.theirs.status

        reduction = Reduction(data, is_like)
        return reduction.whole()

    def report(self, comparisons: Sequence[Comparison], most: int | None, jobs: int) -> Iterator[str]:
        """The files on which the two do not agree, by what they say; at most so many of each, where a number is given."""
        for verdicts in LISTED:
            found = list(spread([one for one in comparisons if one.pair.verdicts == verdicts]))
            if found:
                yield f"{self.program.name} {VERBS[verdicts[0]]}, {self.other.name} {VERBS[verdicts[1]]}"
                listed = found[:most]
                yield from dict.fromkeys(f"  {told}" for told in results_in_order(self.listed, listed, jobs, Progress(len(listed), "files reduced")))
            if most is not None and len(found) > most:
                yield f"  and {len(found) - most} more"
        agree = sum(one.pair.agree for one in comparisons)
        without = sum(not one.pair.have_verdicts for one in comparisons)
        disagree = len(comparisons) - agree - without
        yield f"against {self.other.name}: {len(comparisons)} compared, {agree} agree, {disagree} disagree, {without} without verdict"


def spread(comparisons: Iterable[Comparison]) -> Iterator[Comparison]:
    """Comparisons in an order in which the first have different sorts."""
    by_sort: dict[str, list[Comparison]] = {}
    for comparison in comparisons:
        by_sort.setdefault(comparison.sort, []).append(comparison)
    for row in zip_longest(*by_sort.values()):
        yield from (one for one in row if one is not None)
