"""What ctd-lint proves of copies of a program: what never happens in them."""
from __future__ import annotations

import tempfile
from collections.abc import Sequence
from concurrent.futures import ThreadPoolExecutor
from dataclasses import dataclass, field
from pathlib import Path

from ctd_companion import Checker, Place, text_of
from ctd_findings import NEVER, find_linter, said_in
from ctd_processes import TooMuchWritten, run_command

# How many copies are looked at in one run; and how many bytes all copies may have together that are asked of for one purpose.
TOGETHER = 8
MOST_BYTES = 1 << 16


@dataclass
class Told:
    """What ctd-lint tells of a copy: what never happens at its commands, and the reasons of overflows. Of a copy that it refuses nothing is known, and of
    one that takes long to analyse less."""

    never: set[tuple[Place, str]] = field(default_factory=set)
    overflows: dict[Place, str] = field(default_factory=dict)
    is_known: bool = False
    is_large: bool = False

    def is_never(self, place: Place, *kinds: str) -> bool:
        """Whether something of some kinds never happens at a command, or no run passes it."""
        return self.is_known and any((place, kind) in self.never for kind in (*kinds, "begins", "goes-on"))


@dataclass(frozen=True)
class Linter:
    """ctd-lint with the presets of a check. Where it is not installed, or fails, nothing is known of any copy."""

    path: str | None = None
    presets: Sequence[str] = ()
    jobs: int = 1

    @staticmethod
    def beside(checker: Checker, jobs: int = 1) -> Linter:
        return Linter(find_linter(checker.path), [option for option in checker.options if option.startswith("--define=")], jobs)

    def room(self, text: bytes) -> int:
        """How many copies of a program it is asked of: a large program has many things to ask, and each copy takes long."""
        return MOST_BYTES // max(1, len(text)) if self.path else 0

    def tell(self, copies: Sequence[bytes]) -> list[Told]:
        """What it tells of each of some copies."""
        parts = [copies[start : start + TOGETHER] for start in range(0, len(copies), TOGETHER)]
        with ThreadPoolExecutor(self.jobs) as pool:
            return [told for part in pool.map(self.tell_part, parts) for told in part]

    def tell_part(self, copies: Sequence[bytes]) -> list[Told]:
        found = [Told() for _ in copies]
        if self.path is None:
            return found
        names = [f"{number}.ctd" for number in range(len(copies))]
        with tempfile.TemporaryDirectory(prefix="ctd-asked-") as folder:
            for name, copy in zip(names, copies):
                (Path(folder) / name).write_bytes(copy)
            try:
                written = text_of(run_command([self.path, "--json", *self.presets, *names], cwd=folder).out)
            except (OSError, TooMuchWritten):
                return found
        told_of = dict(zip(names, found))
        for one in said_in(written, (NEVER, "note", "risk", "verdict")):
            told = told_of[one.file]
            if one.rank == "verdict":
                told.is_known = True
            elif one.rank == "note":
                # (that less is known is a note without a kind)
                told.is_large = told.is_large or not one.kind
            elif one.rank == "risk" and one.place and one.kind == "overflow":
                told.overflows[one.place] = one.reason
            elif one.rank == NEVER and one.place:
                told.never.add((one.place, one.kind))
        return found
