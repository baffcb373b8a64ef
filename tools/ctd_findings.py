"""What ctd-lint says of programs with --json, and the lines of text that say the same; and how it is found."""
from __future__ import annotations

import json
import os
import sys
from collections.abc import Iterator, Sequence
from dataclasses import dataclass
from pathlib import Path
from typing import Any

from ctd_companion import Place, find_program, text_of

LINTER = "ctd-lint"
RANKS = ("warning", "note", "risk", "verdict", "error")
# The rank of what happens at a command in no run.
NEVER = "never"


@dataclass(frozen=True)
class Finding:
    """A finding, a trap, the verdict, or why a program is refused, each with what it has: the place of its command, its kind, the name that it is about,
    its reason, and the place of the command without an END."""

    file: str
    rank: str
    text: str
    kind: str = ""
    name: str = ""
    reason: str = ""
    place: Place | None = None
    unclosed: Place | None = None

    @property
    def about(self) -> str:
        """The name or the reason behind the text."""
        return self.name or self.reason

    @property
    def message(self) -> str:
        return f"{self.text}: {self.about}" if self.about else self.text

    def lines(self) -> Iterator[str]:
        """The lines that ctd-lint writes of it without --json."""
        rank = "" if self.rank == "verdict" else f"{self.rank}: "
        yield f"{self.file}{place_text(self.place)}: {rank}{self.message}" + (f" [{self.kind}]" if self.kind else "")
        if self.unclosed:
            yield f"{self.file}{place_text(self.unclosed)}: note: this command has no END"


def place_text(place: Place | None) -> str:
    return f":{place.line}:{place.column}" if place else ""


def find_linter(checker: str) -> str | None:
    """The path of ctd-lint: beside the checker, or beside this program where none is given, or in its checkout, or on PATH. It may be run in another
    folder."""
    folders = [Path(checker).parent] if checker else [Path(sys.argv[0]).parent, Path(__file__).resolve().parent]
    found = find_program(LINTER, *folders)
    return found and os.path.abspath(found)


def said_in(written: str, ranks: Sequence[str] = RANKS) -> Iterator[Finding]:
    """What ctd-lint says, but for objects of other ranks. A line that is cut off is passed over."""
    for line in written.split("\n")[:-1]:
        said = json.loads(line)
        if said["rank"] in ranks:
            texts = {key: text_of(said[key].encode("latin-1")) for key in ("file", "rank", "text", "kind", "name", "reason") if key in said}
            yield Finding(**{"text": "", **texts}, place=place_in(said), unclosed=place_in(said.get("unclosed", {})))


def findings_in(written: str) -> list[Finding]:
    """What ctd-lint says also without --verdicts."""
    return [one for one in said_in(written) if one.rank != "verdict"]


def place_in(said: dict[str, Any]) -> Place | None:
    return Place(said["line"], said["column"]) if "line" in said else None
