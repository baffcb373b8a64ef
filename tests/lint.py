#!/usr/bin/env python3
"""Runs the built ctd-lint on the rows of tests/lint.toml, on all examples, and on the programs of the documents.

A row has a program, further words of the command line, and the findings that it has to tell: the line and the column of a command, the kind, and the
name of a variable. Where it has `traps`, these are told behind the findings, and `verdict` is the line that --verdicts asks for; else all kinds of
traps are left out. `{3 ab}` in a program stands for `ababab`, and each `@` in such a text for the number of its turn. A row of the table `refusals`
has the line on standard error in place of the findings, and one of `calls` has several programs. What lists the kinds lists all of them. With --json
each program has to be told the same as text tells. Programs of a megabyte are timed too, and no program may take too much memory.
The last line counts passed and failed. usage: tests/lint.py [PROGRAM]"""
from __future__ import annotations

import re
import resource
import subprocess
import sys
import tempfile
import tomllib
from collections.abc import Iterator
from pathlib import Path
from typing import Any

from lint_json import objects_of, streams_of, unmeant
from markdown_blocks import blocks
from tables import unfolded
from traps_told import EVERY, said_in

TOP = Path(__file__).resolve().parent.parent
LINTER = TOP / "crates/ctd_lint/out/ctd_lint"
OUT_OF_TIME = 60
# What a program of a megabyte may take, in processor seconds and in kilobytes, and how often it is tried: the least time counts.
TIME_LIMIT = 4.0
MEMORY_LIMIT = 200_000
TRIES = 5
MEGABYTE = 1_048_576

# The name of a file with bytes that JSON has to write otherwise.
STRANGE = 'caf\u00e9 "\\\t\x7f\u20ac.ctd'

# Where the kinds of findings are listed, and how a line that has some of them begins.
LISTS = {
    "man/ctd-lint.1": ".It Cm ",
    "completions/bash/ctd-lint": "    local kinds=",
    "completions/zsh/_ctd-lint": "    _values -s , kind ",
    "completions/fish/ctd-lint.fish": "set --local kinds ",
}

# A status, and what stands on standard output and on standard error.
Left = tuple[int, str, str]
# A name for the report, the program, further words, and what has to be left. F stands for the name of the file.
Case = tuple[str, str, list[str], Left]
# A name for the report, a program, and the status that has to be left.
Hostile = tuple[str, str, int]
# What tests/lint.toml has.
Table = dict[str, Any]


def told(table: Table, findings: list[list[Any]], verdict: str | None = None, accepted: int | None = None) -> Left:
    """What a program with these findings and traps leaves, and with this said of verdicts; the status of that may be accepted by the words."""
    lines, status = "", 0
    for line, column, kind, *names in findings:
        rank, text = (table["kinds"] | table["traps"])[kind]
        about = "".join(f": {unfolded(name)}" for name in names)
        lines += f"F:{line}:{column}: {rank}: {text}{about} [{kind}]\n"
        status = max(status, int(rank == "warning"))
    if verdict is not None:
        lines += f"F: {verdict}\n"
        status = max(status, int(verdict != EVERY) if accepted is None else accepted)
    return status, lines, ""


def rows(table: Table) -> Iterator[Case]:
    """The rows of the table."""
    no_traps = ["--ignore=" + ",".join(table["traps"])]
    for row in table["findings"]:
        words = row.get("words", []) + ([] if "traps" in row else no_traps)
        yield f"row {row['program']}", unfolded(row["program"]), words, told(table, row["findings"] + row.get("traps", []), row.get("verdict"), row.get("status"))
    for row in table["refusals"]:
        yield f"row {row['program']}", unfolded(row["program"]), row.get("words", []), (2, "", row["line"] + "\n")


def programs_of(document: Path) -> Iterator[tuple[str, str]]:
    """The programs of a document, each by the document and the name of its file, or its line."""
    for block in blocks(document):
        if block.kind == "ctd":
            yield f"{document.name} {block.file or block.number}", block.text()


def documented(table: Table) -> Iterator[Case]:
    """All examples, and the programs of the documents: without findings but for those that the table explains."""
    explained = {row["name"]: row.get("findings", []) + row.get("reports", []) for row in table["explained"]}
    texts = {str(file.relative_to(TOP)): file.read_text() for file in sorted((TOP / "examples").rglob("*.ctd"))}
    for document in sorted((TOP / "docs").glob("*.md")):
        texts.update(programs_of(document))
    for name, text in texts.items():
        yield name, text, [], told(table, explained.pop(name, []))
    for name in explained:
        yield f"{name}, which is explained and not there", "", [], (-1, "", "")


def hostile() -> Iterator[Hostile]:
    """Programs of nearly a megabyte, some of which are refused."""
    yield "one command many times", "SPACE " * (MEGABYTE // 6), 0
    yield "many names", "SET(" + ",".join(f"v{i}=0" for i in range(100_000)) + ")", 0
    yield "many names that are read", "".join(f"ASSERT(v{i}==0)" for i in range(60_000)), 1
    yield "one long expression", "ASSERT(" + "1+" * (MEGABYTE // 2 - 8) + "1==0)", 2
    yield "one long pattern", 'REGEX("' + "[" * (MEGABYTE - 16) + '")', 2
    yield "counts in a pattern", 'STRING("x") ' + 'REGEX("a{1,}")' * 1000, 0
    yield "loops in loops", "INT(0,9,n) " + "REP(n) " * 199 + "SET(skip=n)" + " END" * 199, 0
    yield "many loops", "INT(0,9,n) " + "REP(n) SET(skip=n) END " * (MEGABYTE // 23 - 2), 0
    yield "many ranges", "".join(f"INT(0,9,v{i}) ASSERT(v{i}>0) " for i in range(32_000)), 0
    yield "many counters", "".join(f"REPI(v{i},2) SPACE END " for i in range(41_000)), 0
    yield "many tests of UNIQUE", "SET(u=1) " + "ASSERT(UNIQUE(u)) " * 40_000, 1
    yield "many words", 'REGEX("' + "|".join(f"x{i}y" for i in range(100)) + '",k) ' + 'ASSERT(k=="x") ' * 25_000, 1
    yield "one name many times", "SET(n=1) ASSERT(n==1) UNSET(" + ",".join("n" for _ in range(MEGABYTE // 2 - 20)) + ")", 0


class Linter:
    """The built program, on programs that are written to files."""

    def __init__(self, program: Path, folder: Path) -> None:
        self.program = program
        self.folder = folder

    def call(self, words: list[str]) -> Left:
        done = subprocess.run([self.program, *words], cwd=self.folder, capture_output=True, text=True, timeout=OUT_OF_TIME, check=False)
        return done.returncode, done.stdout, done.stderr

    def run(self, text: str, words: list[str]) -> Left:
        (self.folder / "F").write_bytes(text.encode("latin-1"))
        return self.call([*words, "F"])

    def run_on(self, files: dict[str, str], words: list[str]) -> Left:
        """What a call leaves that has these programs beside it."""
        for file in self.folder.iterdir():
            file.unlink()
        for name, text in files.items():
            (self.folder / name).write_text(text)
        return self.call(words)

    def least_time(self, text: str) -> tuple[int, float]:
        """The status for a text, and the least processor time that the program took for it, in seconds."""
        status, times = -1, []
        for _ in range(TRIES):
            before = resource.getrusage(resource.RUSAGE_CHILDREN)
            status, _, _ = self.run(text, [])
            after = resource.getrusage(resource.RUSAGE_CHILDREN)
            times.append(after.ru_utime - before.ru_utime + after.ru_stime - before.ru_stime)
        return status, min(times)


def listed(file: str, beginning: str) -> list[str]:
    """The kinds that a file lists, in the order of the alphabet."""
    lines = [line.removeprefix(beginning) for line in (TOP / file).read_text().splitlines() if line.startswith(beginning)]
    cells = [line.split(" | ")[0] for line in lines]
    return sorted(kind for cell in cells for kind in re.findall(r"[a-z]+(?:-[a-z]+)*", cell))


def as_json(linter: Linter, text: str, words: list[str], status: int) -> Iterator[tuple[str, object, object]]:
    """What --json leaves, as text, is what text leaves, and ends with the verdict; with each finding on runs it tells what never happens."""
    all_words = words if "--verdicts" in words else [*words, "--verdicts"]
    _, out, err = linter.run(text, all_words)
    json_status, json_out, json_err = linter.run(text, [*words, "--json"])
    objects = objects_of(json_out)
    yield "as JSON", (status, out, err), (json_status, *(("", json_err) if json_err else streams_of(json_out)))
    yield "what never happens as JSON", [], unmeant(objects)


def lines_as_json(linter: Linter, text: str, words: list[str]) -> tuple[str, object, object]:
    """The lines of --guarantees, as text and as JSON."""
    _, out, _ = linter.run(text, [*words, "--guarantees"])
    _, json_out, _ = linter.run(text, [*words, "--guarantees", "--json"])
    lines = [line.strip() for line in out.splitlines() if line.startswith("  ") and not line.startswith("  at the end of each turn of ")]
    return "lines as JSON", lines, [said["text"] for said in objects_of(json_out) if said["rank"] == "guarantee"]


def strange_names(linter: Linter) -> Iterator[tuple[str, object, object]]:
    """The name of a file comes back from JSON byte for byte, also of one that is not there."""
    _, out, _ = linter.run_on({STRANGE: "INT(1,9,n)"}, ["--json", STRANGE, "x" + STRANGE])
    said = [(one.file, one.rank) for one in said_in(out)]
    yield "a strange name of a file", [(STRANGE, "note"), (STRANGE, "verdict"), ("x" + STRANGE, "error")], said


def outcomes(linter: Linter, table: Table) -> Iterator[tuple[str, object, object]]:
    """A name for each test, with what is wanted and what is found."""
    for name, text, words, wanted in [*rows(table), *documented(table)]:
        yield name, wanted, linter.run(text, words)
        for told, json_wanted, found in [*as_json(linter, text, words, wanted[0]), lines_as_json(linter, text, words)]:
            yield f"{name}, {told}", json_wanted, found
    yield from strange_names(linter)
    for call in table["calls"]:
        wanted = (call["status"], call.get("out", ""), call.get("err", ""))
        yield f"call {call['words']}", wanted, linter.run_on(call["files"], call["words"])
    for file, beginning in LISTS.items():
        yield f"the kinds in {file}", sorted(table["kinds"] | table["traps"]), listed(file, beginning)
    for name, text, wanted_status in hostile():
        status, seconds = linter.least_time(text)
        in_time = "in time" if seconds < TIME_LIMIT else f"after {seconds:.2f} s"
        yield name, (wanted_status, "in time"), (status, in_time)
    # of all programs that were run
    memory = resource.getrusage(resource.RUSAGE_CHILDREN).ru_maxrss
    yield "memory", "enough", "enough" if memory < MEMORY_LIMIT else f"{memory} KB"


def main() -> int:
    program = Path(sys.argv[1]).resolve() if len(sys.argv) > 1 else LINTER
    table = tomllib.loads((TOP / "tests/lint.toml").read_text())
    passed = failed = 0
    with tempfile.TemporaryDirectory() as folder:
        for name, wanted, found in outcomes(Linter(program, Path(folder)), table):
            passed += found == wanted
            failed += found != wanted
            if found != wanted:
                print(f"lint: {name}\n    wanted {wanted}\n    found  {found}")
    print(f"{passed} passed, {failed} failed")
    return int(failed > 0)


if __name__ == "__main__":
    sys.exit(main())
