#!/usr/bin/env python3
"""Measures what each mechanism buys by which ctd-lint tells fewer false traps, and compares the table of docs/TESTED.md with that.

One line of the packed C file is changed for each mechanism, behind a switch: the environment says which one is off. So ctd-lint is compiled once, and
runs with none off, and then with each of them off, on the examples and the programs of the documents, on those of tests/verdicts/ without a trap, and on
the rows of tests/lint.toml. What counts is a program of which ctd-lint tells a further trap without the mechanism, and a row that it answers otherwise.

The last line counts the lines of the table that say what was measured, as passed, and the others. usage: tests/precision.py [--write]
With --write the table of docs/TESTED.md is renewed."""
from __future__ import annotations

import os
import subprocess
import sys
import tempfile
import tomllib
from collections.abc import Iterator
from concurrent.futures import ThreadPoolExecutor
from dataclasses import dataclass
from pathlib import Path

import lint
import verdicts
from results import TOP, print_results
from traps_told import Told, report_of

PAGE = TOP / "docs/TESTED.md"
BEGIN, END = "<!-- precision: written by tests/precision.py -->", "<!-- end of precision -->"
COMPILERS = 2
SWITCH = "CTD_SWITCHED_OFF"
# Stands before the program in the C file: the number of the mechanism that is off.
READ_SWITCH = f"""
static int switched_off;
__attribute__((constructor)) static void read_switch(void) {{
    const char *word = getenv("{SWITCH}");
    switched_off = word ? atoi(word) : 0;
}}
"""


@dataclass(frozen=True)
class Mechanism:
    """What the analysis knows by it, its function in the C file, and what this does while it is off: at its start, or in place of a line that stands there
    once. The arguments of a function are l0, l1 and so on; where l0 is the place of a result, the first bytes say whether it is an error."""

    name: str
    function: str
    effect: str
    line: str = ""


GIVES_NONE = "w16(l0, 0); fill(l0 + 8, 0, 80); return;"
MECHANISMS = [
    Mechanism("facts: of elements, and of one number beside another", "ctd_partitions::change::tidied", "w64(l3 + 8, 0); w64(l3 + 32, 0);"),
    Mechanism("facts with the number of a bound in place of a name", "ctd_candidates::rename::add_renamed", "l3 = 0;"),
    Mechanism("facts of how the bounds of two values compare", "ctd_candidates::compare::add_pairs", "l3 = 0;"),
    Mechanism("facts of a greatest value of elements", "ctd_candidates::element::add_mosts", "l8 = 0;", "l8 = r64(l3 + 72);"),
    Mechanism("facts of two arrays, one with elements where the other has them", "ctd_traps::pairs::add_pair", "w8(l0, 0); copy(l0 + 8, l1, 24); return;"),
    Mechanism("slopes: what grows has a bound for each step", "ctd_states::widen::widen_values", "l3 = 0;"),
    Mechanism("up to eight states side by side", "ctd_partitions::partition::join_state", "if (l7 < 1) goto L9;", "if (l7 < 8) goto L9;"),
    Mechanism("turns taken one by one", "ctd_traps::walk::try_turns", GIVES_NONE),
    Mechanism("numbers that surely differ, such as a divisor and 0", "ctd_elements::limits::differ", "return 0;"),
    Mechanism("what a test of a sum or a difference says of an operand", "ctd_transfer::cut::cut_operand", "w16(l0, 0); return;"),
    Mechanism("what a test of `STRLEN` says of a string", "ctd_transfer::cut::cut", "goto L1;", "if (r8(l3)) goto L1;"),
    Mechanism("the best way through each loop in a loop", "ctd_traps::walk::try_inner", GIVES_NONE),
]


def with_switch(text: str, number: int, mechanism: Mechanism) -> str:
    """The C file, in which a mechanism may be off."""
    head = f"/* {mechanism.function} */\n"
    before, found, rest = text.partition(head)
    body, end, behind = rest.partition("\n/* ")
    line = mechanism.line or body.partition("\n")[0]
    if not found or f"\n{body}".count(f"\n{line}\n") != 1:
        raise SystemExit(f"precision: in the C file {mechanism.function} has not one line {line!r}: look for what it is today")
    when_off = f"if (switched_off == {number}) {{ {mechanism.effect} }}"
    switched = f"{when_off} else {{ {line} }}" if mechanism.line else f"{line}\n{when_off}"
    return before + head + f"\n{body}".replace(f"\n{line}\n", f"\n{switched}\n", 1)[1:] + end + behind


def switchable_source() -> str:
    """The C file, in which each mechanism of ctd-lint may be off. ctd-lint stands in its first part."""
    text = subprocess.run([TOP / "portable/unpack.sh"], capture_output=True, text=True, check=True).stdout
    for number, mechanism in enumerate(MECHANISMS, 1):
        text = with_switch(text, number, mechanism)
    return text.replace("#ifdef CTD_LINT\n", "#ifdef CTD_LINT\n" + READ_SWITCH, 1)


def compile_switchable(folder: Path) -> Path:
    """Compiles ctd-lint with the switch, in four parts as portable/compile.sh does."""
    source, program = folder / "program.c", folder / "ctd-lint"
    source.write_text(switchable_source())
    objects = [folder / f"{part}.o" for part in range(4)]

    def compile_part(part: int) -> None:
        subprocess.run(["cc", "-O1", "-DCTD_LINT", f"-DCTD_PART={part}", "-c", "-o", objects[part], source], check=True)

    with ThreadPoolExecutor(COMPILERS) as pool:
        list(pool.map(compile_part, range(4)))
    subprocess.run(["cc", *objects, "-o", program], check=True)
    return program


@dataclass(frozen=True)
class Case:
    """A program with further words for the command line. Its group is a column of the table."""

    group: str
    text: str
    words: tuple[str, ...] = ()


DOCUMENTED, WITHOUT_TRAP, ROWS = "of {} examples and documents", "of {} in `tests/verdicts/`", "rows of `tests/lint.toml`"
GROUPS = [DOCUMENTED, WITHOUT_TRAP, ROWS]
# What a run leaves: the traps that it tells; of a row all that it writes, and the status.
Answer = frozenset[Told] | lint.Left


def all_cases() -> Iterator[Case]:
    """What ctd-lint is run on. A finding would stand in the place of some traps."""
    table = tomllib.loads((TOP / "tests/lint.toml").read_text())
    for _, text, _, _ in lint.documented(table):
        yield Case(DOCUMENTED, text, ("--json",))
    for row in verdicts.rows():
        if row.data is None:
            yield Case(WITHOUT_TRAP, (verdicts.FOLDER / f"{row.name}.ctd").read_text(), ("--json", "--ignore=no-value,wrong-type"))
    for _, text, words, _ in lint.rows(table):
        yield Case(ROWS, text, tuple(words))


def answers(program: Path, cases: list[Case], number: int) -> list[Answer]:
    """What ctd-lint leaves on each case while this mechanism is off; with 0, none is."""
    os.environ[SWITCH] = str(number)
    with tempfile.TemporaryDirectory() as folder:
        linter = lint.Linter(program, Path(folder))
        lefts = [linter.run(case.text, list(case.words)) for case in cases]
    return [left if case.group == ROWS else report_of(left[1]).traps for case, left in zip(cases, lefts, strict=True)]


def is_bought(case: Case, with_all: Answer, without: Answer) -> bool:
    """Whether an answer is worse without a mechanism."""
    if case.group == ROWS:
        return without != with_all
    assert isinstance(without, frozenset) and isinstance(with_all, frozenset)
    return not without <= with_all


def measured_rows() -> Iterator[str]:
    """The lines of the table: how many programs there are, and how many of them and of the rows each mechanism buys."""
    cases = list(all_cases())
    yield "| Without | " + " | ".join(group.format(sum(case.group == group for case in cases)) for group in GROUPS) + " |"
    yield "|---|---|---|---|"
    with tempfile.TemporaryDirectory() as folder:
        program = compile_switchable(Path(folder))
        with_all = answers(program, cases, 0)
        for number, mechanism in enumerate(MECHANISMS, 1):
            without = answers(program, cases, number)
            bought = [case.group for case, *both in zip(cases, with_all, without, strict=True) if is_bought(case, *both)]
            yield f"| {mechanism.name} | " + " | ".join(str(bought.count(group)) for group in GROUPS) + " |"


def main() -> int:
    front, _, rest = PAGE.read_text().partition(BEGIN)
    table, _, behind = rest.partition(END)
    wanted, measured = table.strip().splitlines(), list(measured_rows())
    if "--write" in sys.argv[1:]:
        PAGE.write_text("\n".join([front + BEGIN, *measured, END]) + behind)
        wanted = measured
    faults = [(row, [] if row in wanted else ["docs/TESTED.md does not say so: tests/precision.py --write renews it"]) for row in measured]
    faults += [(row, ["docs/TESTED.md says so, and it was not measured"]) for row in wanted if row not in measured]
    return print_results("precision", faults)


if __name__ == "__main__":
    sys.exit(main())
