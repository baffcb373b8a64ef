#!/usr/bin/env python3
"""Runs ctd-cover with the built checker on programs of a jury with right data: what it asks for was worked out by hand. Then data are added to five
programs of the examples and the documents until it asks for nothing.

The last line counts what passed and failed. usage: tests/jury.py [PROGRAM]"""
from __future__ import annotations

import subprocess
import sys
import tempfile
from collections.abc import Iterator, Sequence
from dataclasses import dataclass
from pathlib import Path

from markdown_blocks import blocks
from results import TOP, checker_to_test, print_results

CHECKER = checker_to_test()


@dataclass(frozen=True)
class Problem:
    """A program of a jury, presets, files of data, and what no file tries: the lines of ctd-cover without the name of the program and the last."""

    title: str
    program: str
    presets: str
    data: Sequence[str]
    notes: Sequence[str] = ()


PROBLEMS = [
    Problem(
        "towers: cases with a sum, each at least one; no case has a single tower",
        "SET(maxt=3,maxn=6) INT(1,maxt,t) NEWLINE SET(left=maxn)\nREP(t) INT(1,left,n) NEWLINE SET(left=left-n) REP(n,SPACE) INT(0,9) END NEWLINE END",
        "",
        ["1\n6\n0 1 2 3 4 9\n", "3\n2\n5 5\n2\n9 0\n2\n1 1\n"],
        # n is 1 or more, so no loop has no turn
        ["2:8: note: INT: took 2..6 of 1..left: the least is never taken (2.in:2:1)", "2:47: note: REP: never with one turn alone"],
    ),
    Problem(
        "the same group with one case alone: more than one cannot be",
        "SET(maxt=3) INT(1,maxt,t) NEWLINE\nREP(t) INT(1,2) NEWLINE END",
        "maxt=1",
        ["1\n1\n", "1\n2\n"],
    ),
    Problem(
        "a number of cards, where 0 has a line of its own",
        "INT(0,3,n) NEWLINE IF(n==0) STRING(\"none\") ELSE REP(n,SPACE) INT(1,5) END END NEWLINE",
        "",
        ["0\nnone\n", "1\n5\n", "3\n1 2 5\n"],
    ),
    Problem(
        "roads: behind the assertion there is one",
        "INT(0,9,m) ASSERT(m>0) NEWLINE REP(m) INT(1,9,u) SPACE INT(u+1,10,v) NEWLINE END",
        "",
        ["1\n1 2\n", "9\n" + "9 10\n" * 8 + "3 7\n"],
        # no test is missed: 1 is tight
    ),
    Problem(
        "a sum that is counted up, by a loop that goes on at first",
        "INT(1,20,n) NEWLINE SET(digits=0,x=n) WHILE(x>0) SET(x=x/10,digits=digits+1) END REP(digits) SPACE END",
        "",
        ["1\n ", "20\n  "],
    ),
    Problem(
        "points of which one side of the board is enough",
        "INT(0,9,a) SPACE INT(0,9,b) NEWLINE ASSERT(a<8 || b<8)",
        "",
        ["7 7\n", "0 0\n", "7 9\n", "0 0\n"],
        ["1:1: note: INT: took 0..7 of 0..9: the greatest is never taken (1.in:1:1)", "1:37: note: ASSERT: never decided by b<8"],
    ),
    Problem(
        "mails with two of three kinds of receivers",
        "INT(1,2,n) NEWLINE REP(n) REGEX(\"to|cc|bcc\",kind) SPACE REGEX(\"[a-z]{1,3}\") NEWLINE END",
        "",
        ["1\nto a\n", "2\nbcc abc\nto b\n"],
        ["1:27: note: REGEX: never took \"cc\""],
    ),
    Problem(
        "an edge leads to a later node, so that the last has none",
        "INT(2,5,n) SPACE INT(1,3,m) NEWLINE REP(m) INT(1,n,u) SPACE INT(u+1,n,v) NEWLINE END",
        "",
        ["2 1\n1 2\n", "5 3\n1 2\n4 5\n3 4\n"],
        # (that u is n nowhere is more than ctd-lint knows)
        ["1:44: note: INT: took 1..4 of 1..n: the greatest is never taken (2.in:3:1)"],
    ),
    Problem(
        "a word that is shorter than its pattern says",
        "REGEX(\"[a-z]{1,9}\",w) ASSERT(STRLEN(w)<=4) NEWLINE",
        "",
        ["a\n", "abcd\n"],
    ),
    Problem(
        "two neighbours of a list, of which the first has none before it",
        "INT(1,3,n) NEWLINE REPI(i,n,SPACE) INT(0,9,a[i]) ASSERT(i==0 || a[i-1]<=a[i]) END NEWLINE",
        "",
        ["1\n0\n", "3\n0 4 9\n"],
        ["1:50: note: ASSERT: never tight: a[i-1]<=a[i]"],
    ),
    Problem(
        "a queue that never both is full and gets one",
        "INT(1,4,q) NEWLINE SET(size=0) REP(q) REGEX(\"in|out\",c) IF(c==\"in\" && size<2) SET(size=size+1) END NEWLINE END",
        "",
        ["1\nin\n", "4\nout\nin\nin\nout\n"],
        ["1:57: note: IF: never decided by size<2"],
    ),
    Problem(
        "a test that a range decides",
        "INT(1,2,k) IF(k>2) SPACE INT(1,9) END NEWLINE",
        "",
        ["1\n", "2\n"],
        ["1:12: note: IF: no data make the test true"],
    ),
    Problem(
        "a test that a list of words decides: which strings a variable has ctd-lint does not know",
        "REGEX(\"add|del\",k) IF(k==\"delete\") SPACE INT(1,9) END NEWLINE",
        "",
        ["add\n", "del\n"],
        ["1:20: note: IF: the test is never true", "1:36: note: no file runs these 2 commands"],
    ),
]

# What is asked for though no data show it. (Where the goal was reached, more than one cell was found: that is more than ctd-lint knows.)
ASKED = {"docs/COOKBOOK.md:reachable.ctd": ["17:1: note: WHILE: never with one turn alone"]}

# Programs by their file, with presets that make them small, and data that try all of them.
WHOLE: dict[str, tuple[str, Sequence[str]]] = {
    "examples/testcases/input_validators/testcases.ctd": (
        "maxcases=3,maxsum=6,maxvalue=9",
        ["1\n6\n0 1 2 3 4 9\n", "3\n1\n0\n1\n9\n2\n5 6\n"],
    ),
    "examples/stack/input_validators/stack.ctd": ("maxq=4,maxvalue=9", ["1\npush -9\n", "4\npush 9\ntop\npop\npush 1\n"]),
    "docs/COOKBOOK.md:reachable.ctd": ("maxside=3", ["2 3\nS.G\n...\n", "3 2\nS#\n..\n.G\n"]),
    "docs/COOKBOOK.md:decimals.ctd": (
        "maxn=9,most=2",
        ["1\n2\n", "9\n0.000000\n0.5\n0.05\n0.1\n0.999999\n1.01\n1.001\n0\n2.0\n"],
    ),
    "docs/TUTORIAL.md:trees.ctd": (
        "maxcases=2,maxsum=6",
        ["1\n6\n1 2\n2 3\n3 4\n1 5\n6 1\n", "2\n2\n1 2\n4\n1 2\n1 3\n4 2\n", "1\n1\n"],
    ),
}


def told(program: str, presets: str, data: Sequence[str]) -> tuple[int, list[str]]:
    """The status of ctd-cover for a program and data, and its lines without the name of the program."""
    with tempfile.TemporaryDirectory() as folder:
        (Path(folder) / "p.ctd").write_text(program)
        names = [f"{number}.in" for number in range(1, len(data) + 1)]
        for name, text in zip(names, data):
            (Path(folder) / name).write_text(text)
        call = [TOP / "tools/ctd-cover", "--checker", CHECKER, *([f"--define={presets}"] if presets else []), "p.ctd", *names]
        ran = subprocess.run(call, cwd=folder, capture_output=True, text=True, check=False)
    return ran.returncode, [line.removeprefix("p.ctd:") for line in (ran.stdout + ran.stderr).splitlines()]


def faults_of(problem: Problem) -> Iterator[str]:
    status, lines = told(problem.program, problem.presets, problem.data)
    if lines[:-1] != list(problem.notes):
        yield f"asks for {lines[:-1]}, wanted {list(problem.notes)}"
    wanted = int(any("no data" not in note for note in problem.notes))
    if status != wanted:
        yield f"status {status}, wanted {wanted}"


def program_of(name: str) -> str:
    """The program of a file, or of a block of a document that writes one."""
    document, _, file = name.partition(":")
    if not file:
        return (TOP / document).read_text()
    (block,) = [block for block in blocks(TOP / document) if block.file == file]
    return block.text()


def results() -> Iterator[tuple[str, list[str]]]:
    for problem in PROBLEMS:
        yield problem.title, list(faults_of(problem))
    for name, (presets, data) in WHOLE.items():
        status, lines = told(program_of(name), presets, data)
        yield name, [] if lines[:-1] == ASKED.get(name, []) else [f"status {status}: {lines}"]


if __name__ == "__main__":
    sys.exit(print_results("jury", results()))
