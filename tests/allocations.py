#!/usr/bin/env python3
"""Runs the built checker and ctd-lint again and again, with one allocation failing after the other, and then with all from it on; and so some tests of the
crates, which show calls that no process shows.

With none failing, each command line has to end as it stands here, and each test has to pass. Each other run has to end so too, or with
`out of memory` on standard error, nothing on standard output and status 2; a test, with an error that says so. The last line counts the command
lines and tests of which each run did so, as passed, and the others.
usage: tests/allocations.py [CHECKER [LINTER]]; with CHECKER it runs no tests"""
import json
import os
import re
import subprocess
import sys
import tempfile
from collections.abc import Iterator
from dataclasses import dataclass
from pathlib import Path

from reference import limits
from reference.tool import TEXTS
from results import TOP, checker_to_test, linter_to_test, print_results


# Tests of calls that may run out of memory, in the program that `rt ci` builds of each crate of tests.
TESTS = {
    "test_syntax": ["memory::small_texts_end_in_their_answers", "tokens::bytes_are_copied_whole"],
    "test_value": [
        "calls::stores_answer_their_steps",
        "memory::a_refused_assignment_leaves_the_store_as_it_was",
        "memory::small_rows_end_in_their_answers",
        "starts::a_start_reads_nothing",
        "starts::data_of_the_greatest_limit_are_read",
    ],
    "test_tool": [
        "checks::a_plan_serves_any_number_of_checks",
        "runs::runs_end_as_the_rows_say",
        "words::words_give_settings",
    ],
}
# Of these, the tests that see how calls go on after one of them ran out of memory: only one allocation of a run fails.
RECOVERING = {"checks::a_plan_serves_any_number_of_checks"}
# How the program of a crate's tests ends where a test returns an error, and what the error is then.
FAILED_TEST = 101
NO_MEMORY = re.compile(rb"\b(AllocFailed|AllocError|Memory)\b")

# A status, and what stands on standard output and on standard error.
Left = tuple[int, bytes, bytes]
OUT_OF_MEMORY = (2, b"", b"checktestdata: out of memory\n")
FITS = (0, b"testdata ok!\n", b"")

# What asks for memory: variables of every shape, matches that are kept, large numbers, tests over arrays, and loops.
PROGRAM = rb"""
INT(1,10,n) NEWLINE
REPI(i,n,NEWLINE)
  INT(1,1000,a[i]) SPACE INT(0,9,b[i,i+1]) SPACE REGEX("[a-z]+",s[i]) SPACE STRING("x") REGEX("[a-z]*\\.",t)
END
NEWLINE
ASSERT(UNIQUE(a) && UNIQUE(s) && UNIQUE(a,s) && UNIQUE(b))
ASSERT(INARRAY(5,a) && !INARRAY("none",s))
IF(MATCH("q") && n>2) STRING("q") ELSE STRING(s[0]) END NEWLINE
SET(k="key",l[k,1]=n^70,l["other"]=l[k,1]-1,l[-5]=t) ASSERT(l["other"]<l[k,1] && STRLEN(l[-5])==STRLEN(t)) UNSET(l)
WHILEI(m,!ISEOF)
  INT(-170141183460469231731687303715884105727,170141183460469231731687303715884105727,big[n]) NEWLINE SET(n=n+1)
END
"""
RIGHT = b"3\n5 4 abc xq.\n12 5 defghijklmnopqrstuvwxyzabcdefgh xlonger.\n7 6 ghi x.\nq\n123456789012345678901234567890\n-5\n"
GRID = b"""REPI(i,3) REPI(j,4) REGEX("[.#]",g[i,j]) END NEWLINE END
ASSERT(INARRAY("#",g) && g[1,0]=="#" && !UNIQUE(g))
SET(g["corner"]=g[0,0]) ASSERT(g["corner"]==g[0,0] && g[1,0]=="#" && INARRAY("#",g))
"""
CELLS = b".#.#\n####\n....\n"
# A name of more than seven bytes takes memory of its own, wherever it stands.
LONG_NAMES = b"""INT(1,9,vertices) NEWLINE
SET(neighbour[longestname,vertices]=vertices,neighbour["nearest"]=longestname)
ASSERT(UNIQUE(neighbour) && INARRAY(longestname,neighbour) && neighbour["nearest"]==3) UNSET(neighbour,vertices)
"""
# What ctd-lint has to guess about: loops in loops, branches whose states stay apart, and a trap at the end.
LOOPS = b"""INT(1,9,n) SET(sum=0)
REPI(i,n,SPACE) INT(0,9,x) SET(sum=sum+x) WHILE(MATCH("-")) STRING("-") IF(x>5) SET(last=x) END END END
ASSERT(sum/n>last)
"""
# A loop of which a candidate tells a trap, and whose turns, taken one by one, tell none. Without memory for these the trap is no answer.
FEW_TURNS = b"SET(a[0]=1) REP(2) SET(a[0]=a[0]*9) END ASSERT(a[0]<80)"
LONG_LINE = b'REGEX("([a-z]+ )*",line) REGEX("[0-9]",digit) NEWLINE'


@dataclass(frozen=True)
class Run:
    """What a run left, and how often it asked for memory."""

    answer: Left
    asked: int


@dataclass(frozen=True)
class CommandLine:
    """Words, what the program has to leave where no allocation fails, and what where memory ran out."""

    words: list[str]
    answer: Left
    out_of_memory: Left = OUT_OF_MEMORY


def refused(text: str) -> Left:
    """What is left where there is no verdict."""
    return 2, b"", f"checktestdata: {text}\n".encode()


class Runner:
    """Runs programs with a library preloaded that lets allocations fail."""

    def __init__(self, folder: Path) -> None:
        self.told = folder / "told"
        self.library = folder / "failing_allocation.so"
        subprocess.run(["cc", "-O2", "-shared", "-fPIC", "-o", self.library, TOP / "tests/failing_allocation.c"], check=True)

    def run(self, command: list[str], first: int, goes_on: bool) -> Run:
        """A run in which the allocation of this number fails, counted from 1, or none for 0."""
        preloaded = {"LD_PRELOAD": str(self.library), "FAILS": str(first), "FAILS_TOLD": str(self.told)}
        if goes_on:
            preloaded["FAILS_ON"] = "1"
        self.told.unlink(missing_ok=True)
        ended = subprocess.run(
            command, stdin=subprocess.DEVNULL, capture_output=True, env={**os.environ, **preloaded}, check=False
        )
        asked = int(self.told.read_text()) if self.told.exists() else 0
        return Run((ended.returncode, ended.stdout, ended.stderr), asked)

    def failing(self, command: list[str], asked: int, recovers: bool = False) -> Iterator[tuple[str, Left]]:
        """What each run leaves in which an allocation fails, and which it is. A command that recovers is run with just one of them failing."""
        for goes_on in (False,) if recovers else (False, True):
            for first in range(1, asked + 1):
                yield f"allocation {first}{' and all after it' if goes_on else ''}", self.run(command, first, goes_on).answer

    def faults(self, program: Path, line: CommandLine) -> list[str]:
        """What the runs of a command line did that they should not."""
        command = [str(program), *line.words]
        whole = self.run(command, 0, False)
        faults = [] if whole.answer == line.answer else [f"with ample memory: {whole.answer}"]
        ran_out = False
        for what, answer in self.failing(command, whole.asked):
            ran_out = ran_out or answer == line.out_of_memory
            if answer not in (line.answer, line.out_of_memory):
                faults.append(f"{what}: {answer}")
        return faults if ran_out else [*faults, f"never out of memory, though asked for {whole.asked} times"]

    def faults_of_test(self, program: Path, test: str) -> list[str]:
        """What the runs of a test of a crate did that they should not."""
        command = [str(program), f"tests::{test}"]
        whole = self.run(command, 0, False)
        if whole.answer[0] != 0 or whole.asked == 0:
            return [f"with ample memory: {whole.answer}, asked for {whole.asked} times"]
        return [
            f"{what}: {answer}"
            for what, answer in self.failing(command, whole.asked, test in RECOVERING)
            if answer[0] != 0 and (answer[0] != FAILED_TEST or not NO_MEMORY.search(answer[2]))
        ]


def command_lines(folder: Path) -> dict[str, CommandLine]:
    """Command lines by what they do."""
    files = {
        "p.ctd": PROGRAM,
        "right.in": RIGHT,
        "wrong.in": RIGHT.replace(b"-5", b"-05"),
        "blanks.in": RIGHT.replace(b"5 4", b" 5 \t 4"),
        "grid.ctd": GRID,
        "grid.in": CELLS,
        "long.ctd": LONG_LINE,
        "long.in": b"word " * 10_000 + b"7\n",
        "names.ctd": LONG_NAMES,
        "names.in": b"5\n",
        "open.ctd": b"INT(1,10",
        "deep.ctd": b"ASSERT(" + b"(" * limits.NESTING,
        "bad.ctd": b'REGEX("(")',
    }
    for name, content in files.items():
        (folder / name).write_bytes(content)
    paths = {name: str(folder / name) for name in files}
    none = {name: str(folder / name) for name in ["none.ctd", "none.in"]}
    presets = ["-q", "-D", 'n=3,k="another",u=-7', paths["p.ctd"], paths["right.in"]]
    return {
        "data that fit": CommandLine([paths["p.ctd"], paths["right.in"]], FITS),
        "data that do not fit": CommandLine(
            [paths["p.ctd"], paths["wrong.in"]], (1, b"line 7 column 1: integer with minus zero (program line 12 column 3)\n", b"")
        ),
        "data that fit but for blanks": CommandLine(["-w", paths["p.ctd"], paths["blanks.in"]], FITS),
        "presets, quietly": CommandLine(presets, (0, b"", b"")),
        "a grid beside a map": CommandLine([paths["grid.ctd"], paths["grid.in"]], FITS),
        "a long match that is kept": CommandLine([paths["long.ctd"], paths["long.in"]], FITS),
        "long names, one of them preset": CommandLine(["-D", "longestname=3", paths["names.ctd"], paths["names.in"]], FITS),
        "a program that breaks off": CommandLine([paths["open.ctd"], paths["right.in"]], refused("program line 1 column 9: syntax error")),
        "a program that nests too deeply": CommandLine(
            [paths["deep.ctd"], paths["right.in"]], refused(f"program line 1 column {7 + limits.NESTING}: nested too deeply")
        ),
        "a bad pattern": CommandLine([paths["bad.ctd"], paths["right.in"]], refused("program line 1 column 7: bad pattern")),
        "a program that is not there": CommandLine([none["none.ctd"], paths["right.in"]], refused(f"cannot open {none['none.ctd']}")),
        "data that are not there": CommandLine([paths["p.ctd"], none["none.in"]], refused(f"cannot open {none['none.in']}")),
        "a bad preset": CommandLine(["-D", "n", paths["p.ctd"], paths["right.in"]], refused("bad preset")),
        "help": CommandLine(["--help"], (0, TEXTS["help"], b"")),
        "an option that is not known": CommandLine(["--lines"], refused("bad arguments\nTry 'checktestdata --help'.")),
    }


def lint_lines(folder: Path) -> dict[str, CommandLine]:
    """Command lines of ctd-lint by what they do."""
    (folder / "false.ctd").write_bytes(b"INT(1,9,longestname) ASSERT(1==2)")
    (folder / "loops.ctd").write_bytes(LOOPS)
    (folder / "turns.ctd").write_bytes(FEW_TURNS)
    names = {name: str(folder / name) for name in ["false.ctd", "loops.ctd", "turns.ctd", "open.ctd", "none.ctd"]}
    loops, turns = names["loops.ctd"], names["turns.ctd"]
    trap = f"{loops}:3:1: risk: may be without a value here: last [no-value-here]\n{loops}: places that may stop a run without a verdict: at most 1\n".encode()
    finding = f"{names['false.ctd']}:1:22: warning: the test is false whatever the data are [always-false]\n".encode()
    objects: list[dict[str, str | int]] = [
        {"line": 1, "column": 1, "rank": "note", "kind": "unread", "text": "nothing reads this variable", "name": "longestname"},
        {"line": 1, "column": 22, "rank": "warning", "kind": "always-false", "text": "the test is false whatever the data are"},
        {"line": 1, "column": 22, "rank": "never", "kind": "goes-on"},
        {"line": 1, "column": 22, "rank": "never", "kind": "is-true"},
        {"rank": "verdict", "text": "every data file gets a verdict"},
    ]
    as_json = "".join(json.dumps({"file": names["false.ctd"], **said}, separators=(",", ":")) + "\n" for said in objects).encode()
    unopened = json.dumps({"file": names["none.ctd"], "rank": "error", "text": "cannot open"}, separators=(",", ":")).encode() + b"\n"
    lines: dict[str, tuple[list[str], Left]] = {
        "findings": (["--ignore=unread,caret", "-D", "longestname=3", names["false.ctd"]], (1, finding, b"")),
        "traps": (["--verdicts", loops], (1, trap, b"")),
        "findings as JSON": (["--json", names["false.ctd"]], (1, as_json, b"")),
        "a program that is not there, as JSON": (["--json", names["none.ctd"]], (2, unopened, b"")),
        "turns one by one": (["--verdicts", turns], (0, f"{turns}: every data file gets a verdict\n".encode(), b"")),
        "a program that is refused": ([names["open.ctd"]], (2, b"", f"{names['open.ctd']}:1:9: error: syntax error: expected , or ) or an operator\n".encode())),
        "a program that is not there": ([names["none.ctd"]], (2, b"", f"{names['none.ctd']}: error: cannot open\n".encode())),
        "a kind that there is not": (["--ignore=caret,longestname", names["false.ctd"]], (2, b"", b"ctd-lint: unknown kind: longestname\n")),
        "a bad preset": (["-D", "n", names["false.ctd"]], (2, b"", b"ctd-lint: bad preset\n")),
        "the version": (["--version"], (0, b"ctd-lint 1.0 (whole-number profile)\n", b"")),
    }
    return {what: CommandLine(*line, (2, b"", b"ctd-lint: out of memory\n")) for what, line in lines.items()}


def all_results(program: Path, linter: Path, tests: bool) -> Iterator[tuple[str, list[str]]]:
    """What the runs did that they should not, by what was run."""
    with tempfile.TemporaryDirectory() as name:
        runner = Runner(Path(name))
        for what, line in command_lines(Path(name)).items():
            yield what, runner.faults(program, line)
        for what, line in lint_lines(Path(name)).items():
            yield f"ctd-lint: {what}", runner.faults(linter, line)
        for crate, names in TESTS.items() if tests else []:
            for test in names:
                yield f"{crate} {test}", runner.faults_of_test(TOP / f"crates/{crate}/out/{crate}_tests", test)


if __name__ == "__main__":
    sys.exit(print_results("allocations", all_results(checker_to_test(), linter_to_test(), tests=len(sys.argv) == 1)))
