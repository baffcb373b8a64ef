#!/usr/bin/env python3
"""Runs ctd-validate, and ctd-mutate --against with second validators in Python, with the built checker. What they write is compared with texts
that were worked out by hand.

The last line counts what passed and failed. usage: tests/validators.py [PROGRAM]"""
from __future__ import annotations

import importlib.util
import shutil
import subprocess
import sys
import unittest
from collections.abc import Sequence
from dataclasses import dataclass

from companions import CHECKER, OUT_OF_TIME, TOOLS, CompanionTest
from results import run_unit_tests

sys.path.insert(0, str(TOOLS))
from ctd_reduce import Reduction  # noqa: E402

NUMBERS = "SET(maxn=1000)\nINT(1,maxn,n) NEWLINE\nREP(n,SPACE) INT(0,9) END\nNEWLINE\n"


class Validate(CompanionTest):
    tool = "ctd-validate"

    def setUp(self) -> None:
        super().setUp()
        self.write("numbers.ctd", NUMBERS)

    def test_statuses_and_flags(self) -> None:
        for words, data, status, out in [
            ([], "2\n7 1\n", 42, "testdata ok!\n"),
            ([], "2\n7 x\n", 43, "line 2 column 3: expected an integer (program line 3 column 14)\n"),
            ([], "", 43, "line 1 column 1: expected an integer (program line 2 column 1)\n"),
            (["maxn=1"], "2\n7 1\n", 43, "line 1 column 1: value out of range (program line 2 column 1)\n"),
            (["-D", "maxn=1"], "1\n7\n", 42, "testdata ok!\n"),
            (["-w", "maxn=2"], " 2\n7  1\n", 42, "testdata ok!\n"),
        ]:
            with self.subTest(words=words, data=data):
                self.assert_run(status, out, "numbers.ctd", *words, stdin=data.encode())

    def test_no_verdict(self) -> None:
        self.write("open.ctd", "INT(1,10")
        for words, told in [
            (["open.ctd"], "checktestdata: program line 1 column 9: syntax error"),
            (["none.ctd"], "checktestdata: cannot open none.ctd"),
            (["numbers.ctd", "--max-steps=1"], "checktestdata: line 1 column 1: step limit reached (program line 2 column 1)"),
            (["numbers.ctd", "--none"], "ctd-validate: numbers.ctd: input_validator_flags: --none is no option of checktestdata and no preset"),
            (["--feedback", "numbers.ctd/x", "numbers.ctd"], "ctd-validate: numbers.ctd/x: Not a directory"),
        ]:
            with self.subTest(words):
                ran = self.run_tool(*words, stdin=b"2\n7 1\n")
                self.assertEqual((ran.returncode, ran.stdout, ran.stderr.decode()), (2, b"", f"{told}\n"))

    def test_feedback(self) -> None:
        shown = (
            "-: line 1 column 1: value out of range (program line 2 column 1)\n"
            "      1 | 2\n"
            "        | ^\n"
            "numbers.ctd:\n"
            "      2 | INT(1,maxn,n) NEWLINE\n"
            "        | ^\n"
            "value out of range: 2; bounds 1 .. maxn = 1\n"
        )
        for flag, status, text in [("maxn=1", 43, shown), ("maxn=2", 42, "-: testdata ok!\n")]:
            self.assert_run(status, text, "--feedback", "out/feedback", "numbers.ctd", flag, stdin=b"2\n7 1\n")
            self.assertEqual((self.folder / "out/feedback/judgemessage.txt").read_text(), text)

    def test_streams_that_are_closed_or_full(self) -> None:
        call = f"{TOOLS}/ctd-validate --checker {CHECKER}"
        for rest, told in [
            ("numbers.ctd >&- </dev/null", "ctd-validate: standard output is closed"),
            ("--feedback f numbers.ctd >/dev/full </dev/null", "ctd-validate: No space left on device"),
            ("numbers.ctd <&-", "checktestdata: line 1 column 1: read failed (program line 2 column 1)"),
        ]:
            with self.subTest(rest):
                ran = self.run_shell(f"{call} {rest}")
                self.assertEqual((ran.returncode, ran.stdout, ran.stderr.decode()), (2, b"", f"{told}\n"))

    def test_the_wrapper_of_the_man_page(self) -> None:
        self.write("validate.sh", f'#!/bin/sh\nexec {TOOLS}/ctd-validate --checker {CHECKER} "$(dirname "$0")/numbers.ctd" "$@"\n')
        ran = subprocess.run(["sh", "./validate.sh", "maxn=1"], cwd=self.folder, input=b"2\n", capture_output=True, timeout=OUT_OF_TIME, check=False)
        self.assertEqual(ran.returncode, 43)


# How a second validator begins: it knows the form of a line of numbers as well as the program does.
READING = """import re, sys
def numbers(line, low, high):
    found = [int(one) for one in line.split(" ") if re.fullmatch("0|[1-9][0-9]?", one)]
    if " ".join(map(str, found)) != line or not all(low <= one <= high for one in found):
        sys.exit("wrong form")
    return found
text = sys.stdin.buffer.read().decode("latin-1")
lines = text.split("\\n")
if lines.pop():
    sys.exit("no line feed at the end")
"""


@dataclass(frozen=True)
class Mistake:
    """What is mistaken for what in a right program, a validator in Python behind READING, right data, the kind of change that tells the mistake,
    and what is told of one such file."""

    wrong: tuple[str, str]
    right: str
    validator: str
    data: Sequence[str]
    kind: str
    told: str


MISTAKES = {
    "|| for &&": Mistake(
        ("&&", "||"),
        "INT(0,9,a) SPACE INT(0,9,b) NEWLINE ASSERT(a<8 && b<8)",
        "if len(lines) != 1 or len(numbers(lines[0], 0, 7)) != 2: sys.exit('not two numbers')",
        ["7 7\n", "0 3\n"],
        "above-next",
        # the least a that the validator rejects, and the least b
        r'1.in:1: "7·7\n" → "8·7\n": reduced to "8·0\n": wrong form',
    ),
    "a sum that is reset in each case": Mistake(
        ("SET(sum=0) REP(t)", "REP(t) SET(sum=0)"),
        "INT(1,9,t) NEWLINE SET(sum=0) REP(t) INT(1,9,n) NEWLINE REP(n,SPACE) INT(1,9,x) SET(sum=sum+x) END NEWLINE ASSERT(sum<=10) END",
        """
[cases] = numbers(lines.pop(0), 1, 9) if lines else [0]
total = 0
for case in range(cases):
    if len(lines) < 2: sys.exit("too short")
    [count], row = numbers(lines[0], 1, 9), numbers(lines[1], 1, 9)
    if count != len(row): sys.exit("wrong count")
    total, lines = total + sum(row), lines[2:]
if lines or not cases or total > 10: sys.exit("the sum is too large")
""",
        ["2\n2\n1 4\n1\n5\n"],
        "above-next",
        # 5 + 4 + 5 is above 10, and 2 is the least first number for which it is
        r'1.in:3: "1·4\n" → "5·4\n": reduced to "2\n2\n2·4\n1\n5\n": the sum is too large',
    ),
    "the last turn of a ring is left out": Mistake(
        ("a[(i+1)%n]", "a[(i+1)%n] || i==n-1"),
        "INT(3,9,n) NEWLINE REPI(i,n,SPACE) INT(0,9,a[i]) END NEWLINE REPI(i,n) ASSERT(a[i]!=a[(i+1)%n]) END",
        """
if len(lines) != 2: sys.exit("not two lines")
[count], row = numbers(lines[0], 3, 9), numbers(lines[1], 0, 9)
if count != len(row) or any(one == row[i - 1] for i, one in enumerate(row)): sys.exit("neighbours are equal")
""",
        ["4\n1 2 3 4\n"],
        "as-first",
        # one of the four goes, and of the three the one between the two that are equal becomes 0
        r'1.in:2: "1·2·3·4\n" → "1·2·3·1\n": reduced to "3\n1·0·1\n": neighbours are equal',
    ),
    "a<=b for a<b": Mistake(
        ("a<b", "a<=b"),
        "INT(1,9,a) SPACE INT(1,9,b) NEWLINE ASSERT(a<b)",
        """
if len(lines) != 1: sys.exit("not one line")
row = numbers(lines[0], 1, 9)
if len(row) != 2 or row[0] >= row[1]: sys.exit("a is not below b")
""",
        ["1 2\n", "8 9\n"],
        "as-next",
        r'1.in:1: "1·2\n" → "2·2\n": reduced to "2·2\n": a is not below b',
    ),
}


class Against(CompanionTest):
    tool = "ctd-mutate"

    def setUp(self) -> None:
        super().setUp()
        self.write("number.ctd", "INT(1,10) NEWLINE")
        self.write("1.in", "5\n")

    def told(self, *words: str) -> tuple[int, list[str]]:
        """The status, and the lines from those of the second opinion on."""
        ran = self.run_tool(*words)
        self.assertEqual(ran.stderr, b"")
        lines = ran.stdout.decode().splitlines()
        return ran.returncode, lines[1 + max(number for number, line in enumerate(lines) if " made, " in line) :]

    def test_mistakes_that_a_second_validator_tells(self) -> None:
        for title, mistake in MISTAKES.items():
            right, wrong = mistake.wrong
            self.assertIn(right, mistake.right)
            self.write("right.ctd", mistake.right)
            self.write("wrong.ctd", mistake.right.replace(right, wrong))
            self.write("second.py", READING + mistake.validator)
            for number, text in enumerate(mistake.data, start=1):
                self.write(f"{number}.in", text)
            names = [f"{number}.in" for number in range(1, len(mistake.data) + 1)]
            with self.subTest(title):
                call = ["--only", f"{mistake.kind},plus", "-n", "5", "--against", "second.py"]
                status, lines = self.told(*call, "wrong.ctd", *names)
                self.assertEqual((status, lines[0]), (1, "wrong.ctd accepts, second.py rejects"))
                self.assertIn(f"  {mistake.told}", lines)
                status, lines = self.told(*call, "right.ctd", *names)
                self.assertEqual((status, [line.partition(" agree, ")[2] for line in lines]), (0, ["0 disagree, 0 without verdict"]))

    def test_what_the_other_may_end_with(self) -> None:
        accepts, rejects, none = "", "number.ctd accepts, {} rejects", "number.ctd accepts, {} has no verdict"
        for script, title, told in [
            ("exit 0", accepts, ""),
            ("exit 42", accepts, ""),
            ("echo why; exit 1", rejects, ": why"),
            ("exit 43", rejects, ""),
            ("echo 'FAIL Expected EOLN' >&2; exit 3", rejects, ": FAIL Expected EOLN"),
            ("exit 2", none, ": ended with status 2"),
            ("kill -SEGV $$", none, ": ended by SIGSEGV"),
            ("echo no such file >&2; exit 127", none, ": ended with status 127: no such file"),
            ("sleep 60 & sleep 60", none, ": no answer after 1 seconds"),
            ("echo 'Traceback (most recent call last):' >&2; echo 'ValueError: x' >&2; exit 1", none, ": crashed: ValueError: x"),
            ("echo 'Traceback (most recent call last):' >&2; echo 'AssertionError: x' >&2; exit 1", rejects, ": AssertionError: x"),
        ]:
            with self.subTest(script):
                self.write("second.sh", f'read -r n || exit 1\n[ "$n" = 5 ] || [ "$n" = 9 ] || exit 1\n{script}\n')
                # of the changes one alone fits the program
                self.write("1.in", "5\n")
                status, lines = self.told("--only", "letter-case,plus", "--timeout", "1", "--against", "sh second.sh", "number.ctd", "1.in")
                compared = "against sh second.sh: 2 compared"
                if title == accepts:
                    self.assertEqual((status, lines), (0, [f"{compared}, 2 agree, 0 disagree, 0 without verdict"]))
                    continue
                counts = "1 disagree, 0 without verdict" if title == rejects else "0 disagree, 1 without verdict"
                small = r': reduced to "1\n"' if title == rejects else ""
                first = f"  1.in: as it is{small}"
                self.assertEqual((status, lines[0], lines[-1]), (1, title.format("sh second.sh"), f"{compared}, 1 agree, {counts}"))
                self.assertTrue(lines[1].startswith(first), lines)
                self.assertTrue(title == rejects or lines[1] == first + told, lines)

    def test_a_file_by_its_name(self) -> None:
        self.write("second.sh", 'read -r n <"$1" && [ "$n" -le 5 ] && ! read -r from_input')
        status, lines = self.told("--only", "plus", "--against", "sh second.sh {}", "number.ctd", "1.in")
        # (the shell takes +5 for a number)
        wanted = ["number.ctd rejects, sh second.sh {} accepts", r'  1.in:1: "5\n" → "+5\n": reduced to "+5\n"']
        self.assertEqual((status, lines), (1, [*wanted, "against sh second.sh {}: 2 compared, 1 agree, 1 disagree, 0 without verdict"]))

    def test_another_program(self) -> None:
        self.write("wide.ctd", "SET(maxn=10) INT(0,maxn) NEWLINE")
        status, lines = self.told("--only", "zero", "--against", "wide.ctd", "number.ctd", "1.in")
        wanted = ["number.ctd rejects, wide.ctd accepts", r'  1.in:1: "5\n" → "0\n": reduced to "0\n"']
        self.assertEqual((status, lines), (1, [*wanted, "against wide.ctd: 2 compared, 1 agree, 1 disagree, 0 without verdict"]))
        status, lines = self.told("--only", "plus", "--keep", "kept", "--against", "wide.ctd maxn=4", "number.ctd", "1.in")
        told = "line 1 column 1: value out of range (program line 1 column 14)"
        # from 5 on, numbers fit the program alone
        wanted = ["number.ctd accepts, wide.ctd maxn=4 rejects", '  1.in: as it is: reduced to "5\\n": value out of range']
        self.assertEqual((status, lines[:2]), (1, wanted), told)
        self.assertEqual({path.name: path.read_text() for path in (self.folder / "kept").iterdir()}, {"1.in": "5\n"})

    def test_few_are_listed_of_many(self) -> None:
        # each number of the line can be below 1, where the other accepts all
        self.write("line.ctd", "REP(8,SPACE) INT(1,9) END NEWLINE")
        self.write("1.in", "1 2 3 4 5 6 7 8\n")
        call = ["--only", "zero,minus-one,plus", "-n", "3", "--against", "sh -c :", "line.ctd", "1.in"]
        status, lines = self.told(*call)
        self.assertEqual((status, lines[0], lines[-2]), (1, "line.ctd rejects, sh -c : accepts", "  and 4 more"))
        self.assertEqual(lines[-1], "against sh -c :: 10 compared, 1 agree, 9 disagree, 0 without verdict")
        self.assertNotIn("more", "".join(self.told("-a", *call)[1]))

    def test_a_large_file_is_not_reduced(self) -> None:
        self.write("long.ctd", "REP(600000) INT(0,9) NEWLINE END")
        self.write("1.in", "7\n" * 600_000)
        status, lines = self.told("--only", "no-last-newline", "--keep", "kept", "--against", "sh -c :", "long.ctd", "1.in")
        self.assertEqual((status, lines[1]), (1, r'  1.in:600000: "7\n" → "7"'))
        self.assertEqual((self.folder / "kept/1.no-last-newline.1.in").stat().st_size, 1_199_999)

    def test_commands_that_cannot_be_run(self) -> None:
        self.write("text", "")
        self.write("open.ctd", "INT(1,10")
        for command, told in [
            ("none", "none: no such command"),
            ("./text", "./text: cannot be run"),
            ("'", "': No closing quotation"),
            ("", "the command is empty"),
            ("none.ctd", "none.ctd: checktestdata: cannot open none.ctd"),
            ("open.ctd", "open.ctd: checktestdata: program line 1 column 9: syntax error"),
            ("number.ctd --none", "number.ctd: input_validator_flags: --none is no option of checktestdata and no preset"),
        ]:
            with self.subTest(command):
                ran = self.run_tool("--against", command, "number.ctd", "1.in")
                self.assertEqual((ran.returncode, ran.stdout, ran.stderr.decode()), (2, b"", f"ctd-mutate: {told}\n"))


class Packages(CompanionTest):
    """ctd-package with several validators."""

    tool = "ctd-package"
    # A validator that takes the greatest number as a flag.
    SECOND = """import sys
greatest = 10
for flag in sys.argv[1:]:
    if flag != "-D":
        greatest = int(flag.partition("=")[2])
line = open(0, newline="").read()
number = int(line)
if line != f"{number}\\n":
    sys.exit("wrong form")
if not 1 <= number <= greatest:
    print("too large", file=sys.stderr)
    sys.exit(43)
sys.exit(42)
"""

    def setUp(self) -> None:
        super().setUp()
        self.put({"input_validators/n.ctd": "SET(maxn=10) INT(1,maxn) NEWLINE", "data/sample/1.in": "10\n"})

    def put(self, files: dict[str, str]) -> None:
        for name, text in files.items():
            path = self.folder / "p" / name
            path.parent.mkdir(parents=True, exist_ok=True)
            path.write_text(text)

    def told(self, *words: str) -> tuple[int, list[str]]:
        """The status, and the lines but those of ctd-lint and ctd-cover."""
        ran = self.run_tool(*words, "p")
        self.assertEqual(ran.stderr, b"")
        return ran.returncode, [line for line in ran.stdout.decode().splitlines() if not line.startswith(("ctd-lint: ", "ctd-cover: "))]

    def test_both_agree(self) -> None:
        # (what is no number is 0 here, and then of a wrong form)
        self.put({"input_validators/second.py": self.SECOND.replace("int(line)", "int(line) if line.strip().isascii() and line.strip().isdigit() else 0")})
        status, lines = self.told()
        self.assertEqual((status, len(lines), lines[-1]), (0, 2, "2 checked, 2 as they have to be, 0 not"))
        told = "ctd-mutate: input_validators/n.ctd: against input_validators/second.py: "
        self.assertRegex(lines[0], rf"^{told}(\d+) compared, \1 agree, 0 disagree, 0 without verdict$")

    @unittest.skipUnless(importlib.util.find_spec("yaml"), "PyYAML is not there")
    def test_what_the_other_rejects(self) -> None:
        self.put({"input_validators/second.py": self.SECOND, "data/invalid_inputs/word.in": "x\n", "data/invalid_inputs/large.in": "11\n"})
        self.put({"data/secret/testdata.yaml": "input_validator_flags: maxn=20", "data/secret/1.in": "20\n"})
        self.put({"data/secret/small/testdata.yaml": "input_validator_flags: -D maxn=5", "data/secret/small/1.in": "6\n"})
        status, lines = self.told()
        wanted = [
            "data/secret/small/1.in (--define=maxn=5): line 1 column 1: value out of range (program line 1 column 14)",
            "data/secret/small/1.in (--define=maxn=5): input_validators/second.py: too large",
            "data/invalid_inputs/word.in: has to be rejected, and has no verdict: crashed: ValueError: invalid literal for int() with base 10: 'x\\\\n'",
        ]
        self.assertEqual((status, lines[:3], lines[-1]), (2, wanted, "8 checked, 5 as they have to be, 3 not"))

    def test_one_of_them_may_reject_an_invalid_input(self) -> None:
        self.put({"input_validators/n.ctd": "INT(1,99) NEWLINE", "input_validators/second.py": self.SECOND, "data/invalid_inputs/large.in": "11\n"})
        status, lines = self.told()
        # (that they share the work has to be said)
        self.assertEqual((status, lines[-1]), (1, "3 checked, 3 as they have to be, 0 not"))
        status, lines = self.told("--may-disagree")
        self.assertEqual((status, lines[-1]), (0, "3 checked, 3 as they have to be, 0 not"))

    def test_what_they_do_not_agree_on(self) -> None:
        self.put({"input_validators/n.ctd": "INT(1,99) SPACE INT(1,99) NEWLINE", "data/sample/1.in": "10 10\n"})
        self.put({"input_validators/run.py": "import sys\na, b = map(int, sys.stdin.read().split(' '))\nsys.exit(42 if a < 11 and b < 11 else 43)\n"})
        status, lines = self.told()
        self.assertEqual((status, lines[0]), (1, "input_validators/n.ctd accepts, input_validators/run.py rejects"))
        self.assertIn(r'  data/sample/1.in:1: "10·10\n" → "11·10\n": reduced to "11·1\n"', lines)
        self.assertEqual(self.told("--may-disagree")[0], 0)

    def test_a_wrapper_finds_the_checker(self) -> None:
        self.put({"input_validators/validate.sh": '#!/bin/sh\nexec ctd-validate "$(dirname "$0")/n.ctd" "$@"\n'})
        (self.folder / "p/input_validators/validate.sh").chmod(0o755)
        status, lines = self.told()
        self.assertEqual((status, lines[-1]), (0, "2 checked, 2 as they have to be, 0 not"))
        self.assertIn(" 0 disagree, 0 without verdict", lines[0])

    @unittest.skipUnless(shutil.which("cc") and shutil.which("make"), "there is no C compiler, or no make")
    def test_sources(self) -> None:
        program = '#include <stdio.h>\n#include "limit.h"\nint main(void) { int n; return scanf("%d", &n) == 1 && n <= LIMIT ? 42 : 43; }\n'
        self.put({"input_validators/second.c": program, "input_validators/limit.h": "#define LIMIT 9\n"})
        self.put({"input_validators/third/run": "#!/bin/sh\nexit 43\n", "input_validators/README": ""})
        self.put({"input_validators/a.java": "", "input_validators/b.c": "x"})
        (self.folder / "p/input_validators/third/run").chmod(0o755)
        status, lines = self.told()
        wanted = ["data/sample/1.in: input_validators/second.c: rejected", "data/sample/1.in: input_validators/third: rejected"]
        self.assertEqual((status, lines[:2], lines[2]), (2, wanted, "ctd-mutate: input_validators/a.java: left out: it has to be compiled"))
        self.assertTrue(lines[3].startswith("ctd-mutate: input_validators/b.c: left out: it cannot be compiled: "), lines[3])
        self.assertIn('  data/sample/1.in: as it is: reduced to "10\\n"', lines)


class Reductions(unittest.TestCase):
    """What is left of data, by a test in place of two validators."""

    def test_cuts(self) -> None:
        def counts(number: bytes, words: float) -> bool:
            return number.isdigit() and int(number) == words

        for data, is_like, least in [
            (b"1\n2\n3\n", lambda data, words: b"3" in data, b"3"),
            (b"a b x c\nd\n", lambda data, words: b"x" in data, b"x"),
            # the count goes down with the words that it counts
            (b"5\n1 2 3 4 5\n", lambda data, words: counts(words[0], len(words) - 1) and data.endswith(b" 5\n"), b"2\n0 5\n"),
            # two lines make up one of three cases
            (b"3\n1\nx\n1\ny\n1\nx\n", lambda data, words: counts(words[0], (len(words) - 1) / 2) and b"1\ny\n" in data, b"1\n1\ny\n"),
            (b"hello\n", lambda data, words: b"l" in data, b"l"),
            (b"5 hello\n", lambda data, words: counts(words[0], len(words[1])) and b"h" in data, b"1 h"),
            (b"1000000 -77\n", lambda data, words: int(words[0]) >= 123 and int(words[1]) <= -5, b"123 -5"),
        ]:
            with self.subTest(data):
                least_words = 2 if b" " in least or b"\n" in least else 1

                def is_kept(smaller: bytes) -> bool:
                    return len(smaller.split()) >= least_words and is_like(smaller, smaller.split())

                self.assertTrue(is_kept(data))
                self.assertEqual(Reduction(data, is_kept).whole().strip(), least.strip())

    def test_one_case_of_many(self) -> None:
        def has_cases(data: bytes) -> bool:
            first, *lines = data.split(b"\n")
            cases = list(zip(lines[0:-1:2], lines[1:-1:2]))
            is_right = all(count == b"%d" % len(row.split()) for count, row in cases)
            return data.endswith(b"\n") and len(lines) % 2 == 1 and first == b"%d" % len(cases) and is_right and b"99" in data.split()

        rows = [b" ".join([b"7"] * (1 + case % 5)) for case in range(500)]
        rows[321] = b"7 99 7"
        data = b"%d\n" % len(rows) + b"".join(b"%d\n%b\n" % (len(row.split()), row) for row in rows)
        self.assertTrue(has_cases(data))
        self.assertEqual(Reduction(data, has_cases).whole(), b"1\n1\n99\n")

    def test_questions_are_bounded(self) -> None:
        asked: list[bytes] = []
        # of 60,000 bytes each question counts twice, and once where fewer than 32,768 are left
        data = b"1 2 3\n" * 10_000
        self.assertEqual(Reduction(data, lambda smaller: bool(asked.append(smaller)), left=50).whole(), data)
        # (the last of them may count for more than is left)
        self.assertIn(sum(1 + len(smaller) // 32768 for smaller in asked), (50, 51))
        self.assertEqual(len(asked), len(set(asked)))


if __name__ == "__main__":
    sys.exit(run_unit_tests("validators"))
