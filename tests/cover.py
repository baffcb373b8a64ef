#!/usr/bin/env python3
"""Runs ctd-cover with the built checker. What it says is compared with texts that were worked out by hand, and on examples with the least
and greatest values that other readers of the data find.

The last line counts what passed and failed. usage: tests/cover.py [PROGRAM]"""
from __future__ import annotations

import importlib.util
import os
import shutil
import subprocess
import sys
import unittest
from collections.abc import Callable, Sequence
from pathlib import Path

from companions import CompanionTest
from reference import limits
from results import TOP, checker_to_test, run_unit_tests

sys.path.insert(0, str(TOP / "tools"))
from ctd_companion import Checker, DataFile  # noqa: E402
from ctd_untried import Coverage, cover, rows  # noqa: E402

CHECKER = checker_to_test()
JOBS = min(os.cpu_count() or 1, 4)


class Cover(CompanionTest):
    tool = "ctd-cover"

    def told(self, program: str, *data: str, words: Sequence[str] = ()) -> tuple[int, list[str]]:
        """The status and the lines for a program and data, without the name of the program."""
        self.write("p.ctd", program)
        for number, text in enumerate(data, start=1):
            self.write(f"{number}.in", text)
        ran = self.run_tool(*words, "p.ctd", *(f"{number}.in" for number in range(1, len(data) + 1)))
        self.assertEqual(ran.stderr, b"")
        return ran.returncode, [line.removeprefix("p.ctd:") for line in ran.stdout.decode().splitlines()]

    def test_both_bounds_are_taken(self) -> None:
        self.assertEqual(self.told("INT(1,9) NEWLINE", "1\n", "9\n"), (0, ["1 command watched in 2 files, 0 not fully tried"]))

    def test_a_bound_that_is_never_taken(self) -> None:
        for data, what in [
            (("1\n", "8\n"), "took 1..8 of 1..9: the greatest is never taken (2.in:1:1)"),
            (("9\n", "2\n"), "took 2..9 of 1..9: the least is never taken (2.in:1:1)"),
            (("5\n", "2\n"), "took 2..5 of 1..9: neither bound is ever taken (2.in:1:1, 1.in:1:1)"),
        ]:
            self.assertEqual(self.told("INT(1,9) NEWLINE", *data)[1][0], f"1:1: note: INT: {what}")

    def test_a_bound_that_is_another_variable(self) -> None:
        program = "INT(1,9,n) SPACE INT(n,2*n) NEWLINE"
        self.assertEqual(self.told(program, "1 1\n", "9 17\n")[1][0], "1:18: note: INT: took 1..17 of n..2*n: the greatest is never taken (2.in:1:3)")
        self.assertEqual(self.told(program, "1 1\n", "9 18\n")[0], 0)

    def test_a_bound_that_names_the_variable_itself(self) -> None:
        program = "INT(1,9,n) SPACE INT(1,n,n) NEWLINE"
        self.assertEqual(self.told(program, "1 1\n", "9 9\n")[0], 0)
        told = "1:18: note: INT: took 1..8 of 1..n: the greatest is never taken (2.in:1:3)"
        self.assertEqual(self.told(program, "2 1\n", "9 8\n")[1][1], told)

    def test_a_limit_with_a_name(self) -> None:
        program = "SET(most=10^9) INT(-most,most) NEWLINE"
        told = "1:16: note: INT: took -1000000000..999999999 of -1000000000..1000000000: the greatest is never taken (2.in:1:1)"
        self.assertEqual(self.told(program, "-1000000000\n", "999999999\n")[1][0], told)

    def test_a_preset_is_a_limit(self) -> None:
        self.assertEqual(self.told("SET(most=10) INT(1,most) NEWLINE", "1\n", "5\n", words=["-D", "most=5"])[0], 0)
        self.assertEqual(self.told("SET(most=10) INT(1,most) NEWLINE", "1\n", "5\n")[0], 1)

    def test_the_spot_is_that_of_the_number(self) -> None:
        program = "INT(0,99) SPACE INT(0,99) NEWLINE INT(-50,50) NEWLINE"
        status, lines = self.told(program, "10 20\n-33\n", words=["--table"])
        self.assertEqual((status, lines[1:-1]), (1, [
            "1:1    INT(0,99)    10 (1.in:1:1) .. 10 (1.in:1:1) of 0..99      neither bound is ever taken",
            "1:17   INT(0,99)    20 (1.in:1:4) .. 20 (1.in:1:4) of 0..99      neither bound is ever taken",
            "1:35   INT(-50,50)  -33 (1.in:2:1) .. -33 (1.in:2:1) of -50..50  neither bound is ever taken",
        ]))  # fmt: skip

    def test_digits_that_another_command_took(self) -> None:
        # a digit that STRING takes stands right before the number
        program = 'REP(3,NEWLINE) STRING("7") INT(0,50) END NEWLINE'
        status, lines = self.told(program, "720\n70\n750\n", words=["-t"])
        self.assertEqual(lines[2], "1:28   INT(0,50)  0 (1.in:2:2) .. 50 (1.in:3:2) of 0..50")

    def test_numbers_of_any_size(self) -> None:
        least = "-170141183460469231731687303715884105727-1"
        program = f"INT({least},2^126-1+2^126) NEWLINE"
        self.assertEqual(self.told(program, "-170141183460469231731687303715884105728\n", "170141183460469231731687303715884105727\n")[0], 0)

    def test_many_records(self) -> None:
        # each number is greater than those before it, and then each is less
        rising = "".join(f"{number}\n" for number in [*range(100, 200), *range(99, 1, -1)])
        status, lines = self.told("REP(198) INT(0,1000) NEWLINE END", rising, words=["-t"])
        self.assertEqual(lines[2], "1:10   INT(0,1000)  2 (1.in:198:1) .. 199 (1.in:100:1) of 0..1000  neither bound is ever taken")

    def test_a_test_that_is_never_true_or_false(self) -> None:
        program = 'INT(1,2,n) NEWLINE IF(n==1) STRING("a") ELSE STRING("b") STRING("c") END'
        self.assertEqual(self.told(program, "1\na", "2\nbc")[0], 0)
        self.assertEqual(self.told(program, "1\na")[1][1:3], ["1:20: note: IF: the test is never false", "1:46: note: no file runs these 2 commands"])
        self.assertEqual(self.told(program, "2\nbc")[1][1:3], ["1:20: note: IF: the test is never true", "1:29: note: no file runs this command"])

    def test_a_choice_without_else(self) -> None:
        program = "INT(1,2,n) IF(n==1) NEWLINE END"
        self.assertEqual(self.told(program, "1\n", "2")[0], 0)
        self.assertEqual(self.told(program, "1\n")[1][1], "1:12: note: IF: the test is never false")

    def test_turns_of_a_loop(self) -> None:
        program = "INT(0,9,n) REP(n) NEWLINE END"
        self.assertEqual(self.told(program, "0", "1\n", "9" + 9 * "\n")[0], 0)
        self.assertEqual(self.told(program, "0", "9" + 9 * "\n")[1][0], "1:12: note: REP: never with one turn alone")
        self.assertEqual(self.told(program, "0", "1\n")[1][1], "1:12: note: REP: never with more than one turn")
        self.assertEqual(self.told(program, "1\n", "9" + 9 * "\n")[1][1], "1:12: note: REP: never without a turn")

    def test_words_that_are_called_as_other_things_are(self) -> None:
        status, lines = self.told('REGEX("least|true|low",s) NEWLINE', "least\n", words=["-t"])
        self.assertEqual(lines[1], '1:1    REGEX("least|true|low",s)  5 (1.in:1:6) .. 5 (1.in:1:6) bytes  never took "true", "low"')

    def test_what_is_known_of_a_name_on_one_way_alone(self) -> None:
        # k has no value where has is 0, so that k is from 2 to n says nothing of n
        program = 'INT(0,1,has) NEWLINE INT(1,100,n) NEWLINE IF(has == 1) INT(2,n,k) NEWLINE END IF(n == 1) STRING("single") NEWLINE END'
        self.assertIn("1:79: note: IF: the test is never true", self.told(program, "0\n2\n", "1\n100\n100\n")[1])
        self.assertEqual(self.told(program, "0\n1\nsingle\n", "1\n100\n2\n", words=["-t"])[1][5], "1:79   IF(n == 1)    true, false")
        program = 'INT(1,9,n) NEWLINE REPI(i,n-1) SET(node=i+2) END IF(n==1) STRING("x") NEWLINE END'
        self.assertIn("1:50: note: IF: the test is never true", self.told(program, "2\n", "9\n")[1])

    def test_without_ctd_lint_what_cannot_be_is_asked_for(self) -> None:
        shutil.copytree(TOP / "tools", self.folder / "tools")
        self.write("p.ctd", "INT(2,3,n) REP(n) NEWLINE END")
        self.write("1.in", "2\n\n")
        self.write("2.in", "3\n\n\n")
        call = [str(self.folder / "tools/ctd-cover"), "--checker", str(CHECKER), "p.ctd", "1.in", "2.in"]
        told = b"p.ctd:1:12: note: REP: never without a turn, never with one turn alone\n2 commands watched in 2 files, 1 not fully tried\n"
        ran = subprocess.run(call, cwd=self.folder, capture_output=True, check=False)
        self.assertEqual((ran.stdout, ran.stderr), (told, b"ctd-cover: ctd-lint is not there, so what cannot be is asked for too\n"))
        # nor is anything known from one that fails
        shutil.copy(CHECKER, self.folder / "checktestdata")
        (self.folder / "ctd-lint").write_text('#!/bin/sh\nprintf \'{"file":"0.ctd","line":1,"column":12,"rank":"never","kind":"begins"}\\n\'\nexit 3\n')
        (self.folder / "ctd-lint").chmod(0o755)
        call[2] = str(self.folder / "checktestdata")
        ran = subprocess.run(call, cwd=self.folder, capture_output=True, check=False)
        self.assertEqual((ran.stdout, ran.stderr), (told, b""))

    def test_turns_that_cannot_be(self) -> None:
        self.assertEqual(self.told("INT(2,3,n) REP(n) NEWLINE END", "2\n\n", "3\n\n\n")[0], 0)
        self.assertEqual(self.told("REP(3) NEWLINE END", "\n\n\n")[0], 0)

    def test_the_most_turns(self) -> None:
        status, lines = self.told("REP(2,NEWLINE) WHILE(MATCH(\"a\")) STRING(\"a\") END END", "aa\n" + 700 * "a", words=["-t"])
        self.assertEqual(lines[2], '1:16   WHILE(MATCH("a"))  more turns; at most 700 (1.in:2:701)  never without a turn, never with one turn alone')

    def test_a_separator(self) -> None:
        program = 'INT(1,3,n) REP(n,IF(n==3) STRING(",") ELSE STRING(";") END) STRING("x") END'
        self.assertEqual(self.told(program, "1x", "2x;x", "3x,x,x")[0], 0)
        status, lines = self.told(program, "1x")
        self.assertEqual(lines[1:3], ["1:12: note: REP: never with more than one turn", "1:18: note: no file runs this command"])

    def test_an_assertion_that_is_never_tight(self) -> None:
        program = "INT(0,9,a) SPACE INT(0,9,b) ASSERT(a+b<=9 && a<b)"
        self.assertEqual(self.told(program, "0 1")[1][-2], "1:29: note: ASSERT: never tight: a+b<=9")
        self.assertEqual(self.told(program, "4 5", words=["-t"])[1][3], "1:29   ASSERT(a+b<=9 && a<b)  tight: a+b<=9 (1.in:1:4), a<b (1.in:1:4)")

    def test_a_strict_comparison_of_numbers_is_tight_where_they_differ_by_one(self) -> None:
        self.assertIn("1:12: note: ASSERT: never tight: a>0", self.told("INT(0,9,a) ASSERT(a>0)", "2")[1])
        self.assertNotIn("1:12: note: ASSERT: never tight: a>0", self.told("INT(0,9,a) ASSERT(a>0)", "1")[1])

    def test_lengths_of_a_string(self) -> None:
        program = 'REGEX("[a-z]{1,20}") NEWLINE'
        self.assertEqual(self.told(program, "a\n", 20 * "b" + "\n")[0], 0)
        self.assertEqual(self.told(program, "a\n", 19 * "b" + "\n")[1][0], "1:1: note: REGEX: took 1..19 of 1..20 bytes: the greatest is never taken")
        status, lines = self.told('REGEX("[a-z]+|[0-9]+",s) NEWLINE STRING(s)', "ab\nab", "1234\n1234", words=["-t"])
        self.assertEqual((status, lines[1]), (0, '1:1    REGEX("[a-z]+|[0-9]+",s)  2 (1.in:1:3) .. 4 (2.in:1:5) bytes'))

    def test_nested_commands_that_no_file_runs_are_told_once(self) -> None:
        program = "INT(1,2,n) IF(n==2) REP(n) INT(1,5) END END"
        self.assertEqual(self.told(program, "1")[1][1:-1], ["1:12: note: IF: the test is never true", "1:21: note: no file runs this command"])

    def test_a_file_that_does_not_fit_is_named_first(self) -> None:
        lines = ["2.in: line 1 column 1: value out of range (program line 1 column 1)", "1 command watched in 2 files, 0 not fully tried"]
        self.assertEqual(self.told("INT(1,9) NEWLINE", "1\n", "99\n", "9\n"), (2, lines))

    def test_groups(self) -> None:
        self.write("p.ctd", "INT(1,9) NEWLINE")
        for name in ("a", "b"):
            (self.folder / name).mkdir()
        for name, text in (("a/1.in", "1\n"), ("a/2.in", "9\n"), ("b/1.in", "9\n")):
            self.write(name, text)
        self.assert_run(
            1,
            "a:\n1 command watched in 2 files, 0 not fully tried\n"
            "b:\np.ctd:1:1: note: INT: took 9..9 of 1..9: the least is never taken (b/1.in:1:1)\n1 command watched in 1 file, 1 not fully tried\n",
            "--groups",
            "p.ctd",
            "a",
            "b",
        )

    def test_groups_leave_out_what_has_to_be_rejected(self) -> None:
        self.write("p.ctd", "INT(1,9) NEWLINE")
        for name, text in (("sample/1.in", "1\n"), ("invalid_inputs/1.in", "0\n"), ("invalid_inputs/deep/1.in", "0\n"), ("invalid_input/1.in", "0\n")):
            (self.folder / "data" / name).parent.mkdir(parents=True, exist_ok=True)
            self.write(f"data/{name}", text)
        note = "p.ctd:1:1: note: INT: took 1..1 of 1..9: the greatest is never taken (data/sample/1.in:1:1)\n"
        self.assert_run(1, f"data/sample:\n{note}1 command watched in 1 file, 1 not fully tried\n", "-g", "p.ctd", "data")
        ran = self.run_tool("-g", "p.ctd", "data/invalid_inputs")
        told = b"ctd-cover: all data lie in a folder of data that have to be rejected\n"
        self.assertEqual((ran.returncode, ran.stdout, ran.stderr), (2, b"", told))

    def test_words_of_a_list(self) -> None:
        program = 'REGEX("to|c\\\\.c|bcc") NEWLINE'
        self.assertEqual(self.told(program, "to\n", "c.c\n", "bcc\n")[0], 0)
        self.assertEqual(self.told(program, "to\n", "to\n", "bcc\n")[1][0], '1:1: note: REGEX: never took "c.c"')
        # the second is never taken whatever the data are, and one word alone is nothing to choose from
        self.assertEqual(self.told('REGEX("(pop|popall|push)") NEWLINE', "pop\n", "push\n", "pop\n")[0], 0)
        self.assertEqual(self.told('REGEX("pop") NEWLINE', "pop\n", "pop\n", "pop\n")[0], 0)

    def test_sides_that_decide(self) -> None:
        program = "INT(0,9,a) SPACE INT(0,9,b) NEWLINE ASSERT(a<8 || b<8)"
        self.assertEqual(self.told(program, "0 0\n", "7 9\n", "9 7\n")[0], 0)
        self.assertEqual(self.told(program, "0 0\n", "7 9\n", "9 6\n")[1], ["1:37: note: ASSERT: never tight: b<8", "3 commands watched in 3 files, 1 not fully tried"])
        self.assertEqual(self.told(program, "0 0\n", "7 9\n", "0 9\n")[1][1], "1:37: note: ASSERT: never decided by b<8")

    def test_sides_of_a_choice(self) -> None:
        program = "INT(1,9,a) SPACE INT(1,9,b) NEWLINE IF(!(a==1 && b==1)) NEWLINE END"
        self.assertEqual(self.told(program, "1 1\n", "9 1\n\n", "1 9\n\n")[0], 0)
        self.assertEqual(self.told(program, "1 1\n", "9 9\n\n", "9 1\n\n")[1][0], "1:37: note: IF: never decided by b==1")

    def test_sides_are_asked_only_where_they_are_evaluated(self) -> None:
        program = "INT(0,4,n) NEWLINE ASSERT(n==0 || 4%n==0 && n<5)"
        self.assertEqual(self.told(program, "0\n", "4\n", "2\n")[1], ["2 commands watched in 3 files, 0 not fully tried"])
        program = "INT(1,3,n) NEWLINE REPI(i,n) INT(0,9,a[i]) NEWLINE ASSERT(i==0 || a[i-1]<=a[i]) END"
        self.assertEqual(self.told(program, "1\n0\n", "3\n0\n9\n9\n", "2\n5\n5\n")[0], 0)

    def test_sides_of_a_loop(self) -> None:
        program = 'INT(0,2,n) SPACE WHILEI(i,i<n && !MATCH("x")) REGEX("[a-z]") END REGEX("x?") NEWLINE'
        self.assertEqual(self.told(program, "0 \n", "1 a\n", "2 ax\n", "2 ab\n")[0], 0)
        self.assertEqual(self.told(program, "0 \n", "1 a\n", "2 ab\n", "2 ab\n")[1][0], '1:18: note: WHILEI: never decided by !MATCH("x")')

    def test_a_comparison_under_not(self) -> None:
        program = "INT(0,9,a) NEWLINE ASSERT(!(a>=5))"
        self.assertEqual(self.told(program, "0\n", "4\n")[0], 0)
        self.assertEqual(self.told(program, "0\n", "3\n")[1][0], "1:20: note: ASSERT: never tight: a>=5")

    @unittest.skipUnless(importlib.util.find_spec("yaml"), "PyYAML is not there")
    def test_groups_with_flags(self) -> None:
        self.write("p.ctd", "SET(maxn=9) INT(1,maxn) NEWLINE")
        for name, text in (("data/sample/1.in", "1\n"), ("data/small/1.in", "2\n"), ("data/small/deep/1.in", "2\n")):
            (self.folder / name).parent.mkdir(parents=True, exist_ok=True)
            self.write(name, text)
        self.write("data/small/testdata.yaml", "input_validator_flags: maxn=2")
        note, counts = "p.ctd:1:13: note: INT: took ", "1 command watched in 1 file, 1 not fully tried\n"
        sample = f"data/sample:\n{note}1..1 of 1..9: the greatest is never taken (data/sample/1.in:1:1)\n{counts}"
        small = f"data/small (--define=maxn=2):\n{note}2..2 of 1..2: the least is never taken (data/small/1.in:1:1)\n{counts}"
        deep = f"data/small/deep (--define=maxn=2):\n{note}2..2 of 1..2: the least is never taken (data/small/deep/1.in:1:1)\n{counts}"
        self.assert_run(1, sample + small + deep, "--groups", "p.ctd", "data")

    def test_standard_input(self) -> None:
        self.write("p.ctd", "INT(1,9) NEWLINE")
        note = "p.ctd:1:1: note: INT: took 1..1 of 1..9: the greatest is never taken (-:1:1)\n"
        self.assert_run(1, f"{note}1 command watched in 1 file, 1 not fully tried\n", "p.ctd", "-", stdin=b"1\n")

    def test_what_cannot_be_asked(self) -> None:
        self.write("open.ctd", "INT(1,10")
        self.write("1.in", "1\n")
        self.assert_run(2, "checktestdata: program line 1 column 9: syntax error\n", "open.ctd", "1.in")
        self.assert_run(2, "none.in: cannot read: No such file or directory\nno file fits\n", "open.ctd", "none.in")
        for words in [["p.ctd"], ["p.ctd", "--none", "1.in"], []]:
            ran = self.run_tool(*words)
            self.assertEqual((ran.returncode, ran.stdout), (2, b""))
            self.assertTrue(ran.stderr.startswith(b"usage: ctd-cover"))

    def test_a_program_that_is_as_deep_as_one_may_be(self) -> None:
        # an ASSERT with a comparison in it weighs 2
        blocks = limits.NESTING - 2
        self.write("deep.ctd", blocks * "IF(ISEOF) " + blocks * "END ")
        self.write("1.in", "")
        ran = self.run_tool("deep.ctd", "1.in")
        self.assertEqual((ran.returncode, len(ran.stdout.splitlines()), ran.stderr), (1, blocks + 1, b""))
        self.write("deeper.ctd", (blocks + 1) * "IF(ISEOF) " + (blocks + 1) * "END ")
        ran = self.run_tool("deeper.ctd", "1.in")
        told = b"ctd-cover: deeper.ctd: questions cannot be put into the program: nested too deeply\n"
        self.assertEqual((ran.returncode, ran.stdout, ran.stderr), (2, b"", told))

    def test_streams_that_are_closed_or_full(self) -> None:
        self.write("p.ctd", "INT(5,5) NEWLINE")
        self.write("1.in", "5\n")
        for rest, status, err in [
            ("p.ctd 1.in >&-", 2, "ctd-cover: standard output is closed\n"),
            ("p.ctd 1.in >/dev/full", 2, "ctd-cover: No space left on device\n"),
            ("p.ctd 1.in >/dev/null 2>&-", 0, ""),
            ("p.ctd 1.in <&- >/dev/null", 0, ""),
            ("p.ctd - <&- >/dev/null", 2, ""),
        ]:
            with self.subTest(rest):
                ran = self.run_shell(f"{TOP}/tools/ctd-cover --checker {CHECKER} {rest}")
                self.assertEqual((ran.stdout, ran.stderr.decode(), ran.returncode), (b"", err, status))

    def test_a_program_that_cannot_be_read_again(self) -> None:
        self.write("1.in", "5\n")
        ran = self.run_shell(f"mkfifo pipe; {TOP}/tools/ctd-cover --checker {CHECKER} pipe 1.in")
        told = b"ctd-cover: pipe: the program is no file, and cannot be read again\n"
        self.assertEqual((ran.stdout, ran.stderr, ran.returncode), (b"", told, 2))

    def test_the_jobs_change_nothing(self) -> None:
        data = [f"{n}\n" for n in (5, 3, 7, 3, 8, 2, 2, 8, 9, 4, 6, 9)]
        self.assertEqual(self.told("INT(1,9) NEWLINE", *data, words=["-j", "1"]), self.told("INT(1,9) NEWLINE", *data, words=["-j", "8"]))

    def test_whitespace(self) -> None:
        self.assertEqual(self.told("INT(1,9) SPACE INT(1,9) NEWLINE", " 1\t9 \n", "9  1\n", words=["-w"])[0], 0)


def numbers_of(line: str) -> list[int]:
    return [int(part) for part in line.split()]


# For each example the numbers that its INTs take, one list for each INT in the order of the program, read by other means.
def of_permutation(text: str) -> list[list[int]]:
    first, second = text.splitlines()
    return [[int(first)], numbers_of(second)]


def of_tasks(text: str) -> list[list[int]]:
    first, *edges = map(numbers_of, text.splitlines())
    return [first[:1], first[1:], [edge[0] for edge in edges], [edge[1] for edge in edges]]


def of_tree(text: str) -> list[list[int]]:
    first, *edges = map(numbers_of, text.splitlines())
    return [first, [edge[0] for edge in edges], [edge[1] for edge in edges]]


def of_network(text: str) -> list[list[int]]:
    first, *roads = map(numbers_of, text.splitlines())
    return [first[:1], first[1:], *([road[column] for road in roads] for column in range(3))]


def of_testcases(text: str) -> list[list[int]]:
    first, *lines = map(numbers_of, text.splitlines())
    return [first, [line[0] for line in lines[::2]], [number for line in lines[1::2] for number in line]]


def of_rectangles(text: str) -> list[list[int]]:
    sides = [numbers_of(line) for line in text.splitlines()[:-1]]
    return [[side[0] for side in sides], [side[1] for side in sides]]


def of_intervals(text: str) -> list[list[int]]:
    first, *intervals = map(numbers_of, text.splitlines())
    return [first, [one[0] for one in intervals], [one[1] for one in intervals]]


def of_distances(text: str) -> list[list[int]]:
    first, *matrix = map(numbers_of, text.splitlines())
    pairs = [(i, j, number) for i, line in enumerate(matrix) for j, number in enumerate(line)]
    return [first, *([number for i, j, number in pairs if order(i, j)] for order in (lambda i, j: i < j, lambda i, j: i == j, lambda i, j: i > j))]


READERS: dict[str, Callable[[str], list[list[int]]]] = {
    "permutation": of_permutation,
    "tasks": of_tasks,
    "tree": of_tree,
    "network": of_network,
    "testcases": of_testcases,
    "rectangles": of_rectangles,
    "intervals": of_intervals,
    "distances": of_distances,
}


class Examples(unittest.TestCase):
    def test_least_and_greatest(self) -> None:
        for name, reader in READERS.items():
            with self.subTest(name):
                folder = TOP / "examples" / name
                (program,) = (folder / "input_validators").glob("*.ctd")
                files = sorted((folder / "data").glob("s*/*.in"))
                read = [reader(file.read_text()) for file in files]
                wanted = [[number for numbers in column for number in numbers] for column in zip(*read)]
                coverage = cover(Checker(str(CHECKER), str(program)), [DataFile(str(file)) for file in files], JOBS)
                self.assertEqual(found_in(coverage), [(min(column), max(column)) if column else None for column in wanted])
                self.assert_spots(coverage)

    def assert_spots(self, coverage: Coverage) -> None:
        """That each number stands where it is said to stand."""
        for thing, found in coverage.found.items():
            if thing.expression in coverage.skeleton.taken:
                line = Path(found.spot.file).read_text().splitlines()[found.spot.line - 1]
                self.assertEqual(line[found.spot.column - 1 :].split()[0], str(found.value))

    def test_each_example_has_a_table(self) -> None:
        for program in sorted((TOP / "examples").glob("*/input_validators/*.ctd")):
            files = sorted(program.parent.parent.glob("data/s*/*.in"))
            coverage = cover(Checker(str(CHECKER), str(program)), [DataFile(str(file)) for file in files], JOBS)
            self.assertEqual((coverage.misfits, coverage.files), ([], len(files)))
            self.assertTrue(rows(coverage))


def found_in(coverage: Coverage) -> list[tuple[int, int] | None]:
    """The least and the greatest number of each INT, in the order of the program; none for one that no file runs."""
    ends = [(one.things["least"], one.things["greatest"]) for one in coverage.skeleton.watched if one.command.word == "INT"]
    found = coverage.found
    return [(found[least].value, found[greatest].value) if least in found else None for least, greatest in ends]


if __name__ == "__main__":
    sys.exit(run_unit_tests("cover"))
