#!/usr/bin/env python3
"""Runs ctd-show with the built checker on files that do not fit, and compares the line of values, and that of what could stand at a syntax
error, with texts that were worked out by hand.

The last line counts what passed and failed. usage: tests/values.py [PROGRAM]"""
from __future__ import annotations

import sys

from companions import CHECKER, CompanionTest
from results import TOP, run_unit_tests

sys.path.insert(0, str(TOP / "tools"))
import ctd_values  # noqa: E402
from ctd_companion import FITS, Checker  # noqa: E402
from ctd_program import GRAMMAR, Grammar, Refused, cut, parse, tables  # noqa: E402


class Values(CompanionTest):
    tool = "ctd-show"

    def lines(self, program: str, data: str | bytes, *words: str) -> list[str]:
        """The lines of values for a file that does not fit, however long they take."""
        self.write("p.ctd", program)
        self.write("1.in", data)
        checker = Checker(str(CHECKER), str(self.folder / "p.ctd"), words)
        with (self.folder / "1.in").open("rb") as opened:
            answer, file = checker.check_file(opened)
            self.assertNotEqual(answer.status, FITS)
            return ctd_values.told_of_fault(checker, answer, file, 0).lines

    def assert_values(self, wanted: str, program: str, data: str | bytes, *words: str) -> None:
        with self.subTest(program=program, data=data):
            self.assertEqual(self.lines(program, data, *words), [wanted])

    def assert_no_values(self, program: str, data: str | bytes) -> None:
        with self.subTest(program=program, data=data):
            self.assertEqual(self.lines(program, data), [])

    def test_a_value_out_of_range(self) -> None:
        self.assert_values("value out of range: 11; bounds 1 .. left = 10", "SET(left=10) INT(1,left)", "11")
        self.assert_values("value out of range: 0; bounds 1 .. 10", "INT(1,10)", "0")
        self.assert_values("value out of range: -5; bounds -n = -4 .. 2*n-1 = 7, n = 4", "INT(1,9,n) SPACE INT(-n,2*n-1)", "4 -5")
        self.assert_values("value out of range: 3; bounds n = 4 .. 9", "INT(1,9,n) SPACE INT(n,9,n)", "4 3")
        self.assert_values("value out of range: 7; bounds 0 .. 5, i = 2", "REPI(i,3,SPACE) INT(0,5,a[i]) END", "1 5 7")
        self.assert_values("value out of range: 7; bounds a[i-1] = 8 .. 9, i = 1", "SET(a[0]=8) REPI(i,2) IF(i>0) INT(a[i-1],9) END END", "7")

    def test_a_value_that_is_needed_behind_its_command(self) -> None:
        self.assert_values("value out of range: 9; bounds 1 .. n = 5", "INT(1,9,n) REP(2) SPACE INT(1,n,u) ASSERT(u>1) END", "5 2 9")

    def test_a_number_that_no_variable_can_have(self) -> None:
        self.assert_values(f"value out of range: {40 * '9'}…; bounds 1 .. n = 5", "SET(n=5) INT(1,n)", 41 * "9")
        self.assert_values(f"value out of range: -{39 * '9'}; bounds 1 .. n = 5", "SET(n=5) INT(1,n)", "-" + 39 * "9")

    def test_bounds_of_any_size(self) -> None:
        least = "-170141183460469231731687303715884105728"
        self.assert_values(f"value out of range: 5; bounds n = {least} .. m = 4", "SET(n=-2^126*2,m=4) INT(n,m)", "5")
        for number in (511, 512, 513, -20, -21, -513, 10**9, 10**18 + 1, 2**126 + 12345, -(10**30)):
            self.assert_values(f"assertion failed: n = {number}, in n==5", f"SET(n={number}) ASSERT(n==5)", "")

    def test_an_assertion(self) -> None:
        self.assert_values("assertion failed: sum = 200001, n = 3, in sum<=200000 || n>3", "SET(sum=200001,n=3) ASSERT(sum<=200000 || n>3)", "")
        self.assert_values("assertion failed: a[i] = 7, i = 3, in a[i]<a[i]", "SET(a[3]=7,i=3) ASSERT(a[i]<a[i])", "")
        self.assert_values("assertion failed: a[b[0],i] = 7, b[0] = 1, i = 3, in a[b[0],i]<7", "SET(b[0]=1,i=3,a[1,3]=7) ASSERT(a[b[0],i]<7)", "")

    def test_the_place_is_the_one_that_fails(self) -> None:
        self.assert_values("assertion failed: i = 6, in i<6", "REPI(i,9) ASSERT(i<6) END", "")
        self.assert_values("assertion failed: i = 2, in i<2", "SET(k=0) REPI(i,9,ASSERT(i<2)) SET(k=k+1) END", "")

    def test_the_side_of_and_that_fails(self) -> None:
        program = "SET(a=3,b=5) ASSERT(a<4 && (b-a>2 && b<9))"
        self.assert_values("assertion failed: b-a = 2, b = 5, a = 3, in b-a>2", program, "")
        self.assert_values('assertion failed: STRLEN(s[i]) = 3, s[i] = "abc", i = 1, in STRLEN(s[i])<=2', 'SET(i=1) REGEX("[a-z]*",s[i]) ASSERT(i>0 && STRLEN(s[i])<=2)', "abc")
        self.assert_values('assertion failed: MATCH("x") is false', 'SET(a=3) ASSERT(a<4 && MATCH("x"))', "y")
        self.assert_values("assertion failed: a = 3, in !(a<4)", "SET(a=3) ASSERT(a<4 && !(a<4))", "")

    def test_the_test_is_told_as_it_is_written(self) -> None:
        self.assert_values('assertion failed: s = "a  b", in s != "a  b"', 'REGEX("[a-z ]*",s) ASSERT(\n  s  != # no such name\n "a  b")', "a  b")
        self.assert_values("assertion failed: a = 1, b = 2, in a > b || b < a", "SET(a=1,b=2) ASSERT(a > b || b\n<\ta)", "")
        self.assert_values("assertion failed: 1==2 is false", "ASSERT(1==2)", "")

    def test_the_match_of_a_regular_expression_that_an_assertion_rejects(self) -> None:
        for program, data, mark, told in [
            ('REGEX("[a-z]+",s) ASSERT(STRLEN(s)<=3) NEWLINE', "abcde\n", "~~~~~^", 'STRLEN(s) = 5, s = "abcde", in STRLEN(s)<=3'),
            ('INT(0,9) SPACE REGEX("[a-z\t]+",s[1]) ASSERT(s[1]!="a\tb") SPACE', "7 a\tb ", "  ~~~~^", 's[1] = "a\\tb", in s[1]!="a\tb"'),
            ('REGEX("[a-z]+",s) SET(n=STRLEN(s)) ASSERT(n<3)', "abc", "~~~^", 'n = 3, s = "abc", in n<3'),
            ('REGEX("[a-z]+",s) IF(1<2) ASSERT(s<"abc") END', "abc", "~~~^", 's = "abc", in s<"abc"'),
            # the match before is not what the test speaks of, or there is something between
            ('SET(n=5) REGEX("[a-z]+",s) ASSERT(n<3)', "abc", "   ^", "n = 5, in n<3"),
            ('REGEX("[a-z]+",s) SPACE ASSERT(s<"abc")', "abc ", "    ^", 's = "abc", in s<"abc"'),
            ('REGEX("[a-z]+",s) SET(s="abd") ASSERT(s<"abc")', "abc", "   ^", 's = "abd", in s<"abc"'),
        ]:
            with self.subTest(program):
                self.write("p.ctd", program)
                self.write("1.in", data)
                lines = self.run_tool("--values=50", "p.ctd", "1.in").stdout.decode().splitlines()
                self.assertEqual((lines[2], lines[-1]), (f"        | {mark}", f"assertion failed: {told}"))

    def test_a_match_that_is_longer_than_what_is_shown_of_its_line(self) -> None:
        self.write("p.ctd", 'REGEX("[a-z]+",s) ASSERT(STRLEN(s)<=99) NEWLINE')
        self.write("1.in", f"{'a' * 100}\n")
        lines = self.run_tool("--values=50", "p.ctd", "1.in").stdout.decode().splitlines()
        self.assertEqual(lines[1:3], [f"      1 | …{'a' * 50}", f"        |  {'~' * 50}^"])

    def test_a_bound_with_a_name(self) -> None:
        self.assert_values("assertion failed: sum = 12, maxsum = 10, in sum<=maxsum", "SET(maxsum=10) INT(0,99,sum) ASSERT(sum<=maxsum)", "12")
        self.assert_values("assertion failed: a = -3, in a>=-2", "INT(-9,9,a) ASSERT(a>=-2)", "-3")

    def test_equal_elements_with_two_indices(self) -> None:
        program = "REPI(i,2,NEWLINE) REPI(j,3,SPACE) INT(0,99,d[i{0},j{1}]) END END ASSERT(UNIQUE(d))"
        self.assert_values("assertion failed: d[0,1] = d[1,2] = 7", program.format("", ""), "1 7 2\n3 4 7")
        self.assert_values("assertion failed: d[1,2] = d[2,0] = 7", program.format("+1", ""), "1 3 7\n7 4 5")
        pairs = "REPI(i,2,NEWLINE) REPI(j,2,SPACE) INT(0,9,u[i,j+1]) SET(v[i,j+1]=i) END END ASSERT(UNIQUE(u,v))"
        self.assert_values("assertion failed: (u[1,1],v[1,1]) = (u[1,2],v[1,2]) = (5,1)", pairs, "5 6\n5 5")

    def test_equal_elements_of_many(self) -> None:
        """The pair of a large array comes in the time that a run may take."""
        self.write("p.ctd", "INT(1,200000,n) NEWLINE REPI(i,n,SPACE) INT(1,1000000,a[i]) END ASSERT(UNIQUE(a)) NEWLINE")
        numbers = [*range(1, 200_001)]
        numbers[199_998] = 12
        self.write("1.in", f"200000\n{' '.join(map(str, numbers))}\n")
        ran = self.run_tool("p.ctd", "1.in")
        self.assertEqual(ran.stdout.decode().splitlines()[-1], "assertion failed: a[11] = a[199998] = 12")

    def test_a_variable_without_a_value_is_left_out(self) -> None:
        self.assert_values("assertion failed: n = 1, in n>1", "SET(n=1) ASSERT(n>1 && m==2)", "")

    def test_strings(self) -> None:
        self.assert_values('assertion failed: s = "ab", in s!="ab"', 'REGEX("[a-z]*",s) ASSERT(s!="ab")', "ab")
        self.assert_values('assertion failed: s = "", in s!=""', 'REGEX("[a-z]*",s) ASSERT(s!="")', "")
        self.assert_values(r'assertion failed: s = "\"\\\n\t\r\000\377 z", in s=="x"', 'REGEX("(?s-u).*",s) ASSERT(s=="x")', b'"\\\n\t\r\0\xff z')
        self.assert_values(f'assertion failed: s = "{40 * "x"}", in s=="x"', 'REGEX("x*",s) ASSERT(s=="x")', 40 * "x")
        self.assert_values(f'assertion failed: s = "{40 * "x"}"…, in s=="x"', 'REGEX("x*",s) ASSERT(s=="x")', 41 * "x")
        self.assert_values('assertion failed: STRLEN(t) = 2, t = "ab", in STRLEN(t)<2', 'SET(t="ab",s["x"]="b") ASSERT(t<s["x"] && STRLEN(t)<2)', "")

    def test_equal_elements(self) -> None:
        for start in (0, 1):
            program = f"INT(1,9,n) NEWLINE REPI(i,n,SPACE) INT(0,9,a[i+{start}]) END ASSERT(UNIQUE(a))"
            self.assert_values(f"assertion failed: a[{1 + start}] = a[{4 + start}] = 7", program, "5\n3 7 4 2 7")
        # the first element that was there before
        self.assert_values("assertion failed: a[0] = a[1] = 7", "REPI(i,5,SPACE) INT(0,9,a[i]) END ASSERT(UNIQUE(a))", "7 7 1 1 7")
        pairs = "REPI(i,3,NEWLINE) INT(0,9,u[i]) SPACE INT(0,9,v[i]) END ASSERT(i>2 && UNIQUE(u,v))"
        self.assert_values("assertion failed: (u[0],v[0]) = (u[2],v[2]) = (1,2)", pairs, "1 2\n1 3\n1 2")
        words = 'REPI(i,3,SPACE) REGEX("[a-z]+",w[i]) END ASSERT(UNIQUE(w))'
        self.assert_values('assertion failed: w[1] = w[2] = "b"', words, "a b b")
        # indices that are neither 0..n-1 nor 1..n
        self.assert_no_values("SET(a[5]=1,a[7]=1) ASSERT(UNIQUE(a))", "")

    def test_what_is_not_in_an_array(self) -> None:
        self.assert_values("assertion failed: n = 4, in INARRAY(n,a)", "SET(n=4,a[0]=3) ASSERT(INARRAY(n,a))", "")

    def test_other_rejections(self) -> None:
        self.assert_values('string does not match: s = "yes"', 'SET(s="yes") STRING(s)', "no")
        self.assert_values("expected an integer: n = 2, i = 1", "SET(n=2) REPI(i,n,SPACE) INT(0,n,a[i]) END", "1 x")
        self.assert_values("integer with a leading zero: i = 1", "REPI(i,2,SPACE) INT(0,9,a[i]) END", "1 01")
        self.assert_values("regular expression does not match: i = 2", 'REPI(i,3,SPACE) REGEX("[a-z]",s[i]) END', "a b 1")

    def test_runs_without_a_verdict(self) -> None:
        self.assert_values("division by zero: n = 3, m = 0", "SET(n=3,m=0) ASSERT(n/m==1)", "")
        self.assert_values("division by zero: n = 3, m = 0", "SET(n=3,m=0) ASSERT(n>1 && n/m==1)", "")
        self.assert_values("variable has no value: i = 2", "SET(a[0]=1,a[1]=1) REPI(i,3) SET(b=a[i]) END", "")
        self.assert_values("bad count: n = -1", "SET(n=-1) REP(n) EOF END", "")
        self.assert_values('wrong type: n = 3, s = "x"', 'SET(n=3,s="x") IF(n<s) EOF END', "")

    def test_commands_without_variables(self) -> None:
        for program in ("SPACE", "EOF", 'STRING("a")', 'REGEX("a")', "ASSERT(ISEOF)", "INT(1,2)", "WHILE(n==1) EOF END"):
            self.assert_no_values(program, "x")

    def test_presets_and_whitespace(self) -> None:
        self.assert_values("value out of range: 6; bounds 1 .. n = 5", "SET(n=9) INT(1,n)", " 6", "-w", "--define=n=5")

    def test_names_of_ours_are_not_those_of_the_program(self) -> None:
        self.assert_values("assertion failed: q0q = 4, q1qruns = 5, in q0q==q1qruns", "SET(q0q=4,q1qruns=5) ASSERT(q0q==q1qruns)", "")

    def test_many_values(self) -> None:
        names = [f"n{number}" for number in range(10)]
        program = "SET(" + ",".join(f"{name}=1" for name in names) + ") ASSERT(" + "+".join(names) + "==0)"
        self.assert_values("assertion failed: " + "+".join(names) + " = 10, " + ", ".join(f"{name} = 1" for name in names[:8]) + ", and 2 more, in " + "+".join(names) + "==0", program, "")

    def test_more_runs_than_there_may_be(self) -> None:
        self.write("p.ctd", "SET(n=1) ASSERT(n>0 && n==2)")
        self.write("1.in", "")
        ran = self.run_tool("--values=1", "p.ctd", "1.in")
        told = "values left out: asking for them takes more than 1 run; --values allows more"
        self.assertEqual(ran.stdout.decode().splitlines()[-1], told)

    def test_no_values(self) -> None:
        self.write("p.ctd", "SET(n=1) ASSERT(n==2)")
        self.write("1.in", "")
        self.assertNotIn(b"n = 1", self.run_tool("--values=0", "p.ctd", "1.in").stdout)

    def test_few_runs(self) -> None:
        """Behind the check no more than five runs ask for the values."""
        rows = "".join(f"{number} {(number * 7919) % 99_991 + 10}\n" for number in range(3000))
        pairs = "INT(1,9999,n) NEWLINE REPI(i,n) INT(0,9999,a[i]) SPACE INT(10,{},b[i]) NEWLINE {} END"
        words = "".join(f"word{number}\n" for number in range(10_000, 12_000))
        for program, data in [
            (pairs.format(100_000, "ASSERT(b[i]<100000 || a[i]==0)"), f"3001\n{rows}3000 100000\n"),
            (pairs.format("100000+n-n", ""), f"3001\n{rows}3000 100001\n"),
            (pairs.format(100_000, ""), f"3001\n{rows}3000 x\n"),
            (pairs.format(100_000, "SET(c=a[i]/(b[i]-11))"), f"3001\n{rows}3000 11\n"),
            ('REPI(i,2001) REGEX("[a-z0-9]+",w[i]) ASSERT(i==0 || w[i-1]<w[i]) NEWLINE END', f"{words}word11998\n"),
            ('SET(e="end") REPI(i,2001) IF(i<2000) REGEX("[a-z0-9]+") ELSE STRING(e) END NEWLINE END', f"{words}word11998\n"),
        ]:
            with self.subTest(program=program):
                self.write_checker(f'echo >>{self.folder}/runs\nexec {CHECKER} "$@"')
                self.write("p.ctd", program)
                self.write("1.in", data)
                self.write("runs", "")
                ran = self.run_tool("p.ctd", "1.in", checker=str(self.folder / "checktestdata"))
                self.assertIn(" = ", ran.stdout.decode().splitlines()[-1])
                self.assertLessEqual(len((self.folder / "runs").read_text().splitlines()), 6)

    def test_a_number_of_runs_that_is_none(self) -> None:
        self.write("p.ctd", "EOF")
        for text in ("x", "-1", "1.5"):
            ran = self.run_tool(f"--values={text}", "p.ctd", "-")
            self.assertEqual((ran.stdout, ran.returncode), (b"", 2))
            self.assertIn(b"argument --values: invalid", ran.stderr)

    def test_below_the_lines_of_the_data_and_of_the_program(self) -> None:
        self.write("p.ctd", "INT(1,2)")
        for name, told in [("1.in", b"1.in"), ("-", b"-")]:
            self.write("1.in", "3")
            ran = self.run_tool("p.ctd", name, stdin=b"3")
            first = b": line 1 column 1: value out of range (program line 1 column 1)\n      1 | 3<end of file>\n        | ^\n"
            self.assertEqual(ran.stdout, told + first + b"p.ctd:\n      1 | INT(1,2)\n        | ^\nvalue out of range: 3; bounds 1 .. 2\n")

    def test_compilers_get_one_line(self) -> None:
        self.write("p.ctd", "INT(1,2)")
        self.write("1.in", "3")
        self.assert_run(1, "1.in:1:1: error: value out of range (p.ctd:1:1)\n", "--gcc", "p.ctd", "1.in")


class Expected(CompanionTest):
    tool = "ctd-show"

    def test_what_is_wrong_with_a_pattern(self) -> None:
        self.write("1.in", "")
        for pattern, told in [
            ("[a-z", "bad pattern: unterminated character set at byte 1 of the pattern"),
            ("a(b", "bad pattern: missing ), unterminated subpattern at byte 2 of the pattern"),
            ("*a", "bad pattern: nothing to repeat at byte 1 of the pattern"),
            ("(?=a)", "bad pattern: there is no look-ahead and no look-behind"),
            ("(a)\\\\1", "bad pattern: there are no back references"),
            ("\\351", "bad pattern: byte 1 of the pattern is no UTF-8"),
        ]:
            with self.subTest(pattern):
                self.write("p.ctd", f'SPACE REGEX("{pattern}") REGEX("[")')
                ran = self.run_tool("p.ctd", "1.in")
                self.assertEqual((ran.returncode, ran.stdout.decode().splitlines()[-1]), (2, told))

    def test_what_could_stand_there(self) -> None:
        self.write("1.in", "")
        for program, expected in [
            ("INT(1,10 NEWLINE", ", or ) or an operator"),
            ("INT(1 2)", ", or an operator"),
            ("ASSERT(1)", "a comparison or an operator"),
            ("ASSERT(UNIQUE(a)", ") or && or ||"),
            ("REP(2,SPACE NEWLINE END", ")"),
            ("REP SPACE END", "("),
            ("SET(1=2)", "a name"),
            ("SET(a)", "= or ["),
            ("REGEX(a)", "a string"),
            ("INT(,2)", "an expression"),
            ("IF() END", "a test"),
            ("SPACE )", "a command or the end of the program"),
            ("REP(1) SPACE", "a command or END (REP of line 1 column 1 is open)"),
            ("IF(ISEOF) SPACE", "a command or ELSE or END (IF of line 1 column 1 is open)"),
            ("REP(2)\n  IF(ISEOF) END\n  WHILE(ISEOF) SPACE END\n", "a command or END (REP of line 1 column 1 is open)"),
            ("REP(2)\n  IF(ISEOF) EOF ELSE\n SPACE", "a command or END (IF of line 2 column 3 is open)"),
        ]:
            with self.subTest(program):
                self.write("p.ctd", program)
                ran = self.run_tool("p.ctd", "1.in")
                self.assertEqual((ran.returncode, ran.stdout.decode().splitlines()[-1]), (2, f"expected {expected}"))

    def test_all_that_is_expected_goes_on(self) -> None:
        """Behind what each token leads to, just the tokens that are expected are taken."""
        grammar = Grammar()
        grammar.add_rules(GRAMMAR)
        table = tables(grammar, "program")
        front = b"REPI(i,n[1],SET(a=-2^3)) IF(!(1<2)&&MATCH(\"a\")||UNIQUE(a,b)) INT(1,2,x) ELSE UNSET(a) END END"
        samples = {"NAME": b"x", "NUMERAL": b"1", "TEXT": b'"x"'}
        tokens = cut(front)
        for count in range(len(tokens)):
            start = front[: tokens[count].offset]
            wrong = "%" if count == 0 or tokens[count - 1].symbol in ("(", "SPACE") else "UNIQUE"
            with self.assertRaises(Refused) as raised:
                parse(cut(start + b" " + wrong.encode() + b" ]]]"), table)
            offset = len(start) + 1
            if raised.exception.offset != offset:
                continue
            expected = raised.exception.expected
            for symbol in {*(one for state in table for one in [*state.shifts, *state.reductions]), *samples}:
                if symbol.islower() or symbol.startswith("{") or symbol in ("the end of the text", "FLOAT"):
                    continue
                spelling = samples.get(symbol, symbol.encode())
                try:
                    parse(cut(start + b" " + spelling + b" "), table)
                    is_taken = True
                except Refused as refused:
                    is_taken = refused.offset != offset
                self.assertEqual(symbol in expected, is_taken, (start, symbol))


if __name__ == "__main__":
    sys.exit(run_unit_tests("values"))
