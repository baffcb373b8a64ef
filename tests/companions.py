#!/usr/bin/env python3
"""Runs ctd-show and ctd-mutate with the built checker. Their reports are compared with texts that were worked out by hand.

The last line counts what passed and failed. usage: tests/companions.py [PROGRAM]"""
from __future__ import annotations

import errno
import importlib.machinery
import importlib.util
import io
import os
import pty
import shutil
import subprocess
import sys
import tempfile
import unittest
from pathlib import Path
from types import ModuleType
from typing import Any
from unittest import mock

from results import TOP, checker_to_test, run_unit_tests

TOOLS = TOP / "tools"
CHECKER = checker_to_test()
OUT_OF_TIME = 60

LIST = "INT(1,100000,n) NEWLINE\nREPI(i,n,SPACE)\n    INT(-9,9,a[i])\nEND\nNEWLINE\n"
# A program that every file fits.
ANYTHING = 'REGEX("(?s-u).*")'


def load(name: str) -> ModuleType:
    """A companion as a module, for what a run does not show."""
    sys.dont_write_bytecode = True
    sys.path.insert(0, str(TOOLS))
    loader = importlib.machinery.SourceFileLoader(name.replace("-", "_"), str(TOOLS / name))
    spec = importlib.util.spec_from_loader(loader.name, loader)
    assert spec
    module = importlib.util.module_from_spec(spec)
    sys.modules[loader.name] = module
    loader.exec_module(module)
    return module


class CompanionTest(unittest.TestCase):
    """A folder for files, and runs of a companion in it."""

    tool = ""

    def setUp(self) -> None:
        scratch = tempfile.TemporaryDirectory()
        self.addCleanup(scratch.cleanup)
        self.folder = Path(scratch.name)

    def write(self, name: str | bytes, text: str | bytes) -> None:
        path = os.path.join(os.fsencode(self.folder), os.fsencode(name))
        with open(path, "wb") as file:
            file.write(text.encode("latin-1") if isinstance(text, str) else text)

    def write_checker(self, script: str) -> None:
        """A checker that does what a script says, in the folder."""
        self.write("checktestdata", f"#!/bin/sh\n{script}\n")
        (self.folder / "checktestdata").chmod(0o755)

    def run_shell(self, line: str) -> subprocess.CompletedProcess[bytes]:
        """A run of a command line of bash in the folder, where Python has its own settings alone."""
        environment = {name: value for name, value in os.environ.items() if not name.startswith("PYTHON")}
        return subprocess.run(["bash", "-c", line], cwd=self.folder, env=environment, capture_output=True, timeout=OUT_OF_TIME, check=False)

    def run_tool(self, *words: str | bytes, stdin: bytes | int = b"", checker: str | None = None) -> subprocess.CompletedProcess[bytes]:
        """A run in the folder, with another checker than the built one where one is named."""
        call = [str(TOOLS / self.tool), "--checker", checker or str(CHECKER), *words]
        if isinstance(stdin, bytes):
            return subprocess.run(call, cwd=self.folder, input=stdin, capture_output=True, timeout=OUT_OF_TIME, check=False)
        return subprocess.run(call, cwd=self.folder, stdin=stdin, capture_output=True, timeout=OUT_OF_TIME, check=False)

    def assert_run(self, status: int, out: str, *words: str | bytes, stdin: bytes = b"") -> None:
        """That a run ends with a status, has a text on standard output and nothing on standard error."""
        ran = self.run_tool(*words, stdin=stdin)
        self.assertEqual((ran.stdout.decode("utf-8", "surrogateescape"), ran.stderr, ran.returncode), (out, b"", status))


class Show(CompanionTest):
    tool = "ctd-show"

    def setUp(self) -> None:
        super().setUp()
        self.write("list.ctd", LIST)
        self.write("right.in", "3\n1 -2 3\n")

    def test_a_file_that_fits(self) -> None:
        self.assert_run(0, "right.in: testdata ok!\n", "list.ctd", "right.in")

    def test_a_value_out_of_range(self) -> None:
        self.write("wrong.in", "3\n1 -2 33\n")
        self.assert_run(
            1,
            "wrong.in: line 2 column 6: value out of range (program line 3 column 5)\n"
            "      2 | 1·-2·33\n"
            "        |      ^\n"
            "list.ctd:\n"
            "      3 |     INT(-9,9,a[i])\n"
            "        |     ^\n"
            "value out of range: 33; bounds -9 .. 9, i = 2\n",
            "list.ctd",
            "wrong.in",
        )

    def test_an_assertion_at_the_start_of_a_line_shows_the_line_before(self) -> None:
        self.write("sum.ctd", "INT(0,9,a) SPACE INT(0,9,b) NEWLINE\nASSERT(a<b)\nINT(0,9) NEWLINE\n")
        self.write("wrong.in", "5 4\n7\n")
        self.assert_run(
            1,
            "wrong.in: line 2 column 1: assertion failed (program line 2 column 1)\n"
            "      1 | 5·4\n"
            "      2 | 7\n"
            "        | ^\n"
            "sum.ctd:\n"
            "      2 | ASSERT(a<b)\n"
            "        | ^\n"
            "assertion failed: a = 5, b = 4, in a<b\n",
            "sum.ctd",
            "wrong.in",
        )

    def test_an_assertion_within_a_line_shows_that_line_alone(self) -> None:
        self.write("small.ctd", "NEWLINE INT(0,9,a) ASSERT(a<5) NEWLINE")
        self.write("wrong.in", "\n7\n")
        self.assert_run(
            1,
            "wrong.in: line 2 column 2: assertion failed (program line 1 column 20)\n"
            "      2 | 7\n"
            "        |  ^\n"
            "small.ctd:\n"
            "      1 | NEWLINE INT(0,9,a) ASSERT(a<5) NEWLINE\n"
            "        |                    ^\n"
            "assertion failed: a = 7, in a<5\n",
            "small.ctd",
            "wrong.in",
        )

    def test_an_assertion_in_the_first_line_has_no_line_before(self) -> None:
        self.write("never.ctd", "ASSERT(1==2)")
        self.write("empty.in", "")
        self.assert_run(
            1,
            "empty.in: line 1 column 1: assertion failed (program line 1 column 1)\n"
            "      1 | <end of file>\n"
            "        | ^\n"
            "never.ctd:\n"
            "      1 | ASSERT(1==2)\n"
            "        | ^\n"
            "assertion failed: 1==2 is false\n",
            "never.ctd",
            "empty.in",
        )

    def test_bytes_that_are_not_seen_are_shown(self) -> None:
        self.write("text.ctd", 'REGEX("[^x]*") EOF')
        self.write("wrong.in", b"a \tb\\\xc3\xa9\0\rx\r\n")
        self.assert_run(
            1,
            "wrong.in: line 1 column 10: expected end of file (program line 1 column 16)\n"
            "      1 | a·\\tb\\\\\\xc3\\xa9\\x00\\rx\\r\n"
            "        |                      ^\n"
            "text.ctd:\n"
            '      1 | REGEX("[^x]*") EOF\n'
            "        |                ^\n",
            "text.ctd",
            "wrong.in",
        )

    def test_the_program_is_shown_as_it_stands(self) -> None:
        self.write("text.ctd", "# \n\tSTRING(\"\\t\xc3\xa9\") NEWLINE # \xc3\xa9\n")
        self.write("wrong.in", b"\t\xc3\xa9")
        self.assert_run(
            1,
            "wrong.in: line 1 column 4: expected a newline (program line 2 column 17)\n"
            "      1 | \\t\\xc3\\xa9<end of file>\n"
            "        |           ^\n"
            "text.ctd:\n"
            '      2 |     STRING("\\té") NEWLINE # é\n'
            "        |                   ^\n",
            "text.ctd",
            "wrong.in",
        )

    def test_the_end_of_the_file_is_marked(self) -> None:
        self.write("short.in", "3\n1 -2 3")
        self.assert_run(
            1,
            "short.in: line 2 column 7: expected a newline (program line 5 column 1)\n"
            "      2 | 1·-2·3<end of file>\n"
            "        |       ^\n"
            "list.ctd:\n"
            "      5 | NEWLINE\n"
            "        | ^\n",
            "list.ctd",
            "short.in",
        )

    def test_the_end_of_the_program_has_no_line(self) -> None:
        self.write("long.in", "1\n1\n\n")
        self.assert_run(
            1,
            "long.in: line 3 column 1: expected end of file (program end)\n" "      3 | \n" "        | ^\n",
            "list.ctd",
            "long.in",
        )

    def test_a_long_line_is_cut(self) -> None:
        # The number at column 401 is wrong: 50 bytes before it are shown, and 30 from it on.
        self.write("long.in", "300\n" + "1 " * 200 + "x" + " 1" * 99 + "\n")
        ran = self.run_tool("list.ctd", "long.in")
        self.assertEqual(ran.stdout.decode().splitlines()[1:3], [f"      2 | …{'1·' * 25}x{'·1' * 14}·…", f"        | {' ' * 51}^"])

    def test_a_line_of_just_the_room_is_not_cut(self) -> None:
        for length, shown in [(80, "x" * 80), (81, "x" * 80 + "…")]:
            self.write("wrong.in", "x" * length + "\n")
            ran = self.run_tool("list.ctd", "wrong.in")
            self.assertEqual(ran.stdout.decode().splitlines()[1], f"      1 | {shown}")

    def test_no_more_is_read_than_the_lines_that_are_shown(self) -> None:
        show = load("ctd-show")
        file = io.BytesIO(b"1\n" * 1000 + b"2\n" + b"3" * 10_000_000)
        self.assertEqual(show.line_excerpt(file, 0, 1001, 1, show.DATA).text, "2")
        self.assertLess(file.tell(), 4000)
        self.assertEqual(show.line_start(file, 0, 1002), 2002)
        self.assertIsNone(show.line_start(file, 0, 1003))

    def test_a_line_behind_many_blocks(self) -> None:
        self.write("numbers.ctd", "REP(200000) INT(0,9) NEWLINE END")
        self.write("wrong.in", "7\n" * 150_000 + "77\n" + "7\n" * 49_999)
        ran = self.run_tool("numbers.ctd", "wrong.in")
        told = "wrong.in: line 150001 column 1: value out of range (program line 1 column 13)"
        self.assertEqual(ran.stdout.decode().splitlines()[:3], [told, " 150001 | 77", "        | ^"])

    def test_a_program_that_is_refused_is_told_once(self) -> None:
        self.write("open.ctd", "INT(1,10) NEWLINE\nINT(1,")
        shown = "checktestdata: program line 2 column 7: syntax error\nopen.ctd:\n      2 | INT(1,\n        |       ^\nexpected an expression\n"
        self.assert_run(2, shown, "open.ctd", "right.in", "right.in")
        self.assert_run(2, "open.ctd:2:7: error: syntax error\n", "--gcc", "open.ctd", "right.in", "right.in")

    def test_calls_that_are_refused_are_told_once(self) -> None:
        self.assert_run(2, "checktestdata: bad preset\n", "-D", "n", "list.ctd", "right.in", "right.in")
        self.assert_run(2, "checktestdata: bad step limit\n", "--max-steps=x", "list.ctd", "right.in", "right.in")
        self.assert_run(2, "checktestdata: bad arguments\n", "-D", "n=1", "-D", "n=1", "list.ctd", "right.in", "right.in")
        self.assert_run(2, "checktestdata: cannot open none.ctd\n", "none.ctd", "right.in", "right.in")
        self.assert_run(2, "none.ctd: error: cannot open none.ctd\n", "--gcc", "none.ctd", "right.in", "right.in")

    def test_data_without_a_verdict(self) -> None:
        self.assert_run(
            2,
            "right.in: checktestdata: line 2 column 1: step limit reached (program line 2 column 1)\n"
            "      2 | 1·-2·3\n"
            "        | ^\n"
            "list.ctd:\n"
            "      2 | REPI(i,n,SPACE)\n"
            "        | ^\n",
            "--max-steps=2",
            "list.ctd",
            "right.in",
        )
        self.assert_run(2, "right.in:2:1: error: no verdict: step limit reached (list.ctd:2:1)\n", "--gcc", "--max-steps=2", "list.ctd", "right.in")

    def test_the_worst_status_counts(self) -> None:
        self.write("wrong.in", "0\n")
        self.write("same.ctd", "INT(0,9,n) ASSERT(8/n==4) NEWLINE")
        self.write("two.in", "2\n")
        self.write("three.in", "3\n")
        self.write("zero.in", "0\n")
        for names, status, counts in [
            ("two.in two.in", 0, "2 checked, 2 fit, 0 rejected, 0 without verdict"),
            ("three.in two.in", 1, "2 checked, 1 fit, 1 rejected, 0 without verdict"),
            ("zero.in three.in two.in", 2, "3 checked, 1 fit, 1 rejected, 1 without verdict"),
            ("two.in zero.in", 2, "2 checked, 1 fit, 0 rejected, 1 without verdict"),
        ]:
            with self.subTest(names):
                ran = self.run_tool("same.ctd", *names.split())
                self.assertEqual((ran.returncode, ran.stdout.decode().splitlines()[-1]), (status, counts))

    def test_files_that_cannot_be_read(self) -> None:
        (self.folder / "folder").mkdir()
        shown = "none.in: cannot read: No such file or directory\nfolder: no files *.in in this folder\nright.in: testdata ok!\n"
        self.assert_run(2, shown + "3 checked, 1 fit, 0 rejected, 2 without verdict\n", "list.ctd", "none.in", "folder", "right.in")

    def test_the_data_below_a_folder(self) -> None:
        for name in ["secret/2.in", "secret/10.in", "secret/group/sub/1.in", "sample/1.in", "sample/1.ans", "secret/in", "sample/.in"]:
            (self.folder / "data" / name).parent.mkdir(parents=True, exist_ok=True)
            self.write(f"data/{name}", "1\n1\n" if name.endswith(".in") else "wrong")
        (self.folder / "data/folder.in").mkdir()
        names = ["sample/.in", "sample/1.in", "secret/10.in", "secret/2.in", "secret/group/sub/1.in"]
        for folder in ["data", "data/"]:
            shown = "".join(f"data/{name}: testdata ok!\n" for name in names)
            self.assert_run(0, f"{shown}5 checked, 5 fit, 0 rejected, 0 without verdict\n", "list.ctd", folder)
        self.write("data/secret/group/sub/2.in", "0\n")
        self.assert_run(1, "data/secret/group/sub/2.in:1:1: error: value out of range (list.ctd:1:1)\n", "--gcc", "list.ctd", "data")

    def test_a_folder_in_a_folder_that_cannot_be_read(self) -> None:
        companion = load("ctd-show").sys.modules["ctd_companion"]
        for name in ["1.in", "z/3.in", "closed/2.in"]:
            (self.folder / "data" / name).parent.mkdir(parents=True, exist_ok=True)
            self.write(f"data/{name}", "")
        open_folder = os.scandir

        def scandir(path: str) -> Any:
            # (root reads every folder, so that it is made to fail)
            if path.endswith("closed"):
                raise PermissionError(errno.EACCES, "Permission denied", path)
            return open_folder(path)

        with mock.patch("os.scandir", scandir):
            found = companion.files_below(f"{self.folder}/data")
        names = [(Path(file.name).relative_to(self.folder).as_posix(), file.fault) for file in found]
        self.assertEqual(names, [("data/1.in", None), ("data/closed", "cannot read: Permission denied"), ("data/z/3.in", None)])

    def test_a_list_of_files(self) -> None:
        (self.folder / "data").mkdir()
        for name in ["data/1.in", "a b.in", "a\nb.in"]:
            self.write(name, "1\n1\n")
        for names, shown in [
            (b"right.in\na b.in\n", ["right.in", "a b.in"]),
            (b"a b.in\n\nright.in", ["a b.in", "right.in"]),
            (b"right.in\0a\nb.in\0", ["right.in", r"a\nb.in"]),
            (b"a\nb.in\0right.in", [r"a\nb.in", "right.in"]),
            (b"data\n", ["data/1.in"]),
        ]:
            with self.subTest(names):
                self.write("names", names)
                told = "".join(f"{name}: testdata ok!\n" for name in shown)
                counts = f"{len(shown)} checked, {len(shown)} fit, 0 rejected, 0 without verdict\n" if len(shown) > 1 else ""
                self.assert_run(0, told + counts, "--files-from=names", "list.ctd")
                self.assert_run(0, told + counts, "list.ctd", "--files-from", "-", stdin=names)
        counts = "2 checked, 2 fit, 0 rejected, 0 without verdict\n"
        self.assert_run(0, f"right.in: testdata ok!\ndata/1.in: testdata ok!\n{counts}", "--files-from=names", "list.ctd", "right.in")

    def test_lists_that_are_refused(self) -> None:
        self.write("empty", "\n")
        for names, told in [("empty", b"the list of files is empty"), ("-", b"standard input is the list of files, and cannot be data too")]:
            ran = self.run_tool("--files-from", names, "list.ctd", *(["-"] if names == "-" else []), stdin=b"right.in\n")
            self.assertEqual((ran.stdout, ran.stderr.splitlines()[-1], ran.returncode), (b"", b"ctd-show: error: " + told, 2))
        ran = self.run_tool("--files-from=none", "list.ctd")
        self.assertEqual((ran.stdout, ran.stderr, ran.returncode), (b"", b"ctd-show: none: No such file or directory\n", 2))

    def test_a_list_of_many_files(self) -> None:
        self.write_checker("cat >/dev/null\necho testdata ok!")
        ran = self.run_tool("-q", "--files-from=-", "list.ctd", stdin=b"right.in\n" * 2000, checker="./checktestdata")
        self.assertEqual((ran.stdout, ran.returncode), (b"2000 checked, 2000 fit, 0 rejected, 0 without verdict\n", 0))

    def test_no_more_tasks_wait_than_are_needed(self) -> None:
        companion = load("ctd-show").sys.modules["ctd_companion"]
        begun: list[int] = []
        results = companion.results_in_order(begun.append, range(100_000), 2, companion.Progress(100_000, "files"))
        next(results)
        self.assertLess(len(begun), 100)
        results.close()
        self.assertEqual(list(companion.results_in_order(str, range(100), 2, companion.Progress(100, "files"))), [str(number) for number in range(100)])

    def test_quiet(self) -> None:
        self.write("wrong.in", "0\n")
        ran = self.run_tool("-q", "list.ctd", "right.in", "wrong.in", "right.in")
        self.assertEqual(ran.stdout.decode().splitlines()[0], "wrong.in: line 1 column 1: value out of range (program line 1 column 1)")
        self.assertEqual(ran.stdout.decode().splitlines()[-1], "3 checked, 2 fit, 1 rejected, 0 without verdict")
        self.assert_run(0, "", "--quiet", "list.ctd", "right.in")

    def test_the_form_of_compilers(self) -> None:
        self.write("wrong.in", "2\n1 10\n")
        self.write("long.in", "1\n1\n1\n")
        shown = "wrong.in:2:3: error: value out of range (list.ctd:3:5)\nlong.in:3:1: error: expected end of file (program end)\n"
        self.assert_run(1, shown, "--gcc", "list.ctd", "right.in", "wrong.in", "long.in")
        self.assert_run(2, "none.in: error: cannot read: No such file or directory\n", "--gcc", "list.ctd", "none.in")

    def test_options_are_given_to_the_checker(self) -> None:
        self.write("bound.ctd", "INT(1,most) SPACE INT(1,most) NEWLINE")
        self.write("blanks.in", " 4  5 \n")
        self.assert_run(0, "blanks.in: testdata ok!\n", "-w", "-D", "most=5", "bound.ctd", "blanks.in")
        self.assert_run(0, "blanks.in: testdata ok!\n", "bound.ctd", "blanks.in", "--whitespace-ok", "--define=most=5", "--max-steps=5")

    def test_the_order_is_that_of_the_files(self) -> None:
        names = [f"{number}.in" for number in range(40)]
        for number, name in enumerate(names):
            self.write(name, "9\n" if number % 2 else "100000\n" + "1 " * 99_999 + "1\n")
        ran = self.run_tool("-j", "4", "list.ctd", *names)
        told = [line.partition(":")[0] for line in ran.stdout.decode().splitlines() if ".in:" in line]
        self.assertEqual(told, names)

    def test_standard_input(self) -> None:
        shown = "-: line 2 column 3: value out of range (program line 3 column 5)\n      2 | 1·10\n        |   ^\n"
        program = "list.ctd:\n      3 |     INT(-9,9,a[i])\n        |     ^\nvalue out of range: 10; bounds -9 .. 9, i = 1\n"
        self.assert_run(1, shown + program, "list.ctd", "-", stdin=b"2\n1 10\n")
        self.write("wrong.in", "2\n1 10\n")
        with open(self.folder / "wrong.in", "rb") as file:
            self.assertEqual(self.run_tool("list.ctd", "-", stdin=file.fileno()).stdout.decode(), shown + program)

    def test_an_endless_input_is_not_read_to_its_end(self) -> None:
        with subprocess.Popen(["yes", "1"], stdout=subprocess.PIPE) as endless:
            assert endless.stdout
            ran = self.run_tool("list.ctd", "-", stdin=endless.stdout.fileno())
            endless.stdout.close()
        self.assertEqual(ran.stdout.decode().splitlines()[:2], ["-: line 3 column 1: expected end of file (program end)", "      3 | 1"])

    def test_a_long_input_through_a_pipe(self) -> None:
        ran = self.run_tool("list.ctd", "-", stdin=b"100000\n" + b"1 " * 99_999 + b"11\n")
        self.assertEqual(ran.stdout.decode().splitlines()[0], "-: line 2 column 199999: value out of range (program line 3 column 5)")

    def test_strange_names(self) -> None:
        for name in [b"-q", b"a name.in", b"\xff.in"]:
            with self.subTest(name):
                self.write(name, "1\n1\n")
                ran = self.run_tool("--", "list.ctd", name)
                self.assertEqual((ran.stdout, ran.returncode), (name + b": testdata ok!\n", 0))

    def test_control_characters_in_names_are_escaped(self) -> None:
        for name, shown in [("a\nb.in", r"a\nb.in"), ("\x1b[31m\x7f\t.in", r"\x1b[31m\x7f\t.in"), ("\u202eé\x85.in", r"\u202eé\x85.in"), (r"a\b.in", r"a\\b.in")]:
            with self.subTest(shown):
                self.write(os.fsencode(name), "0\n")
                ran = self.run_tool("list.ctd", os.fsencode(name))
                self.assertEqual(ran.stdout.decode().splitlines()[0], f"{shown}: line 1 column 1: value out of range (program line 1 column 1)")
                ran = self.run_tool("--gcc", "list.ctd", os.fsencode(name))
                self.assertEqual(ran.stdout.decode(), f"{shown}:1:1: error: value out of range (list.ctd:1:1)\n")

    def test_control_characters_in_the_name_of_the_program_are_escaped(self) -> None:
        self.write("\x1b.ctd", "INT(5,9)")
        self.write("wrong.in", "1")
        self.assertEqual(self.run_tool("\x1b.ctd", "wrong.in").stdout.decode().splitlines()[3], r"\x1b.ctd:")
        self.assertEqual(self.run_tool("--gcc", "\x1b.ctd", "wrong.in").stdout, rb"wrong.in:1:1: error: value out of range (\x1b.ctd:1:1)" + b"\n")
        self.assert_run(2, "checktestdata: cannot open \\x1b\\n.ctd\n", "\x1b\n.ctd", "right.in")

    def test_a_checker_that_breaks_off(self) -> None:
        self.write_checker("kill -9 $$")
        ran = self.run_tool("list.ctd", "right.in", checker="./checktestdata")
        self.assertEqual((ran.stdout, ran.returncode), (b"right.in: checktestdata: the checker was ended by signal 9\n", 2))
        self.write_checker("exit 3")
        self.assertIn(b"checktestdata: the checker ended with status 3\n", self.run_tool("list.ctd", "right.in", checker="./checktestdata").stdout)

    def test_a_checker_that_is_not_there(self) -> None:
        ran = self.run_tool("list.ctd", "right.in", checker="./none")
        self.assertEqual((ran.stdout, ran.returncode), (b"", 2))
        self.assertIn(b"ctd-show: error: the checker is not found; say where it is by --checker", ran.stderr)

    def test_the_checker_beside_it_and_in_its_checkout_and_on_the_path(self) -> None:
        shutil.copytree(TOOLS, self.folder / "tools", ignore=shutil.ignore_patterns("__pycache__"))
        places = ["tools", "crates/checktestdata/out", "out", "path"]
        for place in places:
            (self.folder / place).mkdir(parents=True, exist_ok=True)
            self.write(f"{place}/checktestdata", f"#!/bin/sh\necho from {place}\n")
            (self.folder / place / "checktestdata").chmod(0o755)
        for place in places:
            call = [str(self.folder / "tools/ctd-show"), "list.ctd", "right.in"]
            ran = subprocess.run(call, cwd=self.folder, env={"PATH": f"{self.folder}/path:{os.environ['PATH']}"}, capture_output=True, check=False)
            self.assertEqual(ran.stdout.decode(), f"right.in: from {place}\n")
            (self.folder / place / "checktestdata").unlink()

    def test_a_program_of_windows(self) -> None:
        load("ctd-show")
        companion = sys.modules["ctd_companion"]
        self.write("ctd-lint.exe", "")
        (self.folder / "ctd-lint.exe").chmod(0o755)
        with mock.patch.object(companion, "EXECUTABLE_SUFFIX", ".exe"):
            self.assertEqual(companion.find_program("ctd-lint", self.folder), str((self.folder / "ctd-lint.exe").resolve()))

    def test_no_module_is_of_posix_alone(self) -> None:
        missing = {name: None for name in ["fcntl", "grp", "pty", "pwd", "resource", "syslog", "termios", "tty"]}
        # (one needs a library, which may not be there)
        without_library = set() if importlib.util.find_spec("pylsp_jsonrpc") else {"ctd_server"}
        modules = sorted({path.stem for path in TOOLS.glob("*.py")} - without_library)
        script = f"import sys; sys.modules.update({missing}); sys.path.insert(0, {str(TOOLS)!r}); import {', '.join(modules)}"
        subprocess.run([sys.executable, "-B", "-c", script], timeout=OUT_OF_TIME, check=True)

    def test_progress_on_a_terminal(self) -> None:
        self.write_checker("cat >/dev/null\nsleep 0.8\necho testdata ok!")
        ours, theirs = pty.openpty()
        call = [str(TOOLS / "ctd-show"), "--checker", "./checktestdata", "-j", "1", "list.ctd", "right.in", "right.in"]
        with subprocess.Popen(call, cwd=self.folder, stdout=subprocess.PIPE, stderr=theirs) as process:
            os.close(theirs)
            out, _ = process.communicate(timeout=OUT_OF_TIME)
        self.assertEqual(out.decode(), "right.in: testdata ok!\n" * 2 + "2 checked, 2 fit, 0 rejected, 0 without verdict\n")
        told = os.read(ours, 4096)
        os.close(ours)
        self.assertIn(b"1 of 2 files", told)
        self.assertTrue(told.endswith(b"\r\x1b[K"), "the line is taken away at the end")

    def test_no_progress_without_a_terminal(self) -> None:
        self.write_checker("cat >/dev/null\nsleep 1.2\necho testdata ok!")
        self.assertEqual(self.run_tool("list.ctd", "right.in", checker="./checktestdata").stderr, b"")

    def test_a_reader_that_goes_away(self) -> None:
        ran = self.run_shell(f"{TOOLS}/ctd-show --checker {CHECKER} list.ctd {'right.in ' * 200} | head -n 1")
        self.assertEqual((ran.stdout, ran.stderr), (b"right.in: testdata ok!\n", b""))

    def test_wrong_words(self) -> None:
        for words in ["", "list.ctd", "--none list.ctd right.in", "-j 0 list.ctd right.in", "-j x list.ctd right.in"]:
            with self.subTest(words):
                ran = self.run_tool(*words.split())
                self.assertEqual((ran.stdout, ran.returncode), (b"", 2))
                self.assertIn(b"usage: ctd-show", ran.stderr)


class Mutate(CompanionTest):
    tool = "ctd-mutate"

    def made(self, kind: str, data: bytes, *words: str) -> list[bytes]:
        """The files of a kind that are made from data and let through by a program that every file fits."""
        self.write("anything.ctd", ANYTHING)
        self.write("data.in", data)
        shutil.rmtree(self.folder / "made", ignore_errors=True)
        self.run_tool("--only", kind, "-o", "made", *words, "anything.ctd", "data.in")
        return [(self.folder / f"made/data.{kind}.{number}.in").read_bytes() for number in range(1, 1 + len(list((self.folder / "made").glob("*"))))]

    def test_what_each_kind_makes(self) -> None:
        for kind, data, made in [
            ("trailing-space", b"1\n2\n", [b"1 \n2\n", b"1\n2 \n"]),
            ("trailing-space", b"1\n2", [b"1 \n2", b"1\n2 "]),
            ("no-last-newline", b"1\n2\n", [b"1\n2"]),
            ("crlf", b"1\n2\n", [b"1\r\n2\n", b"1\n2\r\n"]),
            ("crlf-everywhere", b"1\n2\n", [b"1\r\n2\r\n"]),
            ("leading-zero", b"1 -2\n0 a7\n", [b"01 -2\n0 a7\n", b"1 -02\n0 a7\n", b"1 -2\n00 a7\n"]),
            ("minus-zero", b"0 10 -0 0\n", [b"-0 10 -0 0\n", b"0 10 -0 -0\n"]),
            ("plus", b"1 -2 x3 0\n", [b"+1 -2 x3 0\n", b"1 -2 x3 +0\n"]),
            ("crlf-everywhere", b"1\r\n2\n", [b"1\r\n2\r\n"]),
            ("crlf-everywhere", b"1\r\n2\r\n", []),
            ("tab", b"1 2\n a\n", [b"1\t2\n a\n", b"1 2\n\ta\n"]),
            ("doubled-separator", b"1 2,3\t4\n", [b"1  2,3\t4\n", b"1 2,,3\t4\n", b"1 2,3\t\t4\n"]),
            ("blank-line", b"1\n2\n", [b"\n1\n2\n", b"1\n\n2\n", b"1\n2\n\n"]),
            ("byte-order-mark", b"1\n", [b"\xef\xbb\xbf1\n"]),
            ("huge", b"1 -2\nx3\n", [b"9" * 40 + b" -2\nx3\n", b"1 " + b"9" * 40 + b"\nx3\n"]),
            ("zero", b"7 0\n-2 x3\n", [b"0 0\n-2 x3\n", b"7 0\n0 x3\n"]),
            ("minus-one", b"7 -1\n0\n", [b"-1 -1\n0\n", b"7 -1\n-1\n"]),
            ("as-next", b"5 7\n-2 -2\n", [b"7 7\n-2 -2\n", b"5 -2\n-2 -2\n"]),
            ("as-previous", b"5 7\n-2 -2\n", [b"5 5\n-2 -2\n", b"5 7\n7 -2\n"]),
            ("as-first", b"5 7\n1 2 3 4\nx 8 9 7 8\n", [b"5 7\n1 2 1 4\nx 8 9 7 8\n", b"5 7\n1 2 3 1\nx 8 9 7 8\n", b"5 7\n1 2 3 4\nx 8 9 8 8\n"]),
            ("above-next", b"5 7\n-2\n", [b"8 7\n-2\n", b"5 -1\n-2\n"]),
            ("above-previous", b"5 7\n-2\n", [b"5 6\n-2\n", b"5 7\n8\n"]),
            ("below-next", b"5 7\n-2\n", [b"6 7\n-2\n", b"5 -3\n-2\n"]),
            ("below-previous", b"5 7\n-2\n", [b"5 4\n-2\n", b"5 7\n6\n"]),
            ("dropped-number", b"1 2 3\n4\na 5,6\n", [b"2 3\n4\na 5,6\n", b"1 3\n4\na 5,6\n", b"1 2\n4\na 5,6\n", b"1 2 3\n\na 5,6\n", b"1 2 3\n4\na,6\n", b"1 2 3\n4\na 5\n"]),
            ("extra-number", b"1,2\n4\n", [b"1,1,2\n4\n", b"1,2,2\n4\n", b"1,2\n4 4\n"]),
            ("dropped-line", b"1\n2\n3", [b"2\n3", b"1\n3", b"1\n2\n"]),
            ("doubled-line", b"1\n2\n3", [b"1\n1\n2\n3", b"1\n2\n2\n3", b"1\n2\n3\n3"]),
            ("exchanged-lines", b"1\n2\n\n3\n", [b"2\n1\n\n3\n", b"1\n\n2\n3\n", b"1\n2\n3\n\n"]),
            ("exchanged-lines", b"1\n2\n3", [b"2\n1\n3", b"1\n3\n2"]),
            ("letter-case", b"aB1\n", [b"AB1\n", b"ab1\n"]),
            ("above-all", b"3 9\n4 5\n-7 2\n", [b"3 10\n4 5\n-7 2\n", b"3 9\n5 5\n-7 2\n"]),
            ("below-all", b"3 9\n4 5\n-7 2\n", [b"3 9\n4 5\n-8 2\n", b"3 9\n4 5\n-7 1\n"]),
            # (lines with other words have columns of their own)
            ("above-all", b"3\n9\na 5\na 4\n", [b"3\n10\na 5\na 4\n", b"3\n9\na 6\na 4\n"]),
            ("as-above", b"1 ab\n2 c,d\n\n5\n", [b"1 ab\n1 c,d\n\n5\n", b"1 ab\n2 ab,d\n\n5\n"]),
            ("exchanged-words", b"1 ab\n2 c,d\n3 3\n", [b"ab 1\n2 c,d\n3 3\n", b"1 ab\nc 2,d\n3 3\n", b"1 ab\n2 d,c\n3 3\n"]),
            ("as-line-above", b"1 2\n3 4\n5\n5\n6", [b"1 2\n1 2\n5\n5\n6", b"1 2\n3 4\n5\n5\n5"]),
            ("reversed-line", b"1 2\n3,4\n5\n6\n", [b"1 2\n2 1\n5\n6\n"]),
            # (the byte is at an even offset, and then at an odd one)
            ("other-letter", b"S.#.\n5-3\n", [b"#.#.\n5-3\n", b"SS#.\n5-3\n", b"S..#\n5-3\n".replace(b".#", b"..", 1), b"S.#S\n5-3\n"]),
            ("other-letter", b"aa 1\n", []),
            ("dropped-letter", b"ab 1.5 .#\n", [b"b 1.5 .#\n", b"a 1.5 .#\n", b"ab 1.5 #\n", b"ab 1.5 .\n"]),
            ("doubled-letter", b"ab -5 .\n", [b"aab -5 .\n", b"abb -5 .\n", b"ab -5 ..\n"]),
            ("exchanged-letters", b"aab 10\nc\n", [b"aba 10\nc\n", b"aab 01\nc\n"]),
            ("longer-word", b"3 ann\n4 bobby\n5 bob\nlonely\n", [b"3 ann\n4 bobbyy\n5 bob\nlonely\n", b"3 ann\n4 bobby\n5 bob\nlonelyy\n"]),
            ("text-at-end", b"1 2\n3\n", [b"1 2\n3x\n", b"1 2\n3 x\n", b"1 2\n3\nx\n"]),
            ("text-at-end", b"1\nab\n", [b"1x\nab\n", b"1\nab x\n", b"1\nab\nx\n"]),
            ("text-at-end", b"1\nab", [b"1x\nab", b"1\nab x"]),
            ("empty-list", b"3\n1 2 4\n", [b"0\n\n", b"0\n"]),
            ("empty-list", b"3 1 2 3\n", [b"0\n"]),
            ("empty-list", b"4\nabcd\n", [b"0\n\n", b"0\n"]),
            ("empty-list", b"3 5\nabc 1\nd 2\ne 4\n", [b"0 5\n"]),
            # a tree, of which one node is left
            ("empty-list", b"4\n1 9\n3 4\n1 5\n", [b"1\n"]),
            # test cases of which the lines are not known
            ("empty-list", b"2\na b c\nc\n\n", [b"0\n"]),
            ("single-list", b"3\n1 2 4\n", [b"1\n1\n"]),
            ("single-list", b"3\na\nb\nc\n", [b"1\na\n"]),
            ("shorter-list", b"3\n1 2 4\n", [b"2\n1 2\n"]),
            ("shorter-list", b"3 4\n1 3\n3 5\n1 5\n3 3\n", [b"3 3\n1 3\n3 5\n1 5\n"]),
            # the longest item comes twice
            ("longer-list", b"3\n1 22 4\n", [b"4\n1 22 22 4\n"]),
            ("longer-list", b"4\nabcd\n", [b"5\nabcdd\n"]),
            ("longer-list", b"2\n1\n7 8\n3\n1 2 4", [b"3\n1\n7 8\n3\n1 2 4\n3\n1 2 4", b"2\n1\n7 8\n4\n1 1 2 4"]),
            ("doubled-list", b"3\n1 2 4\n", [b"6\n1 2 4 1 2 4\n"]),
            ("doubled-list", b"2\nx\ny z\n\nu\n", [b"4\nx\ny z\n\nu\nx\ny z\n\nu\n"]),
            ("empty-file", b"1\n2\n", [b""]),
            ("empty-file", b"", []),
        ]:
            with self.subTest(kind=kind, data=data):
                self.assertEqual(self.made(kind, data), made)

    def test_every_kind_is_tried_above(self) -> None:
        listed = [line.split()[0] for line in self.run_tool("--kinds").stdout.decode().splitlines()]
        self.assertEqual(len(listed), 45)

    def test_the_man_page_has_each_kind_with_what_it_asks(self) -> None:
        page = (TOP / "man/ctd-mutate.1").read_text()
        for kind in load("ctd-mutate").sys.modules["ctd_changes"].KINDS:
            with self.subTest(kind.name):
                self.assertIn(f".It Cm {kind.name}\n{kind.title}{f':{chr(10)}{kind.sees}' if kind.may_fit else ''}", page)

    def test_lists_of_a_large_file_are_those_that_its_windows_show(self) -> None:
        # Nine windows' worth: the first window has the list of three, the last one that of two, and none the list of all lines.
        changes, edits = (load("ctd-mutate").sys.modules[name] for name in ("ctd_changes", "ctd_edits"))
        lines = 9 * 2**9
        self.write("large.in", b"%d\n3\na\nb\nc\n" % lines + b"x 1 y z\n" * lines + b"2\nab cd\n")
        with open(self.folder / "large.in", "rb") as file, mock.patch.object(edits, "WINDOW", 1 << 12):
            source = changes.Source(file, 0, os.path.getsize(self.folder / "large.in"))
            self.assertEqual(sorted(counted.number for found in source.form.lists.values() for counted in found), [2, 3])
            (edit,) = [edit for kind in changes.KINDS if kind.name == "single-list" for edit in kind.edits(source, 10)]
            self.assertEqual(b"".join(edit.applied(source))[:16], b"4608\n1\na\nx 1 y z")

    def test_changes_are_spread_over_the_file(self) -> None:
        # In 18 bytes: the first line that begins at 0, at 9.7 or later, and at 13.4 or later.
        data = b"1\n2\n3\n4\n5\n6\n7\n8\n9\n"
        self.assertEqual(self.made("dropped-line", data, "-n", "3"), [data.replace(line, b"") for line in (b"1\n", b"6\n", b"8\n")])

    def test_changes_are_as_many_as_are_asked_for_where_all_places_are_at_the_start(self) -> None:
        data = b"abcdef" + b"\n" * 100
        self.assertEqual(len(self.made("letter-case", data, "-n", "5")), 5)

    def test_each_column_is_changed(self) -> None:
        data = b"100 200 300\n" * 100
        changed = {place for made in self.made("leading-zero", data) for place in [made.index(b" 0") % 12 if b" 0" in made else 0]}
        self.assertEqual(len(changed), 3)

    def test_a_change_that_changes_nothing_gives_way_to_the_next(self) -> None:
        self.assertEqual(self.made("exchanged-lines", b"1\n1\n1\n2\n", "-n", "1"), [b"1\n1\n2\n1\n"])

    def test_all_are_rejected(self) -> None:
        self.write("number.ctd", "INT(5,5) NEWLINE")
        self.write("right.in", "5\n")
        self.assert_run(
            0,
            "should not fit     made  rejected  let through  no verdict\n"
            "trailing-space        1         1            0           0  a space at the end of a line\n"
            "no-last-newline       1         1            0           0  no line feed at the end of the file\n"
            "crlf                  1         1            0           0  a carriage return at the end of a line\n"
            "crlf-everywhere       1         1            0           0  a carriage return at the end of each line\n"
            "blank-line            2         2            0           0  an extra blank line\n"
            "byte-order-mark       1         1            0           0  a byte order mark\n"
            "leading-zero          1         1            0           0  a number with a leading zero\n"
            "plus                  1         1            0           0  a number with a plus\n"
            "huge                  1         1            0           0  a number of 40 digits\n"
            "may fit            made  rejected  let through  no verdict\n"
            "zero                  1         1            0           0  0 in place of a number\n"
            "minus-one             1         1            0           0  -1 in place of a number\n"
            "above-all             1         1            0           0  a number one more than all of its column\n"
            "below-all             1         1            0           0  a number one less than all of its column\n"
            "dropped-number        1         1            0           0  a number dropped\n"
            "extra-number          1         1            0           0  a number too many\n"
            "dropped-line          1         1            0           0  a line dropped\n"
            "doubled-line          1         1            0           0  a line twice\n"
            "text-at-end           3         3            0           0  text behind the last number or line\n"
            "empty-file            1         1            0           0  an empty file\n"
            "should not fit: 10 made, 10 rejected, 0 let through, 0 without verdict\n"
            "may fit: 12 made, 12 rejected, 0 let through, 0 without verdict\n",
            "number.ctd",
            "right.in",
        )

    def test_what_is_let_through_and_what_has_no_verdict_is_listed(self) -> None:
        # 8/n stops the check where n is 0, which is one above -1; and a pair in either order fits.
        self.write("divide.ctd", "INT(-9,9,n) SPACE INT(-9,9) NEWLINE ASSERT(8/n<9)")
        self.write("right.in", "5 -1\n")
        shown = (
            "may fit            made  rejected  let through  no verdict\n"
            "above-next            1         0            0           1  a number one more than the one after it\n"
            "above-previous        1         0            1           0  a number one more than the one before it\n"
            "no verdict: above-next: a number one more than the one after it (may be another file that fits)\n"
            '  right.in:1: "5·-1\\n" → "0·-1\\n": division by zero\n'
            "let through: above-previous: does the program see a number that may not be above the one before it? (may be another file that fits)\n"
            '  right.in:1: "5·-1\\n" → "5·6\\n"\n'
            "may fit: 2 made, 0 rejected, 1 let through, 1 without verdict\n"
        )
        words = ["--only", "above-next,above-previous", "divide.ctd", "right.in"]
        self.assert_run(0, shown, *words)
        self.assert_run(0, shown, "--strict", *words)
        self.assert_run(1, shown, "--no-strict", *words)

    def test_what_should_not_fit_counts_for_the_status(self) -> None:
        self.write("loose.ctd", "INT(1,10) IF(MATCH(\" \")) SPACE END NEWLINE IF(ISEOF) ELSE INT(1,9) NEWLINE END")
        self.write("right.in", "5\n")
        for words, status in [("", 1), ("--strict", 1), ("--no-strict", 1), ("--ignore trailing-space", 0), ("--ignore trailing-space --no-strict", 1), ("-w", 0)]:
            with self.subTest(words):
                self.assertEqual(self.run_tool(*words.split(), "loose.ctd", "right.in").returncode, status)

    def test_without_a_verdict_counts_as_not_rejected(self) -> None:
        self.write("steps.ctd", "WHILE(!ISEOF) INT(0,99) NEWLINE END")
        self.write("right.in", "5\n")
        ran = self.run_tool("--only=blank-line", "--max-steps=6", "steps.ctd", "right.in")
        self.assertEqual((ran.stdout.decode().splitlines()[-1], ran.returncode), ("should not fit: 2 made, 2 rejected, 0 let through, 0 without verdict", 0))
        ran = self.run_tool("--only=doubled-line", "--no-strict", "--max-steps=6", "steps.ctd", "right.in")
        self.assertEqual((ran.stdout.decode().splitlines()[-1], ran.returncode), ("may fit: 1 made, 0 rejected, 0 let through, 1 without verdict", 1))

    def test_correct_programs_end_with_0(self) -> None:
        for program in ["numbers", "list", "graph", "grids"]:
            folder = TOP / "examples" / program
            with self.subTest(program):
                ran = self.run_tool("-n", "2", str(folder / "program.ctd"), str(folder / "right.in"))
                self.assertEqual((ran.returncode, ran.stderr), (0, b""), ran.stdout.decode())

    def test_with_w_other_blanks_may_fit(self) -> None:
        self.write("pair.ctd", "INT(1,9) SPACE INT(1,9) NEWLINE")
        self.write("right.in", "5 7\n")
        words = ["--only", "tab,trailing-space,blank-line", "pair.ctd", "right.in"]
        ran = self.run_tool("-w", *words)
        self.assertEqual(
            (ran.stdout.decode().splitlines()[-2:], ran.returncode),
            (["should not fit: 2 made, 2 rejected, 0 let through, 0 without verdict", "may fit: 2 made, 0 rejected, 2 let through, 0 without verdict"], 0),
        )
        ran = self.run_tool(*words)
        self.assertEqual((ran.stdout.decode().splitlines()[-1], ran.returncode), ("should not fit: 4 made, 4 rejected, 0 let through, 0 without verdict", 0))

    def test_a_file_larger_than_the_memory(self) -> None:
        # One line of 600 MB, with 400 MB of memory; the checker looks at its first bytes alone.
        self.write_checker("head -c 1000 >/dev/null\necho testdata ok!")
        with open(self.folder / "large.in", "wb") as file:
            file.truncate(600_000_000)
        kinds = "trailing-space,crlf-everywhere,byte-order-mark,doubled-line,dropped-line,empty-file"
        ran = self.run_shell(f"ulimit -v 400000; {TOOLS}/ctd-mutate -j 1 --only {kinds} --checker ./checktestdata list.ctd large.in")
        lines = ran.stdout.decode().splitlines()
        self.assertEqual((lines[-2:], ran.stderr, ran.returncode), (["should not fit: 2 made, 0 rejected, 2 let through, 0 without verdict", "may fit: 3 made, 0 rejected, 3 let through, 0 without verdict"], b"", 1))
        line = "\\x00" * 40
        self.assertIn(f'  large.in:1: "{line}…" → "\\xef\\xbb\\xbf{line[:37 * 4]}…"', lines)
        self.assertIn(f'  large.in:1: "…{line[:80]}" → "…{line[:80]}·"', lines)
        self.assertIn(f'  large.in:1: "{line}…" → ""', lines)

    def test_places_in_a_large_file(self) -> None:
        # Each pattern matches at the same places in windows as in the whole; of a large file, the windows are spread from its start to its end.
        changes, edits = (load("ctd-mutate").sys.modules[name] for name in ("ctd_changes", "ctd_edits"))
        part = b"1 -2 x3\n\n0, 12 9\na.b 007\r\n" + b"5" * 999 + b" "
        data = b"7" + part * (2_500_000 // len(part))
        (self.folder / "large.in").write_bytes(data)
        with open(self.folder / "large.in", "rb") as file:
            source = changes.Source(file, 1, len(data) - 1)
            for kind in changes.KINDS:
                with self.subTest(kind.name):
                    self.assertEqual([place.start for place in source.places(kind.place, 0)], [found.start() for found in kind.place.finditer(data[1:])])
        source = changes.Source(io.BytesIO(), 0, 100_000_000)
        self.assertEqual((source.windows[0], source.windows[-1]), (0, 100_000_001 - edits.WINDOW))
        self.assertEqual(len(source.windows), 8)

    def test_five_of_a_kind_are_listed_or_all(self) -> None:
        self.write("anything.ctd", ANYTHING)
        self.write("right.in", "abcdefg\n")
        lines = self.run_tool("--only", "letter-case", "anything.ctd", "right.in").stdout.decode().splitlines()
        changed = ["Abcdefg", "aBcdefg", "abCdefg", "abcDefg", "abcdEfg"]
        listed = [f'  right.in:1: "abcdefg\\n" → "{line}\\n"' for line in changed]
        ending = ["  and 2 more", "may fit: 7 made, 0 rejected, 7 let through, 0 without verdict"]
        self.assertEqual(lines[2:], ["let through: letter-case: does the program see a letter of the wrong case? (may be another file that fits)", *listed, *ending])
        self.assertIn('"abcdefG\\n"', self.run_tool("-a", "--only", "letter-case", "anything.ctd", "right.in").stdout.decode())

    def test_a_file_that_does_not_fit(self) -> None:
        self.write("number.ctd", "INT(1,10) NEWLINE")
        self.write("right.in", "5\n")
        self.write("wrong.in", "11\n")
        ran = self.run_tool("--only", "plus", "number.ctd", "wrong.in", "none.in", "right.in")
        lines = ran.stdout.decode().splitlines()
        self.assertEqual(lines[0], "wrong.in: line 1 column 1: value out of range (program line 1 column 1)")
        self.assertEqual(lines[1], "none.in: cannot read: No such file or directory")
        self.assertEqual((ran.returncode, lines[-1]), (2, "should not fit: 1 made, 1 rejected, 0 let through, 0 without verdict"))

    def test_a_program_that_is_refused(self) -> None:
        self.write("open.ctd", "INT(1,10")
        self.write("right.in", "5\n")
        self.assert_run(2, "checktestdata: program line 1 column 9: syntax error\n", "open.ctd", "right.in", "right.in")

    def test_files_of_one_name_in_two_folders(self) -> None:
        self.write("anything.ctd", ANYTHING)
        for folder in ["a", "b"]:
            (self.folder / folder).mkdir()
            self.write(f"{folder}/1.in", f"{folder}\n")
        self.run_tool("--only", "byte-order-mark", "-o", "made", "anything.ctd", "a/1.in", "b/1.in", "-", stdin=b"c\n")
        names = {path.name: path.read_bytes()[3:] for path in (self.folder / "made").iterdir()}
        self.assertEqual(names, {"a_1.byte-order-mark.1.in": b"a\n", "b_1.byte-order-mark.1.in": b"b\n", "standard-input.byte-order-mark.1": b"c\n"})

    def test_a_folder_that_cannot_be_made(self) -> None:
        self.write("anything.ctd", ANYTHING)
        self.write("right.in", "5\n")
        ran = self.run_tool("-o", "right.in/made", "anything.ctd", "right.in")
        self.assertEqual((ran.stdout, ran.returncode), (b"", 2))
        self.assertEqual(ran.stderr, b"ctd-mutate: right.in/made: Not a directory\n")

    def test_an_unknown_kind(self) -> None:
        self.write("right.in", "5\n")
        ran = self.run_tool("--only", "plus,none", "anything.ctd", "right.in")
        self.assertEqual((ran.stdout, ran.returncode), (b"", 2))
        self.assertIn(b"no kind none; --kinds lists them", ran.stderr)

    def test_sides_that_look_alike_are_shown_where_they_differ(self) -> None:
        self.write("anything.ctd", ANYTHING)
        self.write("right.in", f"{'a' * 100}1\n{'a' * 100}2\n")
        lines = self.run_tool("--only", "exchanged-lines,doubled-line", "anything.ctd", "right.in").stdout.decode().splitlines()
        front = f"…{'a' * 20}"
        exchanged = f'  right.in:1: "{front}1\\n{"a" * 18}…" → "{front}2\\n{"a" * 18}…"'
        doubled = f'  right.in:2: "…{"a" * 18}2\\n" → "…{"a" * 18}2\\n{"a" * 20}…"'
        self.assertIn(exchanged, lines)
        self.assertIn(doubled, lines)

    def test_huge_numbers_may_fit_where_a_pattern_takes_them(self) -> None:
        self.write("right.in", "5\n")
        for pattern, status, title in [
            ("[0-9]{1,39}", 0, "should not fit: 1 made, 1 rejected"),
            ("[0-9]{1,100}", 0, "may fit: 1 made, 0 rejected, 1"),
            ("[0-9]+", 1, "should not fit: 1 made, 0 rejected, 1"),
        ]:
            with self.subTest(pattern):
                self.write("string.ctd", f'REGEX("{pattern}") NEWLINE')
                ran = self.run_tool("--only", "huge", "string.ctd", "right.in")
                self.assertEqual((ran.returncode, ran.stdout.decode().splitlines()[-1][: len(title)]), (status, title))

    def test_a_long_line_is_cut_around_the_change(self) -> None:
        self.write("anything.ctd", ANYTHING)
        self.write("right.in", "a" * 100 + "b" + "1" * 100 + "\n")
        lines = self.run_tool("--only", "letter-case", "-n", "101", "-a", "anything.ctd", "right.in").stdout.decode().splitlines()
        self.assertEqual(lines[-2], f'  right.in:1: "…{"a" * 20}b{"1" * 19}…" → "…{"a" * 20}B{"1" * 19}…"')


class Both(CompanionTest):
    TOOLS = ["ctd-show", "ctd-mutate"]

    def setUp(self) -> None:
        super().setUp()
        self.write("number.ctd", "INT(1,10) NEWLINE")
        self.write("right.in", "5\n")

    def test_help_and_version(self) -> None:
        version = self.written_by(CHECKER, "--version").split()[1]
        for tool in [*self.TOOLS, "ctd-cover", "ctd-package", "ctd-validate"]:
            with self.subTest(tool):
                shown = self.written_by(TOOLS / tool, "--help")
                self.assertTrue(shown.startswith(f"usage: {tool} [-h]"))
                for words in ["-h, --help", "-V, --version"]:
                    self.assertIn(f"\n  {words} ", shown)
                self.assertEqual(self.written_by(TOOLS / tool, "--version"), f"{tool} {version}\n")

    @staticmethod
    def written_by(command: Path, word: str) -> str:
        return subprocess.run([command, word], capture_output=True, text=True, check=True).stdout

    def test_streams_that_are_closed_or_full(self) -> None:
        """One line of error and status 2, and never a traceback."""
        for tool in self.TOOLS:
            call = f"{TOOLS}/{tool} --checker {CHECKER}"
            for rest, status, err in [
                ("number.ctd right.in >&-", 2, "standard output is closed"),
                ("--help >&-", 2, "standard output is closed"),
                ("number.ctd right.in >/dev/full", 2, "No space left on device"),
                ("--help >/dev/full", 2, "No space left on device"),
                ("number.ctd right.in >/dev/null 2>&-", 0, None),
                ("number.ctd none.in >/dev/null 2>&-", 2, None),
                ("number.ctd right.in >&- 2>&-", 2, None),
                ("number.ctd right.in >/dev/full 2>/dev/full", 2, None),
                ("number.ctd right.in <&- >/dev/null", 0, None),
                ("number.ctd - <&- >/dev/null", 2, None),
                ("--files-from=- number.ctd <&- >/dev/null", 2, "Bad file descriptor"),
            ]:
                with self.subTest(tool=tool, rest=rest):
                    ran = self.run_shell(f"{call} {rest}")
                    self.assertEqual((ran.stdout, ran.stderr.decode(), ran.returncode), (b"", f"{tool}: {err}\n" if err else "", status))

    def test_standard_input_that_is_closed_is_not_another_file(self) -> None:
        for tool in self.TOOLS:
            ran = self.run_shell(f"{TOOLS}/{tool} --checker {CHECKER} number.ctd right.in - <&- | grep ^-:")
            self.assertEqual((ran.stdout, ran.stderr), (b"-: cannot read: Bad file descriptor\n", b""))


if __name__ == "__main__":
    sys.exit(run_unit_tests("companions"))
