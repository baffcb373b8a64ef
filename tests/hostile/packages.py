#!/usr/bin/env python3
"""Gives ctd-package the packages and reports of strangers: settings that are no settings, folders without end, validators that never end, names that
mean something to a shell. Each run ends soon, with status 2 and one line that names the file, or with what has to be found.

The last line counts what passed and failed. usage: tests/hostile/packages.py [PROGRAM]"""
from __future__ import annotations

import contextlib
import importlib.util
import json
import os
import shutil
import sys
import unittest
from collections.abc import Iterator
from pathlib import Path
from typing import Any
from unittest import mock
from xml.etree import ElementTree

from hostile import CHECKER, TOOLS, HostileTest, run_unit_tests

sys.dont_write_bytecode = True
sys.path.insert(0, str(TOOLS))
import ctd_others  # noqa: E402
import ctd_problem  # noqa: E402

HAS_YAML = importlib.util.find_spec("yaml") is not None
HAS_C = shutil.which("cc") is not None and shutil.which("c++") is not None
ACCEPTS, REJECTS = "int main(void) { return 42; }\n", "int main(void) { return 43; }\n"
SETTINGS = "data/secret/testdata.yaml"


class PackageTest(HostileTest):
    tool = "ctd-package"

    def setUp(self) -> None:
        super().setUp()
        self.put({"input_validators/n.ctd": "SET(maxn=9) INT(1,maxn) NEWLINE", "data/sample/1.in": "5\n", "data/secret/2.in": "6\n"})

    def found(self, *words: str, package: str = "p") -> tuple[int, list[str]]:
        """The status and the lines of a run that ends soon without an error."""
        ran = self.run_soon("--no-cover", *words, package)
        self.assertEqual(ran.stderr, b"")
        return ran.returncode, ran.stdout.decode("utf-8", "surrogateescape").splitlines()


@unittest.skipUnless(HAS_YAML, "PyYAML is not there")
class Settings(PackageTest):
    def test_what_no_settings_may_have(self) -> None:
        merged = "a0: &a0 {x: y}\n" + "".join(f"a{n}: &a{n} {{<<: [{', '.join([f'*a{n - 1}'] * 9)}]}}\n" for n in range(1, 12))
        for text, place, told in [
            ("on_reject: 2024-13-45", ":1:12", "tags, dates and << are not taken"),
            ("input_validator_flags: 2024-02-30", ":1:24", "tags, dates and << are not taken"),
            ("grading: !!int foo", ":1:10", "tags, dates and << are not taken"),
            ("grading: !!python/object:os.system {}", ":1:10", "tags are not taken"),
            ("max_score: " + "9" * 5000, ":1:12", "is too long"),
            ("grading: " + "[" * 20_000, ":1:19", "is more than 10 levels deep"),
            ("grading: " + "{a: " * 10_000, ":1:46", "is more than 10 levels deep"),
            (r'input_validator_flags: "n=\0"', ":1:24", "has a character that is none"),
            (r'input_validator_flags: "n=\ud800"', ":1:24", "has a character that is none"),
            (r'input_validator_flags: "n=\UFFFFFFFF"', "", "is no YAML"),
            ("input_validator_flags: \0", "", "is no YAML"),
            ("input_validator_flags: \ud800", "", "is no YAML"),
            (merged, ":1:5", "anchors and aliases are not taken"),
            ("<<: {input_validator_flags: -w}", ":1:1", "tags, dates and << are not taken"),
            ("? [a]\n: b", ":1:3", "a name is no text"),
            ("input_validator_flags: -w\ninput_validator_flags: maxn=1", ":2:1", "the name input_validator_flags comes twice"),
            ("grading: a\n---\ngrading: b", ":2:1", "a second document"),
            ("%YAML 1." + "9" * 5000 + "\n---\na: b", "", "is no YAML"),
            ("%YAML 9.1\n---\na: b", ":1:1", "is no YAML"),
            ("grading: " + "x" * 70_000, "", "has more than 65536 bytes"),
            ("description: " + "x" * 9_000, ":1:14", "is too long"),
            ("input_validator_flags: s=" + "x" * 5_000, "", "input_validator_flags has more than 4096 characters"),
            ("input_validator_args: [" + "maxn=1, " * 1_000 + "]", "", "input_validator_args has more than 4096 characters"),
            ("input_validator_args: [[a]]", "", "input_validator_args is neither a text nor a list, nor has it a list for each validator"),
            ("input_validator_args: {n: a}", "", "input_validator_args is neither a text nor a list, nor has it a list for each validator"),
            ("input_validator_args: {'': a}", "", "input_validator_args is neither a text nor a list, nor has it a list for each validator"),
            ("input_validator_args: {m: [maxn=1]}", "", "input_validator_args: m is the name of no validator"),
            ("input_validator_args: ['maxn={{most}}']", "", "input_validator_args: constants {{..}} and files {} are not put in"),
            ("input_validator_flags: " + "y" * 1000, "", f"input_validator_flags: {'y' * 200} is no option of checktestdata and no preset"),
            ("no_such_key: 1", "", "unknown key no_such_key"),
            ('"a\\e[1mb": 1', "", r"unknown key a\x1b[1mb"),
            ("on_rejct: 1", "", "unknown key on_rejct; did you mean on_reject?"),
        ]:
            with self.subTest(text[:60]):
                self.put({SETTINGS: text})
                self.assert_refused(f"p/{SETTINGS}{place}: {told}", "p")

    def test_settings_that_are_no_file(self) -> None:
        path = self.folder / "p" / SETTINGS
        for make in (os.mkfifo, os.mkdir, lambda path: os.symlink("none", path), lambda path: os.symlink("/dev/zero", path)):
            make(path)
            self.assert_refused(f"p/{SETTINGS}: is no file", "p")
            path.rmdir() if path.is_dir() else path.unlink()

    def test_settings_of_one_file(self) -> None:
        self.put({"data/secret/2.yaml": "input_validator_args: [maxn=5]\nhint: small\n", "data/secret/3.in": "9\n"})
        wanted = "data/secret/2.in (--define=maxn=5): line 1 column 1: value out of range (program line 1 column 13)"
        status, lines = self.found()
        self.assertEqual((status, lines[0], lines[-1]), (1, wanted, "3 checked, 2 as they have to be, 1 not"))
        self.put({"data/secret/4.yaml": "hint: x"})
        self.assert_refused("p/data/secret/4.yaml: has settings of a file 4.in, which is not there", "p")
        (self.folder / "p/data/secret/4.yaml").unlink()
        self.put({"data/secret/2.yaml": "on_reject: break"})
        self.assert_refused("p/data/secret/2.yaml: unknown key on_reject", "p")

    def test_a_list_for_each_validator(self) -> None:
        self.put({"input_validators/two.ctd": "SET(most=9) INT(1,most) NEWLINE", "input_validators/third.py": "import sys\nsys.exit(sys.argv[1:] == ['--deep', '7'])\n"})
        self.put({"data/secret/test_group.yaml": "input_validator_args: {n: [maxn=6], two.ctd: [most=5], third: [--deep, 7]}"})
        status, lines = self.found("--may-disagree")
        wanted = [
            "data/secret/2.in (--define=most=5): line 1 column 1: value out of range (program line 1 column 13)",
            "data/secret/2.in (--deep 7): input_validators/third.py: rejected",
        ]
        self.assertEqual((status, lines[:2], lines[-1]), (1, wanted, "6 checked, 4 as they have to be, 2 not"))
        self.put({"input_validators/third.c": ACCEPTS})
        self.assert_refused("test_group.yaml: input_validator_args: third is the name of more than one validator", "p")

    def test_what_is_left_alone(self) -> None:
        self.put({"data/secret/test_group.yaml": "max_score: 30\nscore_aggregation: min\nrequire_pass: [sample]\nstatic_validator_args: [x]\noutput_validator_args: [y]\n"})
        self.assertEqual(self.found()[0], 0)
        self.put({"data/secret/testdata.yaml": "on_reject: break\ngrading: default\nrange: -1 10\naccept_score: 1.5\ngrader_flags: min\n"})
        self.assertEqual(self.found()[0], 0)
        self.put({"data/secret/testdata.yaml": "input_validator_flags: maxn=7", "data/secret/test_group.yaml": "input_validator_args: [maxn=8]"})
        self.assert_refused("p/data/secret/test_group.yaml: has flags, as testdata.yaml has", "p")


class Folders(PackageTest):
    def test_data_of_output_validators(self) -> None:
        self.put({"data/valid_output/1.in": "10\n", "data/invalid_output/2.in": "0\n", "data/invalid_output/3.in": "1\n"})
        told = "line 1 column 1: value out of range (program line 1 column 13)"
        wanted = [f"data/valid_output/1.in: {told}", f"data/invalid_output/2.in: {told}"]
        status, lines = self.found()
        self.assertEqual((status, lines[:2], lines[-1]), (1, wanted, "5 checked, 3 as they have to be, 2 not"))

    def test_folders_without_end(self) -> None:
        folder = self.folder / "p/data/secret"
        before = os.getcwd()
        os.chdir(folder)
        for _ in range(1_100):
            os.mkdir("d")
            os.chdir("d")
        os.chdir(before)
        # (what removes it goes down too)
        self.addCleanup(lambda: os.system(f"rm -rf '{folder}'"))
        self.assert_refused("d: lies more than 100 folders deep", "p")

    def test_links_that_make_a_ring(self) -> None:
        for target in ("..", "../..", "."):
            link = self.folder / "p/data/secret/ring"
            link.symlink_to(target)
            self.assert_refused(": is a link to a folder around it", "p")
            link.unlink()
        (self.folder / "p/data/secret/a.in").symlink_to("b.in")
        (self.folder / "p/data/secret/b.in").symlink_to("a.in")
        status, lines = self.found()
        self.assertEqual((status, lines[0]), (2, "data/secret/a.in: cannot read: Too many levels of symbolic links"))

    def test_links_that_fork(self) -> None:
        # 2 ** 20 ways lead to the one file
        for level in range(20):
            self.put({f"data/l{level}/none": ""})
            for name in "ab":
                (self.folder / f"p/data/l{level}/{name}").symlink_to(f"../l{level + 1}")
        self.put({"data/l20/1.in": "1\n"})
        (self.folder / "p/data/secret/all").symlink_to("../l0")
        self.assert_refused("p: more than 10000 folders of data", "p")

    def test_pipes_and_devices(self) -> None:
        for name in ("data/secret/3.in", "input_validators/m.ctd", "input_validators/second.py", "input_validators/second.c", "input_validators/second"):
            with self.subTest(name):
                path = self.folder / "p" / name
                os.mkfifo(path)
                self.assert_refused(f"p/{name}: is no file", "p")
                path.unlink()
                path.symlink_to("/dev/zero")
                self.assert_refused(f"p/{name}: is no file", "p")
                path.unlink()

    def test_a_program_that_is_large(self) -> None:
        with open(self.folder / "p/input_validators/m.ctd", "wb") as file:
            file.truncate(1 << 40)
        status, lines = self.found()
        self.assertEqual((status, lines[0]), (2, "data/sample/1.in: checktestdata: program too long"))

    def test_a_statement_that_is_large(self) -> None:
        for part in (r"\(1", "$n<1", "1+", "1000000 ", r"\num{", "9" * 30 + "^999*", "-" * 30, "$n \\le " + "~" * 50 + "1 "):
            with self.subTest(part):
                self.put({"problem_statement/problem.tex": (part * 750_000)[:750_000]})
                self.assert_refused("p/problem_statement/problem.tex: has more than 65536 bytes", "p")
                self.put({"problem_statement/problem.tex": (part * 65_000)[:65_000]})
                self.assertEqual(self.found()[0], 0)
        os.remove(self.folder / "p/problem_statement/problem.tex")
        os.mkfifo(self.folder / "p/problem_statement/problem.tex")
        self.assert_refused("p/problem_statement/problem.tex: is no file", "p")


class Validators(PackageTest):
    def put_script(self, name: str, script: str) -> None:
        self.put({name: f"#!/bin/sh\n{script}\n"})
        (self.folder / "p" / name).chmod(0o755)

    @unittest.skipUnless(HAS_C, "there is no compiler of C and C++")
    def test_two_of_one_stem(self) -> None:
        self.put({"input_validators/chk.c": ACCEPTS, "input_validators/chk.cpp": REJECTS, "input_format_validators/chk.c": REJECTS})
        status, lines = self.found()
        wanted = [
            f"data/{name}: {folder}/{file}: rejected"
            for name in ("sample/1.in", "secret/2.in")
            for folder, file in (("input_validators", "chk.cpp"), ("input_format_validators", "chk.c"))
        ]
        self.assertEqual((status, lines[:4], lines[-1]), (1, wanted, "8 checked, 4 as they have to be, 4 not"))

    @unittest.skipUnless(HAS_C, "there is no compiler of C and C++")
    def test_names_that_mean_something_to_make_or_a_shell(self) -> None:
        self.put({"input_validators/chk.c": '#include "my.h"\n' + REJECTS, "input_validators/my.h": ""})
        os.environ["MAKEFLAGS"] = "-n"
        try:
            for name in ("a blank", "a:colon", "$dollar", "a=b", "a'b", "{}", "-n", "a\nb", "%", "#"):
                with self.subTest(name):
                    os.rename(self.folder / "p", self.folder / name)
                    status, lines = self.found("--", package=name)
                    os.rename(self.folder / name, self.folder / "p")
                    self.assertEqual((status, lines[:2]), (1, [f"data/{file}: input_validators/chk.c: rejected" for file in ("sample/1.in", "secret/2.in")]))
                    self.assertIn(" compared, ", lines[-2])
        finally:
            del os.environ["MAKEFLAGS"]

    def test_one_that_cannot_be_asked(self) -> None:
        for name, text, told in [
            ("second.java", "", "it has to be compiled"),
            ("second.sh", "exit 42\n", "it cannot be run"),
            ("second/main.rs", "", "it has no file run"),
            *([("second.c", "#error x\n", "it cannot be compiled: ")] if HAS_C else []),
        ]:
            with self.subTest(name):
                self.put({f"input_validators/{name}": text})
                shown = f"input_validators/{name.partition('/')[0]}"
                status, lines = self.found()
                self.assertEqual((status, lines[-1]), (2, "2 checked, 2 as they have to be, 0 not"))
                self.assertTrue(any(line.startswith(f"ctd-mutate: {shown}: left out: {told}") for line in lines), lines)
                for asked in ("second", shown):
                    self.assertEqual(self.found("--leave-out", asked)[0], 0)
                shutil.rmtree(self.folder / "p" / shown) if "/" in name else os.remove(self.folder / "p" / shown)
        self.assert_refused("p: there is no validator second beside the programs", "--leave-out", "second", "p")
        self.assert_refused("p: there is no validator n beside the programs", "--leave-out", "n", "p")

    def test_a_checker_that_is_named_from_here(self) -> None:
        shutil.copy(CHECKER, self.folder / "ctdbin")
        self.put_script("input_validators/second", "exit 42")
        ran = self.run_tool("--no-cover", "p", checker="./ctdbin")
        self.assertEqual((ran.returncode, ran.stderr), (1, b""))
        self.assertRegex(ran.stdout.decode(), r"input_validators/second: (\d+) compared, \d+ agree, [1-9]\d* disagree, 0 without verdict\n")

    def test_one_that_disagrees(self) -> None:
        # (a number from 1 to 8, and nothing else)
        self.put_script("input_validators/second", 'read -r n; case "$n" in [1-8]) exit 42;; esac; exit 43')
        self.put({"input_validators/n.ctd": "INT(1,9) NEWLINE EOF"})
        self.assertEqual(self.found()[0], 1)
        self.assertEqual(self.found("--may-disagree")[0], 0)

    def test_one_that_writes_without_end(self) -> None:
        for script in ("yes", "yes >&2", "yes & exit 42"):
            with self.subTest(script):
                self.put_script("input_validators/second", script)
                status, lines = self.found()
                if script != "yes & exit 42":
                    told = "input_validators/second: wrote more than 1048576 bytes"
                    self.assertEqual((status, lines[:2]), (2, [f"data/sample/1.in: {told}", f"data/secret/2.in: {told}"]))
                self.assertIn(status, (0, 1, 2))

    def test_what_it_writes_to_the_terminal(self) -> None:
        self.put_script("input_validators/second", r"printf '\033[2Ja\007\tb\302\233c\n'; exit 43")
        lines = self.found()[1]
        self.assertEqual(lines[0], r"data/sample/1.in: input_validators/second: \x1b[2Ja\x07\tb\x9bc")
        self.assertTrue(all(line.isprintable() for line in lines))


class Bounds(PackageTest):
    """Bounds that are made small, since to pass them takes long."""

    def test_files(self) -> None:
        self.put({"data/secret/3.in": "7\n"})
        for name, most, told in [("MOST_FILES", 2, "more than 2 files *.in"), ("MOST_FOLDERS", 1, "more than 1 folders of data"), ("DEEPEST", 0, "more than 0 folders deep")]:
            with mock.patch.object(ctd_problem, name, most), self.assertRaises(ctd_problem.BadPackage) as refused:
                ctd_problem.package_in(self.folder / "p")
            self.assertIn(told, str(refused.exception))

    def test_the_time_of_a_validator_and_of_a_compiler(self) -> None:
        package = ctd_problem.package_in(self.folder / "p")
        with mock.patch.object(ctd_others, "SECONDS", 0.2), mock.patch.dict(os.environ, {"CC": "sh -c 'sleep 60'"}):
            answer = ctd_others.Other(Path("second"), ("sh", "-c", "sleep 60")).judge(package, package.data[0])
            self.assertEqual((answer.status, answer.message), (2, "no answer after 0.2 seconds"))
            with self.assertRaises(ctd_others.BadCommand) as refused:
                ctd_others.compiled(Path("second.c"), self.folder)
        self.assertEqual(str(refused.exception), "it cannot be compiled: the compiler takes too long, or says too much")


class Reports(PackageTest):
    @contextlib.contextmanager
    def changed(self) -> Iterator[dict[str, Any]]:
        """A right report, to be changed and written to r.json."""
        ran = self.run_soon("--json", "p")
        report = json.loads(ran.stdout)
        yield report
        self.write("r.json", json.dumps(report))

    def test_what_no_report_may_have(self) -> None:
        escape = "a\x1b[2Jb"
        changes: list[tuple[str, Any, str]] = [
            ("part", {"number": 1, "of": 10**10}, "there is no part 1 of 10000000000"),
            ("part", {"number": 2, "of": 1}, "there is no part 2 of 1"),
            ("part", {"number": True, "of": 1}, "part.number is no number from 1"),
            ("part", [1, 1], "part is no object"),
            ("package", 7, "package is no text of one line"),
            ("package", escape, "package is no text of one line"),
            ("package", "\ud800", "package is no text of one line"),
            ("checks", None, "checks is no list"),
            ("checks.0", "x", "checks[0] is no object"),
            ("checks.0.file", escape, "checks[0].file is no text of one line"),
            ("checks.0.fault", "a\nb", "checks[0].fault is no text of one line"),
            ("checks.0.status", 3, "checks[0].status is no status from 0 to 2"),
            ("checks.0.seconds", float("nan"), "checks[0].seconds is no number, or too large"),
            ("checks.0.seconds", 10**4000, "checks[0].seconds is no number, or too large"),
            ("checks.0.options", "abc", "checks[0].options is no list"),
            ("checks.0.more", 1, "checks[0] has a name 'more', which it cannot have"),
            ("lint.0.lines", [escape], "lint[0].lines[0] is no text of one line"),
            ("statement", [escape], "statement[0] is no text of one line"),
            ("cover.0.found", [[-1, "x", "x", 1, 1, 1]], "cover[0].found[0][0] is no number from 0"),
            ("cover.0.found", [[1]], "cover[0].found[0] is no list of 6"),
            ("cover.0.source", "INT(", "the reports were made by another version of ctd-package, or of no programs"),
            ("cover.0.source", "(" * 60_000, "the program input_validators/n.ctd nests too deeply"),
            ("cover.0.source", "ASSERT(" + "(" * 30_000 + "1" + ")" * 30_000 + "==1)", "the program input_validators/n.ctd nests too deeply"),
            ("cover.0.source", "INT(1,9) " * 100_000, "the program input_validators/n.ctd has more than 65536 characters"),
            ("cover.0.source", "REP(1) " * 5_000 + "END " * 5_000, "the reports were made by another version of ctd-package, or of no programs"),
            ("cover.0.source", "\ud800", "cover[0].source is no text"),
            ("against", [{"program": "x", "options": [], "lines": [], "summary": escape}], "against[0].summary is no text of one line"),
        ]
        with self.changed() as right:
            pass
        for path, value, told in changes:
            with self.subTest(path=path, value=str(value)[:40] if not isinstance(value, int) else path):
                report = json.loads(json.dumps(right))
                *names, last = [int(part) if part.isdigit() else part for part in path.split(".")]
                inner: Any = report
                for name in names:
                    inner = inner[name]
                inner[last] = value
                self.write("r.json", json.dumps(report))
                self.assert_refused(told, "--merge", "r.json")
        for text in ("", "{}", "[]", "1", '"x"', "[" * 100_000, '{"a":' * 100_000, "9" * 5_000, "\ud800", "nul"):
            self.write("r.json", text.encode("utf-8", "surrogatepass"))
            self.assert_refused("r.json: is no report of ctd-package --json", "--merge", "r.json")

    def test_a_report_that_is_no_file(self) -> None:
        os.mkfifo(self.folder / "r.json")
        self.assert_refused("r.json: is no file", "--merge", "r.json")
        self.assert_refused("/dev/zero: is no file", "--merge", "/dev/zero")
        with open(self.folder / "large.json", "wb") as file:
            file.truncate(1 << 40)
        self.assert_refused("large.json: has more than 268435456 bytes", "--merge", "large.json")

    def test_a_right_report_is_merged(self) -> None:
        with self.changed():
            pass
        ran = self.run_soon("--merge", "r.json")
        self.assertEqual((ran.returncode, ran.stderr), (0, b""))

    def test_junit_is_well_formed(self) -> None:
        names = [b"a\x01b", b"\xff\xfe", b"<&>\"'", b"]]>", "\ufffe\uffff\U0001fffe".encode(), b"a\nb\tc", "\x85\u2028".encode(), b"\xed\xa0\x80"]
        for name in names:
            folder = os.fsencode(self.folder / "p/data/secret") + b"/" + name
            os.mkdir(folder)
            Path(os.fsdecode(folder + b"/" + name + b".in")).write_text("10\n")
        # (the checker takes no name of a program outside of UTF-8)
        os.rename(self.folder / "p", self.folder / "q\x01\x9b")
        ran = self.run_soon("--no-cover", "--junit", "r.xml", "q\x01\x9b")
        self.assertEqual((ran.returncode, ran.stderr), (1, b""))
        cases = [element for element in ElementTree.parse(self.folder / "r.xml").getroot().iter("testcase")]
        self.assertEqual((len(cases), len({case.get("name") for case in cases})), (10, 10))


if __name__ == "__main__":
    sys.exit(run_unit_tests("packages"))
