#!/usr/bin/env python3
"""Runs ctd-package with the built checker on problem packages with nested groups, flags, and invalid inputs. What it writes is compared with
texts that were worked out by hand.

The last line counts what passed and failed. usage: tests/package.py [PROGRAM]"""
from __future__ import annotations

import importlib.util
import json
import os
import sys
import tempfile
import unittest
from pathlib import Path
from xml.etree import ElementTree

from companions import CHECKER, CompanionTest
from results import TOP, run_unit_tests

sys.path.insert(0, str(TOP / "tools"))
from ctd_problem import BadPackage, options_of  # noqa: E402

PROGRAM = "SET(maxn=100) INT(1,maxn) NEWLINE"
HAS_YAML = importlib.util.find_spec("yaml") is not None
OUT_OF_RANGE = "line 1 column 1: value out of range (program line 1 column 15)"


class PackageTest(CompanionTest):
    tool = "ctd-package"

    def put(self, files: dict[str, str]) -> None:
        """Writes files below the folder of the package."""
        for name, text in files.items():
            path = self.folder / "p" / name
            path.parent.mkdir(parents=True, exist_ok=True)
            path.write_text(text)

    def setUp(self) -> None:
        super().setUp()
        self.put({"input_validators/n.ctd": PROGRAM, "data/sample/1.in": "1\n", "data/sample/1.ans": "x\n"})

    def told(self, *words: str) -> tuple[int, list[str]]:
        """The status, and the lines but those that begin with the name of another companion."""
        ran = self.run_tool(*words, "p")
        self.assertEqual(ran.stderr, b"")
        lines = ran.stdout.decode().splitlines()
        return ran.returncode, [line for line in lines if not line.startswith(("ctd-lint: ", "ctd-cover: ", "ctd-mutate: "))]


    def write_linter(self, script: str) -> None:
        """The checker, and beside it a ctd-lint that does what a script says."""
        self.write_checker(f'exec {CHECKER} "$@"')
        self.write("ctd-lint", f"#!/bin/sh\n{script}\n")
        (self.folder / "ctd-lint").chmod(0o755)


class Checks(PackageTest):
    def test_all_is_right(self) -> None:
        self.put({"data/secret/a/b/2.in": "100\n", "data/invalid_inputs/zero.in": "0\n", "data/invalid_input/word.in": "one\n"})
        self.assertEqual(self.told(), (0, ["4 checked, 4 as they have to be, 0 not"]))

    def test_what_is_wrong(self) -> None:
        self.put({"data/secret/a/b/2.in": "101\n", "data/invalid_inputs/one.in": "1\n", "data/secret/a/3.in": "5\n"})
        wanted = [f"data/secret/a/b/2.in: {OUT_OF_RANGE}", "data/invalid_inputs/one.in: has to be rejected, and fits", "4 checked, 2 as they have to be, 2 not"]
        self.assertEqual(self.told(), (1, wanted))

    def test_no_verdict_is_no_rejection(self) -> None:
        self.put({"input_validators/n.ctd": "INT(0,9,n) NEWLINE ASSERT(n<9&&8%n>=0)", "data/invalid_inputs/zero.in": "0\n", "data/invalid_inputs/nine.in": "9\n"})
        told = "checktestdata: line 2 column 1: division by zero (program line 1 column 20)"
        trap = "input_validators/n.ctd:1:20: risk: may divide by zero: n is only known to be from 0 to 8 [division-by-zero]"
        wanted = [f"data/invalid_inputs/zero.in: has to be rejected, and has no verdict: {told}", trap, "3 checked, 2 as they have to be, 1 not"]
        self.assertEqual(self.told(), (2, wanted))

    def test_two_programs(self) -> None:
        self.put({"input_validators/odd/odd.ctd": "INT(1,999,n) NEWLINE ASSERT(n%2==1)", "data/secret/2.in": "2\n"})
        self.put({"data/invalid_inputs/even.in": "4\n", "data/invalid_inputs/odd.in": "5\n", "data/invalid_inputs/large.in": "101\n"})
        wanted = [
            "data/secret/2.in: line 2 column 1: assertion failed (program line 1 column 22)",
            "data/invalid_inputs/odd.in: has to be rejected, and fits",
            "input_validators/n.ctd accepts, input_validators/odd/odd.ctd rejects",
            r'  data/sample/1.in:1: "1\n" → "2\n": reduced to "2\n": assertion failed',
            r'  data/secret/2.in: as it is: reduced to "2\n": assertion failed',
            "7 checked, 5 as they have to be, 2 not",
        ]
        self.assertEqual(self.told(), (1, wanted))

    def test_the_older_name_of_the_folder(self) -> None:
        os.rename(self.folder / "p/input_validators", self.folder / "p/input_format_validators")
        self.assertEqual(self.told(), (0, ["1 checked, 1 as they have to be, 0 not"]))

    def test_each_file_is_told_of(self) -> None:
        self.put({"data/secret/2.in": "100\n"})
        wanted = ["data/sample/1.in: testdata ok!", "data/secret/2.in: testdata ok!", "2 checked, 2 as they have to be, 0 not"]
        self.assertEqual(self.told("-v"), (0, wanted))

    def test_what_lint_and_cover_say(self) -> None:
        self.put({"input_validators/n.ctd": "SET(maxn=100) INT(1,maxn,n) NEWLINE"})
        text = "nothing reads this variable"
        finding = f'"file":"%s","line":1,"column":15,"rank":"note","kind":"unread","text":"{text}","name":"n"'
        never = '"file":"%s","line":1,"column":15,"rank":"never","kind":"goes-on"'
        self.write_linter(f"for last; do :; done\nprintf '{{{finding}}}\\n{{{never}}}\\n' $last $last")
        ran = self.run_tool("p", checker="./checktestdata")
        self.assertEqual(
            ran.stdout.decode().splitlines(),
            [
                "input_validators/n.ctd:1:15: note: nothing reads this variable: n [unread]",
                "ctd-lint: input_validators/n.ctd: 1 finding",
                "ctd-cover: input_validators/n.ctd: 1 command watched in 1 file, 1 not fully tried",
                "1 checked, 1 as they have to be, 0 not",
            ],
        )
        ran = self.run_tool("-v", "p", checker="./checktestdata")
        # (what maxn is no ctd-lint has told)
        note = "input_validators/n.ctd:1:15: note: INT: took 1..1 of 1..maxn: the greatest is never taken (p/data/sample/1.in:1:1)"
        self.assertIn(note, ran.stdout.decode().splitlines())

    def test_without_cover(self) -> None:
        self.put({"data/secret/2.in": "100\n"})
        self.write_checker(f'echo "$*" >>runs\nexec {CHECKER} "$@"')
        ran = self.run_tool("--no-cover", "p", checker="./checktestdata")
        lines = [line for line in ran.stdout.decode().splitlines() if not line.startswith("ctd-lint: ")]
        self.assertEqual((ran.returncode, lines), (0, ["2 checked, 2 as they have to be, 0 not"]))
        # each file is checked once
        self.assertEqual(len((self.folder / "runs").read_text().splitlines()), 2)

    def test_a_step_limit(self) -> None:
        self.put({"data/invalid_inputs/zero.in": "0\n"})
        status, lines = self.told("--max-steps", "1")
        self.assertEqual((status, len(lines)), (2, 3))

    def test_reports(self) -> None:
        self.put({"data/secret/a/2.in": "101\n", "data/secret/a/3.in": "5\n", "data/invalid_inputs/one.in": "1\n", "data/invalid_inputs/zero.in": "0\n"})
        status, _ = self.told("--junit", "report.xml")
        root = ElementTree.parse(self.folder / "p/../report.xml").getroot()
        for element in root.iter():
            if "time" in element.attrib:
                self.assertRegex(element.attrib.pop("time"), r"^\d+\.\d{3}$")
        self.assertEqual(status, 1)
        program = "(input_validators/n.ctd)"
        self.assertEqual(
            ElementTree.tostring(root, encoding="unicode"),
            '<testsuites name="p" tests="5" failures="2" errors="0">\n'
            f'  <testsuite name="data/sample {program}" tests="1" failures="0" errors="0">\n'
            '    <testcase classname="data/sample" name="1.in" />\n'
            "  </testsuite>\n"
            f'  <testsuite name="data/secret/a {program}" tests="2" failures="1" errors="0">\n'
            '    <testcase classname="data/secret/a" name="2.in">\n'
            f'      <failure message="{OUT_OF_RANGE}">{OUT_OF_RANGE}</failure>\n'
            "    </testcase>\n"
            '    <testcase classname="data/secret/a" name="3.in" />\n'
            "  </testsuite>\n"
            f'  <testsuite name="data/invalid_inputs {program}" tests="2" failures="1" errors="0">\n'
            '    <testcase classname="data/invalid_inputs" name="one.in">\n'
            '      <failure message="has to be rejected, and fits">testdata ok!</failure>\n'
            "    </testcase>\n"
            '    <testcase classname="data/invalid_inputs" name="zero.in" />\n'
            "  </testsuite>\n"
            "</testsuites>",
        )

    def test_json(self) -> None:
        self.put({"data/secret/2.in": "101\n"})
        ran = self.run_tool("--json", "p")
        whole = json.loads(ran.stdout)
        self.assertEqual((ran.returncode, whole["package"], sorted(whole)), (1, "p", ["against", "checks", "cover", "data", "lint", "package", "part", "statement"]))
        for check in whole["checks"]:
            self.assertGreaterEqual(check.pop("seconds"), 0)
        same = {"program": "input_validators/n.ctd", "has_to_fit": True, "options": []}
        self.assertEqual(
            whole["checks"],
            [
                {"file": "data/sample/1.in", "group": "data/sample", "status": 0, "answer": "testdata ok!", "fault": "", **same},
                {"file": "data/secret/2.in", "group": "data/secret", "status": 1, "answer": OUT_OF_RANGE, "fault": OUT_OF_RANGE, **same},
            ],
        )
        self.assertEqual(whole["cover"][0]["summary"], "1 command watched in 1 file, 1 not fully tried")

    def test_what_cannot_be_checked(self) -> None:
        for path, line in [
            ("none", "none: no such folder"),
            ("p/data", "p/data: no program *.ctd in input_validators or input_format_validators"),
        ]:
            ran = self.run_tool(path)
            self.assertEqual((ran.returncode, ran.stdout, ran.stderr), (2, b"", f"ctd-package: {line}\n".encode()))
        os.remove(self.folder / "p/data/sample/1.in")
        ran = self.run_tool("p")
        self.assertEqual((ran.returncode, ran.stdout, ran.stderr), (2, b"", b"ctd-package: p: no files *.in in data/sample or data/secret\n"))

    def test_a_program_that_is_refused(self) -> None:
        self.put({"input_validators/n.ctd": "INT(1,10"})
        status, lines = self.told()
        self.assertEqual((status, lines[0]), (2, "data/sample/1.in: checktestdata: program line 1 column 9: syntax error"))

    def test_a_name_with_a_control_character(self) -> None:
        self.put({"data/secret/a\nb.in": "101\n"})
        self.assertEqual(self.told()[1][0], f"data/secret/a\\nb.in: {OUT_OF_RANGE}")


class Flags(PackageTest):
    @unittest.skipUnless(HAS_YAML, "PyYAML is not there")
    def test_groups_inherit_flags(self) -> None:
        self.put(
            {
                "data/testdata.yaml": "input_validator_flags: -D maxn=50",
                "data/secret/1.in": "51\n",
                "data/secret/small/testdata.yaml": "input_validator_flags: maxn=5\ngrading: default\n",
                "data/secret/small/1.in": "5\n",
                "data/secret/small/deep/1.in": "6\n",
                "data/secret/large/test_group.yaml": "input_validator_flags: [-D, maxn=1000, -w]",
                "data/secret/large/1.in": " 1000 \n",
                "data/secret/other/testdata.yaml": "on_reject: continue\n",
                "data/secret/other/1.in": "51\n",
                "data/invalid_inputs/1.in": "51\n",
            }
        )
        wanted = [
            f"data/secret/1.in (--define=maxn=50): {OUT_OF_RANGE}",
            f"data/secret/other/1.in (--define=maxn=50): {OUT_OF_RANGE}",
            f"data/secret/small/deep/1.in (--define=maxn=5): {OUT_OF_RANGE}",
            "7 checked, 4 as they have to be, 3 not",
        ]
        self.assertEqual(self.told(), (1, wanted))

    @unittest.skipUnless(HAS_YAML, "PyYAML is not there")
    def test_the_newer_key(self) -> None:
        self.put({"data/secret/1.in": "6\n", "data/secret/test_group.yaml": "input_validator_args: [maxn=5]\noutput_validator_args: [x]\n"})
        self.assertEqual(self.told(), (1, [f"data/secret/1.in (--define=maxn=5): {OUT_OF_RANGE}", "2 checked, 1 as they have to be, 1 not"]))

    @unittest.skipUnless(HAS_YAML, "PyYAML is not there")
    def test_keys_and_presets_that_are_misspelled(self) -> None:
        self.put({"data/secret/small/1.in": "1\n"})
        for text, told in [
            ("input_validator_flags: -D maxm=2", "p/data/secret/small: the flags have a preset of maxm, which no program has"),
            ("input_validator_flag: maxn=2", "p/data/secret/small/testdata.yaml: unknown key input_validator_flag; did you mean input_validator_flags?"),
            ("input_validators_args: maxn=2", "p/data/secret/small/testdata.yaml: unknown key input_validators_args; did you mean input_validator_args?"),
            (
                "input_validator_args: maxn=2\ninput_validator_flags: maxn=2",
                "p/data/secret/small/testdata.yaml: has both input_validator_flags and input_validator_args",
            ),
        ]:
            self.put({"data/secret/small/testdata.yaml": text})
            ran = self.run_tool("p")
            self.assertEqual((ran.returncode, ran.stdout, ran.stderr.decode()), (2, b"", f"ctd-package: {told}\n"))

    @unittest.skipUnless(HAS_YAML, "PyYAML is not there")
    def test_lint_gets_the_presets_of_each_group(self) -> None:
        self.put({"data/secret/a/testdata.yaml": "input_validator_flags: maxn=5", "data/secret/a/1.in": "1\n"})
        self.put({"data/secret/b/testdata.yaml": "input_validator_flags: -w maxn=7", "data/secret/b/1.in": "1\n"})
        self.write_linter("""for last; do :; done\nprintf '{"file":"%s","line":1,"column":1,"rank":"note","text":"%s"}\\n' $last $2""")
        ran = self.run_tool("p", checker="./checktestdata")
        found = [line for line in ran.stdout.decode().splitlines() if "note: -" in line]
        self.assertEqual(found, [f"input_validators/n.ctd:1:1: note: --define=maxn={number}" for number in (5, 7)])

    @unittest.skipUnless(HAS_YAML, "PyYAML is not there")
    def test_settings_that_cannot_be_read(self) -> None:
        for text, told in [
            ("input_validator_flags: --none", "input_validator_flags: --none is no option of checktestdata and no preset"),
            ("input_validator_flags: {a: 1}", "input_validator_flags is neither a text nor a list"),
            ("input_validator_flags: 'a=\"1'", "input_validator_flags: No closing quotation"),
            ("- 1", "has no settings by name"),
        ]:
            self.put({"data/testdata.yaml": text})
            ran = self.run_tool("p")
            self.assertEqual((ran.returncode, ran.stdout, ran.stderr.decode()), (2, b"", f"ctd-package: p/data/testdata.yaml: {told}\n"))
        self.put({"data/testdata.yaml": "a: b: c"})
        ran = self.run_tool("p")
        self.assertEqual((ran.returncode, ran.stdout, ran.stderr), (2, b"", b"ctd-package: p/data/testdata.yaml:1:5: is no YAML\n"))

    def test_without_yaml(self) -> None:
        self.put({"data/testdata.yaml": "input_validator_flags: -w"})
        with tempfile.TemporaryDirectory() as folder:
            (Path(folder) / "yaml.py").write_text("raise ImportError")
            before = os.environ.get("PYTHONPATH")
            os.environ["PYTHONPATH"] = folder
            try:
                ran = self.run_tool("p")
            finally:
                os.environ.pop("PYTHONPATH") if before is None else os.environ.update(PYTHONPATH=before)
        told = b"ctd-package: p/data/testdata.yaml: cannot be read without PyYAML (in Debian: python3-yaml)\n"
        self.assertEqual((ran.returncode, ran.stdout, ran.stderr), (2, b"", told))

    def test_options(self) -> None:
        for words, options in [
            ([], ()),
            (["-w"], ("-w",)),
            (["--whitespace-ok", "-w"], ("-w",)),
            (["-D", "n=1"], ("--define=n=1",)),
            (["-Dn=1", "--define=m=2", "--define", "k=3", "a[1]=4"], ("--define=n=1,m=2,k=3,a[1]=4",)),
            (["--max-steps=5", "-D", "n=1"], ("--max-steps=5", "--define=n=1")),
            (["--max-steps", "5"], ("--max-steps=5",)),
        ]:
            self.assertEqual(options_of(Path("x"), words), options)
        for words in (["-q"], ["-D"], ["x"], ["--max-steps"], ["--none=1"]):
            self.assertRaises(BadPackage, options_of, Path("x"), words)


if __name__ == "__main__":
    sys.exit(run_unit_tests("package"))
