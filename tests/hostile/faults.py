#!/usr/bin/env python3
"""Gives all companions pipes and devices in place of files, and has them meet faults that nobody has foreseen: each ends with status 2 and one line.

The last line counts what passed and failed. usage: tests/hostile/faults.py [PROGRAM]"""
from __future__ import annotations

import os
import subprocess
import sys

from hostile import SOON, TOOLS, HostileTest, run_unit_tests

COMPANIONS = ["ctd-show", "ctd-cover", "ctd-mutate", "ctd-package", "ctd-validate", "ctd-language-server"]
# What Python reads before a companion: none of them can make sense of its command line.
FAULT = """import argparse
def fault(*_, **__):
    raise RuntimeError("first\\x1b[1m\\nsecond")
argparse.ArgumentParser.__init__ = fault
"""


class Pipes(HostileTest):
    def setUp(self) -> None:
        super().setUp()
        self.put({"n.ctd": "INT(1,9) NEWLINE", "1.in": "5\n"})
        os.mkfifo(self.folder / "p/pipe.ctd")

    def test_a_program_that_is_a_pipe_or_a_device(self) -> None:
        for tool, words in [("ctd-show", ["p/1.in"]), ("ctd-cover", ["p/1.in"]), ("ctd-mutate", ["p/1.in"]), ("ctd-validate", [])]:
            for program in ("p/pipe.ctd", "/dev/tty", "/dev/stdin"):
                with self.subTest(tool=tool, program=program):
                    self.tool = tool
                    self.assert_refused(f"{program}: the program is no file, and cannot be read again", program, *words)

    def test_another_validator_that_is_a_pipe(self) -> None:
        self.tool = "ctd-mutate"
        self.assert_refused("p/pipe.ctd: is no file", "--against", "p/pipe.ctd", "p/n.ctd", "p/1.in")

    def test_data_below_a_folder(self) -> None:
        os.mkfifo(self.folder / "p/2.in")
        os.symlink("/dev/zero", self.folder / "p/3.in")
        for tool, last in [("ctd-show", "3 checked, 1 fit, 0 rejected, 2 without verdict"), ("ctd-cover", ""), ("ctd-mutate", "")]:
            with self.subTest(tool):
                self.tool = tool
                ran = self.run_soon("p/n.ctd", "p")
                lines = ran.stdout.decode().splitlines()
                self.assertEqual((ran.returncode, ran.stderr), (2, b""))
                for name in ("p/2.in", "p/3.in"):
                    self.assertIn(f"{name}: is no file", lines)
                self.assertTrue(lines[-1].endswith(last))


class Unforeseen(HostileTest):
    def run_with_fault(self, tool: str, **environment: str) -> subprocess.CompletedProcess[bytes]:
        self.write("sitecustomize.py", FAULT)
        given = {**os.environ, "PYTHONPATH": str(self.folder), **environment}
        return subprocess.run([TOOLS / tool], env=given, stdin=subprocess.DEVNULL, capture_output=True, timeout=SOON, check=False)

    def test_a_fault_in_each_companion(self) -> None:
        for tool in COMPANIONS:
            with self.subTest(tool):
                ran = self.run_with_fault(tool)
                told = f"{tool}: unforeseen fault: RuntimeError: first\\x1b[1m\\nsecond (CTD_TRACEBACK=1 in the environment shows where)\n"
                self.assertEqual((ran.returncode, ran.stdout, ran.stderr.decode()), (2, b"", told))
                shown = self.run_with_fault(tool, CTD_TRACEBACK="1")
                self.assertEqual(shown.returncode, 2)
                self.assertIn(b"Traceback (most recent call last):", shown.stderr)
                self.assertTrue(shown.stderr.decode().endswith(told))

    def test_a_fault_in_a_thread(self) -> None:
        script = "import threading, sys; sys.path.insert(0, sys.argv.pop(1)); sys.dont_write_bytecode = True; from ctd_companion import run\n"
        script += "def main():\n    thread = threading.Thread(target=lambda: [][0])\n    thread.start()\n    thread.join()\n    return 0\nrun(main)"
        ran = subprocess.run([sys.executable, "-c", script, TOOLS], capture_output=True, timeout=SOON, check=False)
        self.assertEqual(ran.stderr, b"-c: unforeseen fault: IndexError: list index out of range (CTD_TRACEBACK=1 in the environment shows where)\n")


if __name__ == "__main__":
    sys.exit(run_unit_tests("faults"))
