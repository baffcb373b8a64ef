#!/usr/bin/env python3
"""Ends companions in each way that there is, while a checker or a validator is at work that would go on for ten minutes, as would what it has started.
All have to be gone at once, with their temporary files.

The last line counts what passed and failed. usage: tests/hostile/processes.py [PROGRAM]"""
from __future__ import annotations

import os
import shutil
import signal
import subprocess
import sys
import time
import unittest
from collections.abc import Sequence
from pathlib import Path

from hostile import CHECKER, SOON, TOOLS, HostileTest, becomes_true, run_unit_tests

# What stays at work: it says the numbers of two processes in a file.
LASTING = 'sleep 600 & echo "$$ $!" >"{0}/numbers"; wait'
SIGNALS = [signal.SIGTERM, signal.SIGINT, signal.SIGHUP, signal.SIGQUIT, signal.SIGKILL]


def is_at_work(number: int) -> bool:
    """Whether a process is there, and not only waited for."""
    try:
        return Path(f"/proc/{number}/stat").read_text().rpartition(")")[2].split()[0] not in "ZX"
    except OSError:
        return False


@unittest.skipUnless(Path("/proc/self/stat").exists(), "there is no /proc")
class Endings(HostileTest):
    """A signal goes to the companion alone, but where it is told that a terminal sends it to all."""

    def setUp(self) -> None:
        super().setUp()
        for name in ("temporary", "bin"):
            (self.folder / name).mkdir()
        self.put({"input_validators/n.ctd": "INT(1,9) NEWLINE", "data/sample/1.in": "5\n"})

    def write_script(self, path: Path, script: str) -> None:
        path.write_text(f"#!/bin/sh\n{script.format(self.folder)}\n")
        path.chmod(0o755)

    def start(self, tool: str, *words: str, checker: str = LASTING) -> subprocess.Popen[bytes]:
        """A companion at work, with a checker that is a script, and a session of its own; and signals as they are for a command of a user."""
        self.write_script(self.folder / "bin/checktestdata", checker)
        call = [str(TOOLS / tool), "--checker", str(self.folder / "bin/checktestdata"), *words]

        def as_by_a_user() -> None:
            os.setsid()
            for one in SIGNALS[:-1]:
                signal.signal(one, signal.SIG_DFL)

        environment = {**os.environ, "TMPDIR": str(self.folder / "temporary")}
        process = subprocess.Popen(
            call, cwd=self.folder, env=environment, stdin=subprocess.PIPE, stdout=subprocess.PIPE, stderr=subprocess.PIPE, preexec_fn=as_by_a_user
        )
        self.addCleanup(process.__exit__, None, None, None)
        self.addCleanup(process.kill)
        return process

    def numbers(self) -> list[int]:
        """The numbers of the processes that a script has told, once it has."""
        file = self.folder / "numbers"
        self.assertTrue(becomes_true(lambda: file.is_file() and file.read_text().endswith("\n")), "the script was never started")
        numbers = [int(number) for number in file.read_text().split()]
        file.unlink()
        return numbers

    def assert_all_end(self, process: subprocess.Popen[bytes], one: int, to_group: bool = False) -> None:
        """That a signal ends a companion, what it started, and its temporary files, and that a shell sees which signal it was."""
        numbers = self.numbers()
        self.assertTrue(all(map(is_at_work, numbers)))
        started = time.monotonic()
        (os.killpg if to_group else os.kill)(process.pid, one)
        self.assertEqual(process.wait(SOON), -one)
        self.assertTrue(becomes_true(lambda: not any(map(is_at_work, numbers))), "something is still at work")
        self.assertTrue(becomes_true(lambda: not list((self.folder / "temporary").iterdir())), "something is left in the temporary folder")
        self.assertLess(time.monotonic() - started, SOON)

    def test_the_checker_of_each_companion(self) -> None:
        for tool, words in [
            ("ctd-show", ["p/input_validators/n.ctd", "p/data"]),
            ("ctd-cover", ["p/input_validators/n.ctd", "p/data"]),
            ("ctd-mutate", ["p/input_validators/n.ctd", "p/data"]),
            ("ctd-package", ["p"]),
            ("ctd-validate", ["p/input_validators/n.ctd"]),
            ("ctd-validate", ["--feedback", "f", "p/input_validators/n.ctd"]),
        ]:
            for one in SIGNALS if tool == "ctd-show" else (signal.SIGTERM, signal.SIGKILL):
                with self.subTest(tool=tool, words=words, signal=one):
                    self.assert_all_end(self.start(tool, *words), one)

    def test_a_key_of_the_terminal(self) -> None:
        self.assert_all_end(self.start("ctd-show", "p/input_validators/n.ctd", "p/data"), signal.SIGINT, to_group=True)

    def test_data_that_wait_for_a_generator(self) -> None:
        process = self.start("ctd-show", "p/input_validators/n.ctd", "-", checker="cat >/dev/null & " + LASTING)
        self.assert_all_end(process, signal.SIGINT)

    def test_a_validator(self) -> None:
        self.write_script(self.folder / "p/input_validators/second", LASTING)
        for one in (signal.SIGTERM, signal.SIGKILL):
            with self.subTest(signal=one):
                self.assert_all_end(self.start("ctd-package", "-j", "1", "p", checker=f'exec {CHECKER} "$@"'), one)

    def test_a_validator_of_a_companion_of_a_companion(self) -> None:
        # (the first run is of ctd-package, which goes on to ctd-mutate)
        script = 'if [ -e "{0}/once" ]; then ' + LASTING + '; fi; : >"{0}/once"; exit 42'
        for one in (signal.SIGINT, signal.SIGKILL):
            with self.subTest(signal=one):
                (self.folder / "once").unlink(missing_ok=True)
                self.write_script(self.folder / "p/input_validators/second", script)
                self.assert_all_end(self.start("ctd-package", "-j", "1", "p", checker=f'exec {CHECKER} "$@"'), one)

    def test_a_compiler(self) -> None:
        self.put({"input_validators/second.c": "int main(void) { return 42; }\n"})
        self.write_script(self.folder / "bin/cc", LASTING)
        before = os.environ["PATH"]
        os.environ["PATH"] = f"{self.folder / 'bin'}:{before}"
        try:
            process = self.start("ctd-package", "p", checker=f'exec {CHECKER} "$@"')
        finally:
            os.environ["PATH"] = before
        self.assert_all_end(process, signal.SIGTERM)

    def test_what_a_validator_leaves_behind(self) -> None:
        # it holds the streams of the validator
        script = '[ -e "{0}/numbers" ] || {{ sleep 600 & echo "$$ $!" >"{0}/numbers"; }}; exit 42'
        self.write_script(self.folder / "p/input_validators/second", script)
        process = self.start("ctd-package", "--may-disagree", "p", checker=f'exec {CHECKER} "$@"')
        out, _ = process.communicate(timeout=SOON)
        self.assertEqual((process.returncode, out.decode().splitlines()[-1]), (0, "2 checked, 2 as they have to be, 0 not"), out)
        self.assertFalse(any(map(is_at_work, self.numbers())))

    @unittest.skipUnless(shutil.which("setsid"), "there is no setsid")
    def test_what_leaves_its_group(self) -> None:
        script = 'setsid sleep 600 & setsid sh -c "sleep 600" & echo "$! $$" >"{0}/numbers"; wait'
        self.write_script(self.folder / "p/input_validators/second", script)
        self.assert_all_end(self.start("ctd-package", "-j", "1", "p", checker=f'exec {CHECKER} "$@"'), signal.SIGKILL)

    def test_ignored_signals_stay_ignored(self) -> None:
        """As by nohup, and for what a script starts in the background."""
        words: Sequence[str] = ["p/input_validators/n.ctd", "p/data"]
        self.write_script(self.folder / "bin/checktestdata", 'echo "$$" >"{0}/numbers"; while [ ! -e "{0}/go" ]; do sleep 0.05; done; echo testdata ok!')
        call = [str(TOOLS / "ctd-show"), "--checker", str(self.folder / "bin/checktestdata"), *words]

        def ignoring() -> None:
            for one in (signal.SIGHUP, signal.SIGINT):
                signal.signal(one, signal.SIG_IGN)

        with subprocess.Popen(call, cwd=self.folder, stdout=subprocess.PIPE, preexec_fn=ignoring) as process:
            self.addCleanup(process.kill)
            self.numbers()
            for one in (signal.SIGHUP, signal.SIGINT):
                process.send_signal(one)
            (self.folder / "go").touch()
            out, _ = process.communicate(timeout=SOON)
        self.assertEqual((process.returncode, out), (0, b"p/data/sample/1.in: testdata ok!\n"))


if __name__ == "__main__":
    sys.exit(run_unit_tests("processes"))
