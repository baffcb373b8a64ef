#!/usr/bin/env python3
"""Shares the files of ctd-package and ctd-show out between machines, and puts their reports together. The last test does what docs/INTEGRATION.md
shows with GNU parallel, over ssh to this machine: with a server of its own, which it starts on a free port and ends.

The last line counts what passed and failed. usage: tests/parts.py [PROGRAM]"""
from __future__ import annotations

import getpass
import json
import os
import shutil
import socket
import subprocess
import sys
import time
import unittest
from pathlib import Path

from companions import CHECKER, OUT_OF_TIME, TOOLS, CompanionTest
from markdown_blocks import blocks, commands
from results import TOP, run_unit_tests

sys.path.insert(0, str(TOOLS))
from ctd_shares import Share  # noqa: E402

PROGRAM = "INT(1,9,n) NEWLINE IF(n==5) INT(0,1) NEWLINE END"
SSHD = shutil.which("sshd", path=f"{os.environ['PATH']}:/usr/sbin")


class Shares(unittest.TestCase):
    def test_each_file_is_in_one_part(self) -> None:
        files = [(f"{number}.in", number * 37 % 11 * 1000) for number in range(50)]
        for of in (1, 2, 3, 7, 50, 60):
            parts = [Share(number, of).take(files, lambda file: file[1]) for number in range(1, of + 1)]
            self.assertEqual(sorted(file for part in parts for file in part), sorted(files))
            self.assertTrue(all(part == [file for file in files if file in part] for part in parts))

    def test_large_files_are_spread(self) -> None:
        files = [1000000, 1, 1000000, 1, 1, 1000000, 1, 1]
        self.assertEqual([Share(number, 3).take(files, int).count(1000000) for number in (1, 2, 3)], [1, 1, 1])
        # the file that is as large as all others together has a part of its own
        self.assertEqual(Share(1, 2).take([50000, 10000, 10000, 10000], int), [50000])
        # files without a byte are spread too
        self.assertEqual([len(Share(number, 4).take([0] * 8, int)) for number in (1, 2, 3, 4)], [2, 2, 2, 2])


class Parts(CompanionTest):
    tool = "ctd-package"

    def setUp(self) -> None:
        super().setUp()
        self.put({"input_validators/n.ctd": PROGRAM, "data/sample/1.in": "1\n", "data/secret/2.in": "9\n", "data/secret/3.in": "5\n0\n"})
        self.put({"data/secret/4.in": "5\n1\n", "data/invalid_inputs/0.in": "0\n"})

    def put(self, files: dict[str, str]) -> None:
        for name, text in files.items():
            path = self.folder / "p" / name
            path.parent.mkdir(parents=True, exist_ok=True)
            path.write_text(text)

    def report(self, part: str) -> str:
        """Writes the report of a part to a file, of which it gives the name."""
        name = f"{part.replace('/', '-')}.json"
        self.write(name, self.run_tool("--json", "--shard", part, "p").stdout)
        return name

    def lines(self, *words: str) -> tuple[int, list[str]]:
        ran = self.run_tool(*words)
        self.assertEqual(ran.stderr, b"")
        return ran.returncode, ran.stdout.decode().splitlines()

    def test_reports_of_parts_are_that_of_the_whole(self) -> None:
        self.put({"data/secret/5.in": "10\n"})
        status, whole = self.lines("p")
        # nothing is untried by all files together: 1 and 9, 0 and 1, both sides of the test
        self.assertIn("ctd-cover: input_validators/n.ctd: 3 commands watched in 4 files, 0 not fully tried", whole)
        self.assertEqual((status, whole[-1]), (1, "6 checked, 5 as they have to be, 1 not"))
        for of in (1, 2, 5, 8):
            with self.subTest(of):
                names = [self.report(f"{number}/{of}") for number in range(1, of + 1)]
                self.assertEqual(self.lines("--merge", *reversed(names)), (status, whole))

    def test_a_part_alone(self) -> None:
        # five small files, the largest first: 3.in, 4.in, then by name and kind
        taken = [json.loads((self.folder / self.report(f"{number}/2")).read_text()) for number in (1, 2)]
        files = [["data/sample/1.in", "data/secret/3.in", "data/invalid_inputs/0.in"], ["data/secret/2.in", "data/secret/4.in"]]
        self.assertEqual([[check["file"] for check in part["checks"]] for part in taken], files)
        self.assertEqual([part["part"] for part in taken], [{"number": 1, "of": 2}, {"number": 2, "of": 2}])

    def test_merged_again_as_json_and_junit(self) -> None:
        names = [self.report("1/2"), self.report("2/2")]
        self.write("whole.json", self.run_tool("--json", "--junit", "whole.xml", "--merge", *names).stdout)
        self.assertIn('tests="5" failures="0" errors="0"', (self.folder / "whole.xml").read_text())
        self.assertEqual(self.lines("--merge", "whole.json"), self.lines("p"))

    def test_reports_that_do_not_belong_together(self) -> None:
        one, three = self.report("1/2"), self.report("1/3")
        self.write("text.json", "{}")
        self.write("none.json", "x")
        self.write("twice.json", (self.folder / one).read_bytes())
        for names, told in [
            ([one], "part 2 of 2 is missing"),
            ([one, "twice.json"], "twice.json: is part 1 too, as 1-2.json"),
            ([one, three], "1-3.json: is part 1 of 3 of p, and not of the same package and parts"),
            (["text.json"], "text.json: is no report of ctd-package --json: package is missing"),
            (["none.json"], "none.json: is no report of ctd-package --json"),
            (["gone.json"], "gone.json: No such file or directory"),
        ]:
            with self.subTest(names):
                ran = self.run_tool("--merge", *names)
                self.assertEqual((ran.returncode, ran.stdout, ran.stderr.decode()), (2, b"", f"ctd-package: {told}\n"))
        self.put({"data/secret/2.in": "99\n"})
        for names, told in [([one, self.report("2/2")], "2-2.json: was made of other files or flags")]:
            ran = self.run_tool("--merge", *names)
            self.assertEqual((ran.returncode, ran.stderr.decode()), (2, f"ctd-package: {told}\n"))
        self.put({"data/secret/2.in": "9\n", "input_validators/n.ctd": PROGRAM.replace("9", "8")})
        ran = self.run_tool("--merge", one, self.report("2/2"))
        self.assertEqual((ran.returncode, ran.stderr.decode()), (2, "ctd-package: the reports are of different programs\n"))

    def test_words_that_are_refused(self) -> None:
        for words in ["--shard 0/2 p", "--shard 3/2 p", "--shard x p", "--shard 1/0 p", "", "--merge", "--shard 1/2 --merge x"]:
            with self.subTest(words):
                ran = self.run_tool(*words.split())
                self.assertEqual((ran.returncode, ran.stdout), (2, b""))

    def test_show(self) -> None:
        self.tool = "ctd-show"
        program = "p/input_validators/n.ctd"
        self.put({"data/secret/5.in": "10\n"})
        parts = [self.lines("--gcc", "--shard", f"{number}/3", program, "p/data/sample", "p/data/secret") for number in (1, 2, 3)]
        wrong = "p/data/secret/5.in:1:1: error: value out of range (p/input_validators/n.ctd:1:1)"
        self.assertEqual(sorted(parts), [(0, []), (0, []), (1, [wrong])])
        self.assertEqual(self.lines("--shard", "7/9", program, "p/data/secret"), (0, ["0 checked, 0 fit, 0 rejected, 0 without verdict"]))


@unittest.skipUnless(SSHD and shutil.which("ssh") and shutil.which("parallel"), "there is no sshd, no ssh or no parallel")
class Machines(CompanionTest):
    """Two machines, which are this one by two names."""

    CONFIG = """
Port {port}
ListenAddress 127.0.0.1
HostKey {folder}/host
PidFile none
AuthorizedKeysFile {folder}/user.pub
StrictModes no
UsePAM no
SetEnv PATH={folder}/bin:{path}
"""
    CLIENT = """
Host *
    HostName 127.0.0.1
    Port {port}
    User {user}
    IdentityFile {folder}/user
    StrictHostKeyChecking no
    UserKnownHostsFile /dev/null
    LogLevel ERROR
"""

    def start_server(self) -> None:
        """Starts a server, and puts a client that knows it in front of others."""
        with socket.socket() as free:
            free.bind(("127.0.0.1", 0))
            port = free.getsockname()[1]
        for name in ("host", "user"):
            subprocess.run(["ssh-keygen", "-q", "-t", "ed25519", "-N", "", "-f", self.folder / name], check=True)
        values = {"port": port, "folder": self.folder, "path": os.environ["PATH"], "user": getpass.getuser()}
        self.write("sshd_config", self.CONFIG.format(**values))
        self.write("ssh_config", self.CLIENT.format(**values))
        bin_folder = self.folder / "bin"
        bin_folder.mkdir()
        (bin_folder / "ssh").write_text(f'#!/bin/sh\nexec {shutil.which("ssh")} -F {self.folder}/ssh_config "$@"\n')
        (bin_folder / "ssh").chmod(0o755)
        (bin_folder / "checktestdata").symlink_to(CHECKER)
        for tool in ("ctd-package", "ctd-show"):
            (bin_folder / tool).symlink_to(TOOLS / tool)
        run_folder = Path("/run/sshd")
        if os.geteuid() == 0 and not run_folder.exists():
            # (the server of root asks for it)
            run_folder.mkdir()
            self.addCleanup(run_folder.rmdir)
        assert SSHD
        server = subprocess.Popen([SSHD, "-D", "-e", "-f", self.folder / "sshd_config"], stderr=subprocess.DEVNULL)
        self.addCleanup(server.wait)
        self.addCleanup(server.terminate)
        end = time.monotonic() + OUT_OF_TIME
        while time.monotonic() < end:
            with socket.socket() as trial:
                if trial.connect_ex(("127.0.0.1", port)) == 0:
                    return
            time.sleep(0.1)

    def test_what_the_document_shows(self) -> None:
        self.start_server()
        (self.folder / "examples").symlink_to(TOP / "examples")
        [session] = [block for block in blocks(TOP / "docs/INTEGRATION.md") if any("parallel --sshlogin" in line for line in block.lines)]
        environment = {**os.environ, "PATH": f"{self.folder}/bin:{os.environ['PATH']}", "LC_ALL": "C.UTF-8"}
        for command in commands(session):
            call = ["bash", "-c", command.text]
            ran = subprocess.run(call, cwd=self.folder, env=environment, stdin=subprocess.DEVNULL, capture_output=True, timeout=OUT_OF_TIME, check=False)
            self.assertEqual((ran.stdout + ran.stderr).decode(), command.written, command.text)


if __name__ == "__main__":
    sys.exit(run_unit_tests("parts"))
