#!/usr/bin/env python3
"""Runs what the documents show: every session, every file that they write, every program. And it follows their links.

Each document has a folder of its own, in which its files are written and its commands run, one after the other, by bash. `checktestdata` is
the built checker there, `ctd-lint` the built linter, and `examples` is that of the repository. A command has to write what stands below it, on both
streams together. A program that stands alone has to be read without a fault. How blocks are marked is told in markdown_blocks.py. A block that needs a
program which is not there is left out, and a line says so.

The last line counts the commands and programs that did what is written and the links that lead somewhere, as passed, and the others.
usage: tests/documents.py [PROGRAM]"""
import os
import shutil
import subprocess
import sys
import tempfile
from collections.abc import Iterator
from pathlib import Path

from markdown_blocks import INDENTED, Block, Command, anchors, blocks, commands, links
from results import TOP, checker_to_test, print_results

GUIDES = ["TUTORIAL", "COOKBOOK", "MIGRATION", "INTEGRATION", "MISTAKES"]
DOCUMENTS = ["README.md", "SECURITY.md", "examples/README.md", *(f"docs/{name}.md" for name in GUIDES)]
SESSIONS = ["console", INDENTED]
OUT_OF_TIME = 60
# README: the first command of a newcomer, which stands without a prompt
FIRST_COMMAND = "./checktestdata examples/numbers/program.ctd examples/numbers/right.in"


class Reader:
    """Someone who does what a document says, in a folder."""

    def __init__(self, checker: Path, folder: Path) -> None:
        self.folder = folder
        self.status = 0
        (folder / "checktestdata").symlink_to(checker)
        (folder / "ctd-lint").symlink_to(TOP / "crates/ctd_lint/out/ctd_lint")
        for companion in ["ctd-show", "ctd-mutate", "ctd-cover", "ctd-package", "ctd-validate"]:
            (folder / companion).symlink_to(TOP / "tools" / companion)
        (folder / "examples").symlink_to(TOP / "examples")
        # a make in a document is not one of the make that runs the tests
        outside = {name: value for name, value in os.environ.items() if name not in ["MAKEFLAGS", "MAKELEVEL", "MFLAGS"]}
        self.environment = {**outside, "PATH": f"{folder}:{os.environ['PATH']}", "LC_ALL": "C.UTF-8"}

    def write(self, block: Block) -> None:
        """Writes the file that a block is."""
        assert block.file is not None
        file = self.folder / block.file
        file.parent.mkdir(parents=True, exist_ok=True)
        file.write_text(block.text())
        if block.lines[0].startswith("#!"):
            file.chmod(0o755)

    def run(self, text: str) -> str:
        """What a command writes on both streams; `$?` in it is the status of the command before."""
        done = subprocess.run(
            ["timeout", str(OUT_OF_TIME), "bash", "-c", f"(exit {self.status}); {text}"],
            cwd=self.folder,
            env=self.environment,
            stdin=subprocess.DEVNULL,
            stdout=subprocess.PIPE,
            stderr=subprocess.STDOUT,
            check=False,
        )
        self.status = done.returncode
        return done.stdout.decode("utf-8", "backslashreplace")

    def fault(self, command: Command) -> str | None:
        """What a command of a session wrote in place of what is shown."""
        found = self.run(command.text)
        if found == command.written:
            return None
        return f"{command.text!r} writes {found!r}, wanted {command.written!r}"

    def fault_of_program(self, block: Block) -> str | None:
        """Why a program that stands alone is refused."""
        alone = self.folder / "alone.ctd"
        alone.write_text(block.text())
        found = self.run("checktestdata alone.ctd </dev/null")
        return f"a program is refused: {found!r}" if found.startswith("checktestdata: program ") else None


def faults(reader: Reader, block: Block) -> Iterator[tuple[int, str | None]]:
    """For each command or program of a block the number of its line, and what is wrong with it."""
    if block.kind in SESSIONS:
        for command in commands(block):
            yield command.number, reader.fault(command)
        return
    if block.file is not None:
        reader.write(block)
    if block.kind == "ctd":
        yield block.number, reader.fault_of_program(block)
    elif block.file is None and block.kind != "text":
        yield block.number, f"a block of the kind {block.kind!r} is no session, no file and no program"


def fault_of_link(document: Path, link: str) -> str | None:
    """Why a link leads nowhere."""
    name, _, anchor = link.partition("#")
    file = document.parent / name if name else document
    if not file.exists():
        return f"there is no {link}"
    return f"there is no heading {link}" if anchor and anchor not in anchors(file) else None


def reason_to_leave_out(block: Block) -> str | None:
    """Why a block is not run here."""
    if block.needs is not None and shutil.which(block.needs) is None:
        return f"there is no {block.needs}"
    return block.not_run


def results_of(name: str, checker: Path, folder: Path) -> Iterator[tuple[int, str | None]]:
    """For each command, program and link of a document the number of its line, and what is wrong with it."""
    document, reader = TOP / name, Reader(checker, folder)
    if name == "README.md":
        is_right = FIRST_COMMAND in document.read_text() and reader.run(FIRST_COMMAND) == "testdata ok!\n"
        yield 1, None if is_right else f"{FIRST_COMMAND!r} is not there, or does not write `testdata ok!`"
    for block in blocks(document):
        if reason := reason_to_leave_out(block):
            print(f"documents: {name}, line {block.number}: left out: {reason}")
        else:
            yield from faults(reader, block)
    for number, link in links(document):
        yield number, fault_of_link(document, link)


def all_results(checker: Path) -> Iterator[tuple[str, list[str]]]:
    """The results of each document, which has a folder of its own."""
    for name in DOCUMENTS:
        with tempfile.TemporaryDirectory() as folder:
            for number, fault in results_of(name, checker, Path(folder)):
                yield f"{name}, line {number}", [] if fault is None else [fault]


if __name__ == "__main__":
    sys.exit(print_results("documents", all_results(checker_to_test())))
