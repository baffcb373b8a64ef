#!/usr/bin/env python3
"""Tries the packed C file on the systems that this machine has compilers and emulators for: the checker runs the rows of tests/tables/, and ctd-lint what
tests/lint.py has. The last line counts what passed and failed, and what is missing is said before. usage: portable/test.py [WAY..]
(make test-portable)"""
from __future__ import annotations

import argparse
import os
import shutil
import subprocess
import sys
import tempfile
import tomllib
from collections.abc import Callable, Iterator
from contextlib import contextmanager, nullcontext
from dataclasses import dataclass
from pathlib import Path

TOP = Path(__file__).resolve().parent.parent
PORTABLE = TOP / "portable"
sys.path.insert(0, str(TOP / "tests"))
import lint
import tables
from results import print_counts

AARCH64 = "aarch64-unknown-linux-gnu"
# The compilers for systems that are refused, and what these lack.
REFUSED = [
    (("gcc", "-m32"), "a system of 64 bits, or WebAssembly"),
    (("clang", "--target=i686-linux-gnu"), "a system of 64 bits, or WebAssembly"),
    (("clang", "--target=s390x-linux-gnu"), "a little-endian processor"),
    (("s390x-linux-gnu-gcc",), "a little-endian processor"),
]
WINDOWS = ("-static", "-Wl,--stack,8388608", "-lshell32")
# The headers of macOS that the C file includes.
HEADERS = ["errno.h", "fcntl.h", "signal.h", "stdlib.h", "string.h", "sys/stat.h", "unistd.h"]
# The rows that Windows cannot have, by why.
LONG_COMMAND_LINE = "a command line has at most 32,767 characters"
NOT_UTF8 = "words are UTF-16, so each of them is UTF-8 for the program"
BLANK_AT_THE_END = "a blank at the end of a name is left out"
LINE_FEED = "a name has no line feed"
NOT_ON_WINDOWS = {
    "large: many presets and long ones: 'SET(n0=1,n4999=1) {5000 ASSERT(n@==@) }' on ''": LONG_COMMAND_LINE,
    "large: many presets and long ones: 'SET(longname0=1) {5000 ASSERT(longname@==@) }' on ''": LONG_COMMAND_LINE,
    "large: many presets and long ones: 'ASSERT(n==2)' on ''": LONG_COMMAND_LINE,
    "large: many presets and long ones: 'ASSERT(STRLEN(s)==100000) STRING(s)' on '{100000 x}'": LONG_COMMAND_LINE,
    "large: many presets and long ones: 'ASSERT(STRLEN(s)==100000 && n==5)' on ''": LONG_COMMAND_LINE,
    "large: many presets and long ones: 'ASSERT({100000 n}==5)' on ''": LONG_COMMAND_LINE,
    "process: words that are refused: a word that is not UTF-8": NOT_UTF8,
    "process: words that are refused: only a word that is not UTF-8": NOT_UTF8,
    "process: words that are refused: a preset that is not UTF-8": NOT_UTF8,
    "process: words that are refused: help and a word that is not UTF-8": NOT_UTF8,
    "process: a name is opened as it stands: a name that ends with a blank": BLANK_AT_THE_END,
    "process: a name is opened as it stands: a name with a line feed and a letter of two bytes": LINE_FEED,
    "process: a message has a name as it stands: data with a blank at the end of its name that are not there": BLANK_AT_THE_END,
}
# The rows that Node cannot have, and what tests/lint.py has that it cannot have: it makes UTF-8 of each word, and opens the folder where a name is empty.
EMPTY_WORDS = ["an empty word for the program", "an empty word for the data", "an empty word for each", "an empty word alone"]
NOT_UNDER_NODE = [row for row, reason in NOT_ON_WINDOWS.items() if reason == NOT_UTF8] + [f"process: words that are empty: {row}" for row in EMPTY_WORDS]
LINT_NOT_UNDER_NODE = ["call ['b.ctd', ' b.ctd ', '']"]
# How long a run may take: emulators and sanitizers are slow.
OUT_OF_TIME = 600


@dataclass(frozen=True)
class Way:
    """A way to a program: its compiler with words for it, what runs the program, and which rows and tests of ctd-lint it cannot have."""

    name: str
    compiler: str
    words: tuple[str, ...] = ()
    runner: str = ""
    without: frozenset[str] = frozenset()
    lint_without: frozenset[str] = frozenset()

    @property
    def is_windows(self) -> bool:
        return self.runner == "wine"

    @property
    def is_wasm(self) -> bool:
        return self.runner == "node"

    def missing(self) -> list[str]:
        return [tool for tool in (self.compiler, self.runner, *(["wineserver", "setarch"] if self.is_windows else [])) if tool and not shutil.which(tool)]


WAYS = [
    Way("x86-64, GCC", "gcc"),
    Way("x86-64, GCC, -O0", "gcc", ("-O0",)),
    Way("x86-64, GCC, -O2", "gcc", ("-O2",)),
    Way("x86-64, clang", "clang"),
    Way("x86-64, musl, static", "musl-gcc", ("-static",)),
    Way("x86-64, GCC with sanitizers", "gcc", ("-O1", "-fsanitize=undefined,address", "-fno-sanitize-recover")),
    Way("aarch64, static", "aarch64-linux-gnu-gcc", ("-static",), "qemu-aarch64-static"),
    Way("riscv64, static", "riscv64-linux-gnu-gcc", ("-static",), "qemu-riscv64-static"),
    Way("Windows", "x86_64-w64-mingw32-gcc", WINDOWS, "wine", frozenset(NOT_ON_WINDOWS)),
    Way("wasm32, WASI", "clang-16", (), "node", frozenset(NOT_UNDER_NODE), frozenset(LINT_NOT_UNDER_NODE)),
]
OFFICIAL = Way("aarch64, the toolchain's own target, static", "aarch64-linux-gnu-gcc", (), "qemu-aarch64-static")


@dataclass
class Counts:
    passed: int = 0
    failed: int = 0

    def add(self, name: str, fault: str) -> None:
        self.passed, self.failed = self.passed + (not fault), self.failed + bool(fault)
        if fault:
            print(f"portable: {name}: {fault}", flush=True)


@contextmanager
def wine_settings(folder: Path) -> Iterator[dict[str, str]]:
    """The variables for a Wine of its own, in a folder. Its server stays until the end: else each run may start all of Wine again."""
    settings = {"WINEPREFIX": str(folder), "WINEDEBUG": "-all"}
    environment = {**os.environ, **settings}
    folder.mkdir()
    subprocess.run(["wineserver", "-p"], env=environment, check=True)
    try:
        subprocess.run(["wineboot", "--init"], env=environment, stdout=subprocess.DEVNULL, stderr=subprocess.DEVNULL, check=True)
        yield settings
    finally:
        subprocess.run(["wineserver", "-k"], env=environment, check=False)


@contextmanager
def runner(way: Way, folder: Path) -> Iterator[Callable[[Path], Path]]:
    """What gives a command that runs a program, by an emulator if it needs one."""
    with wine_settings(folder / "wine") if way.is_windows else nullcontext(dict[str, str]()) as settings:
        words = [f"{name}={value}" for name, value in settings.items()]
        # Without `setarch -R` the heap of Wine may lie over 0x7ffe0000, where Wine needs a page; it then ends with status 1 and without a word.
        emulator = f"{'setarch -R ' if way.is_windows else ''}{shutil.which(way.runner)}"

        def command(program: Path) -> Path:
            # What runs a module of WebAssembly is a script already.
            if not way.runner or way.is_wasm:
                return program
            script = folder / "commands" / program.stem
            script.parent.mkdir(exist_ok=True)
            script.write_text(f'#!/bin/sh\n{" ".join(words)} exec {emulator} "{program}" "$@"\n')
            script.chmod(0o755)
            return script

        yield command


def rows_of_tables(way: Way, program: Path, counts: Counts) -> None:
    """Runs the rows of the tables. Each of those that a system cannot have has to fail."""
    passed, failed, unlike = counts.passed, counts.failed, set()
    tables.OUT_OF_TIME = OUT_OF_TIME
    for row, faults in tables.all_results(program, tables.TABLES):
        if row in way.without:
            unlike.update([row] if faults else [])
        else:
            counts.add(f"{way.name}: {row}", "; ".join(faults))
    for row in sorted(way.without - unlike):
        counts.add(f"{way.name}: {row}", "it is among those that this system cannot have, and passed")
    without = f", {len(unlike)} that it cannot have" if way.without else ""
    print(f"portable: {way.name}: {counts.passed - passed} passed, {counts.failed - failed} failed{without}", flush=True)


def rows_of_lint(way: Way, program: Path, counts: Counts) -> None:
    """Runs what tests/lint.py has, but for its limits of time and memory. What a system cannot have has to fail."""
    passed, failed = counts.passed, counts.failed
    lint.OUT_OF_TIME = lint.TIME_LIMIT = OUT_OF_TIME
    lint.MEMORY_LIMIT, lint.TRIES = sys.maxsize, 1
    with tempfile.TemporaryDirectory() as folder:
        table = tomllib.loads((TOP / "tests/lint.toml").read_text())
        for name, wanted, found in lint.outcomes(lint.Linter(program, Path(folder)), table):
            is_right = (found == wanted) != (name in way.lint_without)
            counts.add(f"{way.name}: ctd-lint: {name}", "" if is_right else f"{found}, wanted {wanted}")
    print(f"portable: {way.name}: ctd-lint: {counts.passed - passed} passed, {counts.failed - failed} failed", flush=True)


def compiled(way: Way, folder: Path, name: str) -> Path:
    """One of the two programs, compiled from the packed file."""
    program = folder / (f"{name}.exe" if way.is_windows else name)
    if way.is_wasm:
        subprocess.run([PORTABLE / "wasm.sh", folder, name], check=True)
        shutil.copy(TOP / "packaging/wasm/run.js", program)
    else:
        subprocess.run([PORTABLE / "compile.sh", name, program, *way.words], env={**os.environ, "CC": way.compiler}, check=True)
    return program


def official(folder: Path) -> Path:
    """The program that the toolchain compiles for aarch64 itself, which proves it once more."""
    built = f"crates/checktestdata/out/build/checktestdata.{AARCH64}.o"
    subprocess.run(["make", "--silent", "-f", "scripts/crates.mk", f"TARGET={AARCH64}", built], cwd=TOP, check=True)
    program = folder / "checktestdata.program"
    subprocess.run([OFFICIAL.compiler, "-O2", "-static", "-Wl,--gc-sections", "-s", TOP / built, PORTABLE / "aarch64.c", "-o", program], check=True)
    return program


def try_way(way: Way, counts: Counts) -> None:
    with tempfile.TemporaryDirectory() as scratch:
        folder = Path(scratch)
        try:
            with runner(way, folder) as command:
                checker = official(folder) if way is OFFICIAL else compiled(way, folder, "checktestdata")
                rows_of_tables(way, command(checker), counts)
                if way is not OFFICIAL:
                    rows_of_lint(way, command(compiled(way, folder, "ctd-lint")), counts)
        except subprocess.CalledProcessError as failure:
            counts.add(way.name, str(failure))


def refusals(folder: Path) -> Iterator[tuple[str, str]]:
    """What is refused as it is compiled, by the compilers that are there."""
    for compiler, line in REFUSED:
        if not shutil.which(compiler[0]):
            print(f"portable: left out {' '.join(compiler)}: it is not there", flush=True)
            continue
        words = [*compiler, "-ffreestanding", "-fsyntax-only", folder / "checktestdata.c"]
        ran = subprocess.run(words, capture_output=True, text=True, check=False)
        wanted = f'#error "checktestdata needs {line}"'
        yield " ".join(compiler), "" if ran.returncode and wanted in ran.stderr else f"no {wanted}"


def macos(folder: Path) -> Iterator[tuple[str, str]]:
    """The compiler's part for macOS, with stand-ins for its headers."""
    for header in HEADERS:
        (folder / header).parent.mkdir(exist_ok=True)
        shutil.copy(PORTABLE / "macos/stand_in.h", folder / header)
    for target in "arm64-apple-macos11", "x86_64-apple-macos11":
        words = ["clang", f"--target={target}", "-O2", "-ffreestanding", "-Werror", "-isystem", folder, "-c", folder / "checktestdata.c", "-o", folder / "made.o"]
        ran = subprocess.run(words, capture_output=True, text=True, check=False)
        yield f"clang for {target}", ran.stderr[:2000] if ran.returncode else ""


def can_build(python: str) -> bool:
    """Whether a Python has what builds packages. Setuptools has to be imported before pip."""
    return not subprocess.run([python, "-c", "import setuptools, pip, wheel"], capture_output=True, check=False).returncode


def libraries(folder: Path) -> Iterator[tuple[str, str]]:
    """The library that the C file is too, for C and by pip for Python."""
    subprocess.run([PORTABLE / "library.sh", folder / "built"], check=True)
    ran = subprocess.run([TOP / "embed/test.py"], env={**os.environ, "LIBRARIES": str(folder / "built")}, check=False)
    yield "embed/test.py", f"status {ran.returncode}" if ran.returncode else ""
    pythons = [python for python in (sys.executable, "/usr/bin/python3") if can_build(python)]
    if not pythons:
        print("portable: left out pip install ./embed/python: pip, setuptools and wheel are not there")
        return
    words = ["pip", "install", "--quiet", "--no-build-isolation", "--no-index", "--target", folder / "python", TOP / "embed/python"]
    subprocess.run([pythons[0], "-m", *words], check=True)
    check = "import checktestdata; print(checktestdata.check('INT(1,10) NEWLINE', b'7').message)"
    ran_there = subprocess.run([pythons[0], "-c", check], cwd=folder / "python", capture_output=True, text=True, check=False)
    wanted = "line 1 column 2: expected a newline (program line 1 column 11)\n"
    yield "pip install ./embed/python", "" if ran_there.stdout == wanted else f"{ran_there.stdout!r} {ran_there.stderr}"


def compiled_only(folder: Path) -> Iterator[tuple[str, str]]:
    with open(folder / "checktestdata.c", "wb") as file:
        subprocess.run([PORTABLE / "unpack.sh"], stdout=file, check=True)
    yield from refusals(folder)
    yield from macos(folder)


# What is tried otherwise than by the rows of the tables.
OTHERS = {Way("compiled only", "clang"): compiled_only, Way("libraries", "gcc"): libraries}


def try_other(way: Way, counts: Counts) -> None:
    with tempfile.TemporaryDirectory() as scratch:
        try:
            for name, fault in OTHERS[way](Path(scratch)):
                counts.add(name, fault)
        except subprocess.CalledProcessError as failure:
            counts.add(way.name, str(failure))


def main() -> int:
    parser = argparse.ArgumentParser(description="Tries the packed C file on other systems.")
    parser.add_argument("ways", nargs="*", metavar="WAY", help="a part of the name of a way; all, if there is none")
    wanted = parser.parse_args().ways
    counts = Counts()
    for way in [*WAYS, OFFICIAL, *OTHERS]:
        if wanted and not any(part in way.name for part in wanted):
            continue
        missing = way.missing() + (["rt"] if way is OFFICIAL and not shutil.which("rt") else [])
        if missing:
            print(f"portable: left out {way.name}: {', '.join(missing)} is not there", flush=True)
        elif way in OTHERS:
            try_other(way, counts)
        else:
            try_way(way, counts)
    return print_counts(counts.passed, counts.failed)


if __name__ == "__main__":
    sys.exit(main())
