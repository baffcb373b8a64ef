"""The validators of a problem package beside its programs of checktestdata: how they are found and run, and whether they agree with the programs."""
from __future__ import annotations

import os
import re
import shlex
import subprocess
import sys
import tempfile
from collections.abc import Iterable, Iterator, Sequence
from dataclasses import dataclass
from pathlib import Path

from ctd_companion import FITS, NO_FILE, NO_VERDICT, REJECTED, Answer, is_special, printable, text_of
from ctd_problem import PROGRAM_FOLDERS, PROGRAM_SUFFIX, BadPackage, DataInPackage, Flags, Package, names_of
from ctd_processes import TooMuchWritten, run_command
from ctd_report import Opinion
from ctd_settings import ROOM
from ctd_shares import size_of
from ctd_validators import MOST_WRITTEN, PYTHON_SUFFIX, BadCommand, answer_to, last_line, words_to_run

MUTATE, VALIDATE = (Path(__file__).resolve().parent / name for name in ("ctd-mutate", "ctd-validate"))
# How the names of sources end that are compiled, each with the variable for its compiler and the usual one.
COMPILERS = {".c": ("CC", "cc"), **dict.fromkeys((".cc", ".cpp", ".cxx", ".c++"), ("CXX", "c++"))}
# And of other sources; of those that a system may run by themselves it has to be said that they can be run.
OTHER_SOURCES = (".java", ".kt", ".rs", ".go", ".hs", ".cs", ".scala", ".pas", ".d", ".swift", ".ml", ".f90", ".adb")
SCRIPTS = (".sh", ".bash", ".rb", ".pl", ".js", ".mjs", ".php", ".lua", ".jl", ".py2", ".py3", ".ts")
CACHE = "__pycache__"
# How many seconds a validator may take for a file, or its compiler, and how many wrong files of each kind are made from one.
SECONDS = 60
MOST = 2
COUNTS = re.compile(r"(?:should not fit|may fit): \d+ made, .*")
COMPARED = re.compile(r"against .*: \d+ compared, \d+ agree, (\d+) disagree, \d+ without verdict", re.DOTALL)


@dataclass(frozen=True)
class Other:
    """A validator by its path from the package, and the words that run it."""

    path: Path
    words: tuple[str, ...]

    def judge(self, package: Package, data: DataInPackage) -> Answer:
        """What it says of a file; a rejection has some text."""
        answer = answer_to([*self.words, *data.flags.words_for(self.path)], str(package.folder / data.path), SECONDS)
        return Answer(REJECTED, "rejected", "rejected") if answer.status == REJECTED and not answer.line else answer


def others_in(package: Package, unwanted: Iterable[str], shop: Path) -> tuple[list[Other], list[Opinion]]:
    """The other validators of a package, and a remark on each that cannot be run, or is not wanted. What has to be compiled is made in a folder. Raises
    BadPackage for an unwanted one that is not there."""
    found, left_out, names = [], [], set(unwanted)
    for folder in PROGRAM_FOLDERS:
        for path in sorted((package.folder / folder).glob("[!.]*")):
            name = path.relative_to(package.folder)
            if name in package.programs:
                continue
            if is_special(path):
                raise BadPackage(f"{path}: {NO_FILE}")
            if called := names & {*names_of(name), name.as_posix()}:
                unwanted = [one for one in unwanted if one not in called]
                left_out.append(Opinion(printable(name.as_posix()), [], [], "left out, as it was asked for"))
                continue
            try:
                words = words_for(path, shop)
            except BadCommand as bad:
                left_out.append(Opinion(printable(name.as_posix()), [], [], f"left out: {bad}", NO_VERDICT))
                continue
            if words:
                found.append(Other(name, tuple(words)))
    for one in unwanted:
        raise BadPackage(f"{package.folder}: there is no validator {one[:ROOM]} beside the programs")
    return found, left_out


def words_for(path: Path, shop: Path) -> list[str]:
    """The words that run a validator; none for a file that is not one. Raises BadCommand where it cannot be run."""
    if path.is_dir():
        if (path / "run").is_file():
            return words_to_run(str(path / "run"))
        if path.name == CACHE or any(path.glob(f"*{PROGRAM_SUFFIX}")):
            return []
        raise BadCommand("it has no file run")
    if path.suffix == PROGRAM_SUFFIX or path.name.endswith("~"):
        return []
    if path.suffix in COMPILERS:
        return [compiled(path, shop)]
    if path.suffix in OTHER_SOURCES:
        raise BadCommand("it has to be compiled")
    if path.suffix == PYTHON_SUFFIX or os.access(path, os.X_OK):
        return words_to_run(str(path))
    if path.suffix in SCRIPTS:
        raise BadCommand("it cannot be run")
    return []


def compiled(path: Path, shop: Path) -> str:
    """The program that a compiler makes of a source in C or C++, in a folder of its own. Raises BadCommand."""
    variable, usual = COMPILERS[path.suffix]
    compiler = shlex.split(os.environ.get(variable, "")) or [usual]
    program = Path(tempfile.mkdtemp(dir=shop)) / "validator"
    try:
        ran = run_command([*compiler, "-O2", "-o", str(program), str(path.resolve()), "-lm"], seconds=SECONDS, room=MOST_WRITTEN)
    except OSError as fault:
        raise BadCommand(f"it cannot be compiled: {compiler[0]}: {fault.strerror}") from fault
    except (subprocess.TimeoutExpired, TooMuchWritten) as fault:
        raise BadCommand("it cannot be compiled: the compiler takes too long, or says too much") from fault
    if ran.status:
        raise BadCommand(f"it cannot be compiled: {last_line(text_of(ran.err))}")
    return str(program)


@dataclass(frozen=True)
class Asking:
    """What all comparisons of validators have in common: the package and the checker with the options of the command line, the number of jobs, and
    whether validators may disagree."""

    package: Package
    checker: str
    options: Sequence[str]
    jobs: int
    may_disagree: bool

    def opinions(self, others: Sequence[Other]) -> Iterator[Opinion]:
        """Whether the first program agrees with each other validator on the smallest file of each group and on wrong files made from it, apart for
        each choice of flags."""
        first, *programs = self.package.programs
        for flags, files in self.smallest_files().items():
            for program in programs:
                words = flags.words_for(program)
                # (a second program gets the options of the first, if it has no own)
                own = [] if flags.by_name is None else [sys.executable, str(VALIDATE), "--checker", self.checker, str(program), *words]
                yield self.opinion(flags, (shlex.join([str(program), *(words if own else ())]), own), files)
            for other in others:
                words = flags.words_for(other.path)
                yield self.opinion(flags, (shlex.join([str(other.path), *words]), [*other.words, *words]), files)

    def smallest_files(self) -> dict[Flags, list[Path]]:
        """The smallest file of each group, by the flags."""
        found: dict[Flags, dict[str, Path]] = {}
        for data in self.package.data:
            if data.is_judged:
                of_groups = found.setdefault(data.flags, {})
                of_groups[data.group] = min(of_groups.get(data.group, data.path), data.path, key=lambda path: size_of(self.package.folder / path))
        return {flags: list(of_groups.values()) for flags, of_groups in found.items()}

    def opinion(self, flags: Flags, other: tuple[str, Sequence[str]], files: Sequence[Path]) -> Opinion:
        """What ctd-mutate says of the first program and another validator, which is shown by one name and run by words, if they are given."""
        program, (shown, words) = self.package.programs[0], other
        options = [*self.options, *flags.options_for(program)]
        command = shlex.join(words) if words else shown
        call = [sys.executable, str(MUTATE), "--checker", self.checker, f"--jobs={self.jobs}", f"--most={MOST}", f"--timeout={SECONDS}"]
        # (its lines have the names that it is given)
        try:
            ran = run_command([*call, "--against", command, *options, "--", str(program), *map(str, files)], cwd=self.package.folder)
        except TooMuchWritten:
            return Opinion(printable(program.as_posix()), options, [], f"against {printable(shown)}: more than can be told", NO_VERDICT)
        lines = [line.replace(printable(command), printable(shown)) for line in text_of(ran.out).splitlines()]
        told = lines[1 + max((number for number, line in enumerate(lines) if COUNTS.fullmatch(line)), default=-1) :]
        compared = COMPARED.fullmatch(told[-1]) if told else None
        if compared is None:
            summary, status = last_line(text_of(ran.err)) or last_line(text_of(ran.out)), NO_VERDICT
        else:
            summary, status = told.pop(), REJECTED if int(compared[1]) and not self.may_disagree else FITS
        return Opinion(printable(program.as_posix()), options, told, summary, status)
