"""The faults in the data beside a program, as ctd-package or ctd-show tells them."""
from __future__ import annotations

import json
import re
import sys
from collections.abc import Callable, Sequence
from dataclasses import dataclass
from functools import partial
from pathlib import Path

from ctd_companion import DATA_FAULT, NO_VERDICT, REJECTED, Place, place_of, printable, text_of
from ctd_diagnostics import run_while
from ctd_problem import PROGRAM_FOLDERS
from ctd_text import Json, Text

# A line of `ctd-show --gcc`: the name of a file, the place in it, the message, and the place in the program.
FAULT = re.compile(r"(.*?)(?::(\d+):(\d+))?: error: (.*?)(?: \((?:.*:(\d+):(\d+)|program (?:start|end))\))?", re.DOTALL)
# Files of more bytes are not read to find a place in them; editors do not open them either.
LARGEST = 2**26
WORD = re.compile(rb"\S+")


class CannotCheck(Exception):
    """The data cannot be checked: one line that says why."""


@dataclass(frozen=True)
class DataFault:
    """What is wrong with a file of data: where the failing command began, if there is one, and the place of that in its program."""

    file: Path
    message: str
    in_data: Place | None
    program: Path
    in_program: Place | None


def package_of(program: Path) -> Path | None:
    """The folder of the problem package among whose validators a program is."""
    return next((folder.parent for folder in program.parents if folder.name in PROGRAM_FOLDERS), None)


# Runs a companion with these words, and gives what it writes.
Run = Callable[..., str]


def data_faults(checker: str, program: Path, define: Sequence[str], is_wanted: Callable[[], bool]) -> tuple[list[DataFault], str]:
    """The faults in the data of the package of a program, or else of its folder; and how many there are, in words. Raises CannotCheck, or
    NotWanted as soon as the result is not wanted any more."""
    package, run = package_of(program), partial(written_by, is_wanted, checker)
    return faults_of_package(run, package) if package else faults_of_folder(run, program, define)


def written_by(is_wanted: Callable[[], bool], checker: str, companion: str, *words: str) -> str:
    """What a companion writes. Raises CannotCheck where that is nothing but an error."""
    ran = run_while([sys.executable, str(Path(__file__).resolve().parent / companion), f"--checker={checker}", *words], is_wanted)
    if ran.returncode == NO_VERDICT and not ran.stdout:
        raise CannotCheck(printable(text_of(ran.stderr).strip()))
    return text_of(ran.stdout)


def faults_of_package(run: Run, package: Path) -> tuple[list[DataFault], str]:
    """What ctd-package says is not as it has to be."""
    checks = json.loads(run("ctd-package", "--json", "--no-cover", "--", str(package)))["checks"]
    faults = [fault_of_check(package, check) for check in checks if check["fault"]]
    return faults, f"{len(checks)} checked, {len(checks) - len(faults)} as they have to be, {len(faults)} not"


def fault_of_check(package: Path, check: Json) -> DataFault:
    """What ctd-package says of a file and a program."""
    file, program, message = package / check["file"], package / check["program"], check["fault"]
    said = DATA_FAULT.fullmatch(check["answer"])
    if said is None:
        return DataFault(file, message, None, program, None)
    if message == check["answer"]:
        message = said[3] if check["status"] == REJECTED else f"no verdict: {said[3]}"
    return DataFault(file, message, place_of(said[1], said[2]), program, place_of(said[5], said[6]))


def faults_of_folder(run: Run, program: Path, define: Sequence[str]) -> tuple[list[DataFault], str]:
    """What ctd-show says does not fit of the data below the folder of a program."""
    faults = []
    for line in run("ctd-show", "--gcc", *define, "--", str(program), str(program.parent)).splitlines():
        said = FAULT.fullmatch(line)
        if said is None or said[1] in (printable(str(program)), printable(str(program.parent))):
            raise CannotCheck(line)
        faults.append(DataFault(Path(said[1]), said[4], place_of(said[2], said[3]), program, place_of(said[5], said[6])))
    return faults, {0: "all data fit", 1: "1 file does not fit"}.get(len(faults), f"{len(faults)} files do not fit")


def range_in(file: Path, place: Place | None) -> Json:
    """The range of the word at a place of a file, or the start of the file where there is no place, or the file is too large to look."""
    if place is None or not file.is_file() or file.stat().st_size > LARGEST:
        return Text(b"").span(0, 0)
    text = Text(file.read_bytes())
    start = text.offset_at(place)
    word = WORD.match(text.data, start)
    return text.span(start, word.end() if word else start)
