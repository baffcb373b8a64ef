"""What files of test data do not try of a program: how all files are asked, and what is said of each command."""
from __future__ import annotations

import shutil
import sys
import tempfile
import threading
from collections.abc import Iterable, Iterator, Sequence
from dataclasses import dataclass, field
from pathlib import Path

from ctd_companion import FITS, STANDARD_INPUT, Checker, DataFile, Progress, open_data, results_in_order
from ctd_asked import Linter, Told
from ctd_coverage import DECIDED, ENDS, TIGHT, WORD, Findings, Skeleton, Watched, bounding_operands, merged
from ctd_file_runs import FileRun
from ctd_guesses import Reading
from ctd_possible import Possible
from ctd_presets import presets_in
from ctd_program import Command, commands_of
from ctd_questions import Asker, CannotAsk, fresh_name, place_at
from ctd_ranges import Measured, Range
from ctd_trees import LOOPS

# How many files begin with what was found in those before them: not the number of jobs, so that no result depends on that.
TOGETHER = 8
# How much of a command is shown.
ROOM = 40


class Refused(Exception):
    """The program, or an option for the checker, is refused."""


@dataclass(frozen=True)
class HeldFile:
    """A file of data: the name that is shown, and where it can be read more than once."""

    name: str
    path: Path

    @property
    def size(self) -> int:
        return self.path.stat().st_size


@dataclass
class Coverage:
    """What files try of a program; and the files that do not fit, each with its line."""

    possible: Possible
    found: Findings = field(default_factory=dict)
    misfits: list[str] = field(default_factory=list)
    files: int = 0
    runs: int = 0

    @property
    def skeleton(self) -> Skeleton:
        return self.possible.skeleton


@dataclass
class Workshop:
    """A folder for copies of the program, and of data that can be read only once."""

    folder: Path

    def hold(self, file: DataFile) -> HeldFile:
        """A file that can be read more than once. Raises OSError where it cannot be read."""
        with open_data(file.name) as data:
            if file.name != STANDARD_INPUT and data.seekable():
                data.read(1)
                return HeldFile(file.shown, Path(file.name))
            descriptor, copy = tempfile.mkstemp(dir=self.folder)
            with open(descriptor, "wb") as written:
                shutil.copyfileobj(data, written)
        return HeldFile(file.shown, Path(copy))

    def copy_file(self) -> Path:
        """Where a worker writes its copies of the program."""
        return self.folder / f"{threading.get_ident()}.ctd"


def watched_program(checker: Checker, linter: Linter) -> Possible:
    """The program of a checker, which it has accepted, with places for questions, and what ctd-lint knows of it."""
    # Programs nest deeply, and each level takes some calls.
    sys.setrecursionlimit(max(sys.getrecursionlimit(), 10_000))
    if not Path(checker.program).is_file():
        raise CannotAsk("the program is no file, and cannot be read again")
    text = Path(checker.program).read_bytes()
    commands, fresh = commands_of(text), fresh_name(text, checker.options)
    told = linter.tell([text])[0]
    # (of a program that takes long to analyse each copy does too)
    known = Linter() if told.is_large else linter
    ranges = Measured(text, commands, fresh, known).ranges(bounding_operands(commands))
    return Possible(Skeleton(text, commands, fresh, list(presets_in(checker.options)), ranges), known, told)


# Where no file fits, and so the program may be refused.
NOTHING_WATCHED = Possible(Skeleton(b"", [], b"", [], {}), Linter(), Told())


def fitting(checker: Checker, files: Sequence[DataFile], shop: Workshop, jobs: int) -> Iterator[HeldFile | str]:
    """Each file that fits, or a line for one that does not. Raises Refused where the program is."""

    def one(file: DataFile) -> tuple[HeldFile | str, bool]:
        if file.fault is not None:
            return f"{file.shown}: {file.fault}", False
        try:
            held = shop.hold(file)
            with held.path.open("rb") as data:
                answer, _ = checker.check_file(data)
        except OSError as error:
            return f"{file.shown}: cannot read: {error.strerror}", False
        if answer.status == FITS:
            return held, False
        return answer.line if answer.is_of_the_call else f"{file.shown}: {answer.line}", answer.is_of_the_call

    for found, is_of_the_call in results_in_order(one, files, jobs, Progress(len(files), "files checked")):
        if is_of_the_call:
            raise Refused(found)
        yield found


def cover(checker: Checker, given: Sequence[DataFile], jobs: int, is_whole: bool = True) -> Coverage:
    """What files try of a program; where it is not to be whole, only what notes tell. Raises Refused where the program is, and CannotAsk where questions cannot be put into it."""
    with tempfile.TemporaryDirectory() as folder:
        shop = Workshop(Path(folder))
        checked = list(fitting(checker, given, shop, jobs))
        files = sorted((file for file in checked if isinstance(file, HeldFile)), key=lambda file: file.size)
        # (a program is accepted where a file fits it)
        possible = watched_program(checker, Linter.beside(checker, jobs)) if files else NOTHING_WATCHED
        skeleton = possible.skeleton
        coverage = Coverage(possible, misfits=[line for line in checked if isinstance(line, str)], files=len(files), runs=len(checked))

        def one(task: tuple[HeldFile, Findings]) -> tuple[Findings, int]:
            file, before = task
            with file.path.open("rb", buffering=0) as data:
                asker = Asker(checker, data, shop.copy_file(), progress=progress)
                return FileRun(skeleton, asker, file.name, before, reading, is_whole).whole(), asker.runs

        progress, reading = Progress(len(files), "files asked"), Reading(skeleton, "-w" in checker.options)
        # small files first: most is answered by them
        for start in range(0, len(files), TOGETHER):
            tasks = [(file, coverage.found) for file in files[start : start + TOGETHER]]
            for found, runs in results_in_order(one, tasks, jobs, progress.behind(start)):
                coverage.found = merged(coverage.found, found)
                coverage.runs += runs
        return coverage


@dataclass(frozen=True)
class Seen:
    """What was seen of a command; what was not, if anything; what a note of that has besides; and what no data can show."""

    seen: str
    untried: str = ""
    before: str = ""
    behind: str = ""
    dead: str = ""


@dataclass(frozen=True)
class Row:
    """What is said of a command: where it stands, its text, and what was seen of it."""

    line: int
    column: int
    command: str
    what: Seen


def shown(text: bytes, room: int = ROOM) -> str:
    """A part of a program on one line, cut where it is long."""
    line = " ".join(text.decode("utf-8", "backslashreplace").split())
    line = "".join(one if one.isprintable() else repr(one)[1:-1] for one in line)
    return line if len(line) <= room else line[: room - 1] + "…"


def rows(coverage: Coverage) -> list[Row]:
    """What is said of each command of which something is watched, and of the commands that no file runs, in the order of the program."""
    skeleton, found = coverage.skeleton, coverage.found
    if not coverage.files:
        return []
    run = [watched for watched in skeleton.watched if watched.block.is_run(found) and watched.things]
    coverage.possible.ask_all(thing for watched in run for thing in watched.open_things(found))
    said = {command.offset: row_of(skeleton, command, what) for command, what in never_run(coverage)}
    for watched in run:
        said[watched.command.offset] = row_of(skeleton, watched.command, SAYERS[watched.command.word](coverage, watched))
    return [said[offset] for offset in sorted(said)]


def never_run(coverage: Coverage) -> Iterator[tuple[Command, Seen]]:
    """The first command of each list of commands that no file runs, where what stands around the list is run."""
    found = coverage.found
    for block in coverage.skeleton.blocks:
        is_missed = block.commands and not block.is_entered(found) and (block.parent is None or block.parent.is_run(found))
        if is_missed and any(map(coverage.possible.can_be, block.ways)):
            count = len(block.commands)
            yield block.commands[0], Seen("never run", "no file runs this command" if count == 1 else f"no file runs these {count} commands")


def row_of(skeleton: Skeleton, command: Command, what: Seen) -> Row:
    place = place_at(skeleton.text, command.offset)
    is_block = command.word in (*LOOPS, "IF")
    head = skeleton.text[command.offset : command.arguments[-1].end] + b")" if is_block else skeleton.text[command.offset : command.end]
    return Row(place.line, place.column, shown(head), what)


def bound_text(skeleton: Skeleton, watched: Watched, index: int, known: Range) -> str:
    """A bound of an INT: its number, or what the program says."""
    return str(known.only) if known.only is not None else shown(skeleton.source(watched.command.arguments[index]), 20)


def seen_range(watched: Watched, found: Findings) -> str:
    least, greatest = (found.get(watched.things[end]) for end in ("least", "greatest"))
    return "" if least is None or greatest is None else f"{least.value} ({least.spot}) .. {greatest.value} ({greatest.spot})"


def missed_of(coverage: Coverage, watched: Watched, names: Iterable[str]) -> list[str]:
    """Those of the things with these names that did not happen, and can."""
    missed = [name for name in names if watched.things[name] not in coverage.found]
    return [name for name in missed if coverage.possible.can_be(watched.things[name])]


def missed_bounds(coverage: Coverage, watched: Watched) -> list[str]:
    """Which of the ends of an INT or of the lengths of a REGEX were not taken, and can be."""
    missed = [bound for bound in ENDS if not watched.is_taken(bound, coverage.found)]
    return [ENDS[bound] for bound in missed if coverage.possible.can_be(watched.thing(bound))]


def missing_bounds(missed: Sequence[str]) -> str:
    return "neither bound is ever taken" if len(missed) == 2 else f"the {missed[0]} is never taken" if missed else ""


def of_integer(coverage: Coverage, watched: Watched) -> Seen:
    missed, found = missed_bounds(coverage, watched), coverage.found
    low, high = bound_text(coverage.skeleton, watched, 0, watched.low), bound_text(coverage.skeleton, watched, 1, watched.high)
    seen = f"{seen_range(watched, found)} of {low}..{high}"
    if not missed:
        return Seen(seen)
    ends = {name: found[watched.things[name]] for name in ("least", "greatest")}
    before = f"took {ends['least'].value}..{ends['greatest'].value} of {low}..{high}: "
    return Seen(seen, missing_bounds(missed), before, f" ({', '.join(str(ends[name].spot) for name in missed)})")


def of_regex(coverage: Coverage, watched: Watched) -> Seen:
    words, found = [name for name in watched.things if name.startswith(WORD)], coverage.found
    seen = f"{seen_range(watched, found)} bytes"
    if words:
        missed = missed_of(coverage, watched, words)
        return Seen(seen, f"never took {quoted(name.removeprefix(WORD) for name in missed)}" if missed else "")
    low, high = watched.low.only, watched.high.only
    if low is None or high is None:
        return Seen(seen)
    least, greatest = (found[watched.things[name]].value for name in ("least", "greatest"))
    return Seen(f"{seen} of {low}..{high}", missing_bounds(missed_bounds(coverage, watched)), f"took {least}..{greatest} of {low}..{high} bytes: ")


def quoted(words: Iterable[str]) -> str:
    return ", ".join(f'"{shown(word.encode())}"' for word in words)


def of_choice(coverage: Coverage, watched: Watched) -> Seen:
    seen = [name for name in ("true", "false") if watched.things[name] in coverage.found]
    missed = missed_of(coverage, watched, ("true", "false"))
    # (a preset may well leave a choice no choice)
    dead = [] if coverage.skeleton.presets else [name for name in ("true", "false") if name not in (*seen, *missed)]
    untried = [*(f"the test is never {name}" for name in missed), *undecided(coverage, watched)]
    return Seen(", ".join(seen), ", ".join(untried), dead=f"no data make the test {dead[0]}" if dead else "")


def undecided(coverage: Coverage, watched: Watched) -> list[str]:
    """What is said of the sides of a test that never decide it."""
    missed = missed_of(coverage, watched, [name for name in watched.things if name.startswith(DECIDED)])
    return [f"never {shown(name.encode())}" for name in missed]


TURNS = {"none": ("no turn", "never without a turn"), "one": ("one turn", "never with one turn alone"), "more": ("more turns", "never with more than one turn")}


def of_loop(coverage: Coverage, watched: Watched) -> Seen:
    seen = [told for name, (told, _) in TURNS.items() if watched.things[name] in coverage.found]
    missed = [*(TURNS[name][1] for name in missed_of(coverage, watched, TURNS)), *undecided(coverage, watched)]
    most = coverage.found.get(watched.things["most"])
    return Seen(f"{', '.join(seen) or 'turns'}{f'; at most {most.value} ({most.spot})' if most else ''}", ", ".join(missed))


def of_assertion(coverage: Coverage, watched: Watched) -> Seen:
    tight, found = {name: shown(name.removeprefix(TIGHT).encode()) for name in watched.things if name.startswith(TIGHT)}, coverage.found
    seen = [f"{told} ({found[watched.things[name]].spot})" for name, told in tight.items() if watched.things[name] in found]
    sides = undecided(coverage, watched)
    # (of a side that never decides that is enough)
    missed = [tight[name] for name in missed_of(coverage, watched, tight) if f"never {DECIDED}{tight[name]}" not in sides]
    never = [f"never tight: {', '.join(missed)}"] if missed else []
    return Seen(f"tight: {', '.join(seen)}" if seen else "", ", ".join([*never, *sides]))


SAYERS = {"INT": of_integer, "REGEX": of_regex, "IF": of_choice, "ASSERT": of_assertion, **{word: of_loop for word in LOOPS}}


def notes(program: str, said: Sequence[Row]) -> Iterator[str]:
    """What was not tried, in the form of compilers, and what no data can try."""
    for row in said:
        if what := row.what.untried:
            word = "" if what.startswith("no file") else f"{row.command.partition('(')[0]}: "
            yield f"{program}:{row.line}:{row.column}: note: {word}{row.what.before}{what}{row.what.behind}"
        if row.what.dead:
            yield f"{program}:{row.line}:{row.column}: note: {row.command.partition('(')[0]}: {row.what.dead}"


def table(said: Sequence[Row]) -> Iterator[str]:
    """All that was seen, in columns."""
    cells = [("place", "command", "seen", "not tried")]
    for one in said:
        untried = ", ".join(filter(None, (one.what.untried, one.what.dead)))
        cells.append((f"{one.line}:{one.column}", one.command, one.what.seen, untried))
    widths = [max(len(row[column]) for row in cells) for column in range(3)]
    for row in cells:
        yield "  ".join([f"{cell:{width}}" for cell, width in zip(row, widths)] + [row[3]]).rstrip()


def summary(coverage: Coverage, said: Sequence[Row]) -> str:
    """How many commands were watched, and how many have something that was not tried."""
    if not coverage.files:
        return "no file fits"
    untried = sum(1 for row in said if row.what.untried)
    files = "1 file" if coverage.files == 1 else f"{coverage.files} files"
    commands = "1 command" if len(said) == 1 else f"{len(said)} commands"
    return f"{commands} watched in {files}, {untried} not fully tried"

