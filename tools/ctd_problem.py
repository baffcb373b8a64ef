"""Problem packages: the programs that check their data, the data with the groups that they are in, and the flags of each."""
from __future__ import annotations

import os
import shlex
from collections.abc import Iterable, Iterator, Sequence
from dataclasses import dataclass, replace
from itertools import count, islice
from pathlib import Path

from ctd_companion import DATA_SUFFIX, NO_FILE, is_special
from ctd_presets import presets_in
from ctd_program import NAME, Refused, cut
from ctd_settings import FLAGS, ROOM, BadPackage, Settings, settings_in

PROGRAM_FOLDERS = ("input_validators", "input_format_validators")
PROGRAM_SUFFIX = ".ctd"
# The folders of data that submissions are judged by, of those whose input has to be right too, and of those that have to be rejected.
JUDGED_FOLDERS = ("sample", "secret")
RIGHT_FOLDERS = ("valid_output", "invalid_output")
INVALID_FOLDERS = ("invalid_inputs", "invalid_input")
SETTINGS = ("testdata.yaml", "test_group.yaml")
SETTINGS_SUFFIX = ".yaml"
# The most bytes of a program.
MOST_PROGRAM = 1 << 20
# How deep groups may lie in each other, and how many files of data and folders are taken.
DEEPEST, MOST_FILES, MOST_FOLDERS = 100, 100_000, 10_000


@dataclass(frozen=True)
class Flags:
    """The words for validators of input: for all of them, or for each by its name; and the file that says them by a key."""

    words: tuple[str, ...] = ()
    by_name: tuple[tuple[str, tuple[str, ...]], ...] | None = None
    path: Path = Path()
    key: str = FLAGS

    def words_for(self, validator: Path) -> tuple[str, ...]:
        """The words for a validator, which is named by its path from the package."""
        if self.by_name is None:
            return self.words
        return next((words for name, words in self.by_name if name in names_of(validator)), ())

    def options_for(self, program: Path) -> tuple[str, ...]:
        """The options of the checker for a program. Raises BadPackage where the words are none."""
        return options_of(self.path, self.words_for(program), self.key)


@dataclass(frozen=True)
class DataInPackage:
    """A file of data: its path from the package, its group, whether it has to fit, whether submissions are judged by it, and its flags."""

    path: Path
    group: str
    has_to_fit: bool
    is_judged: bool
    flags: Flags


@dataclass(frozen=True)
class Package:
    """A problem package: its programs and its data, by their paths from it."""

    folder: Path
    programs: Sequence[Path]
    data: Sequence[DataInPackage]


def names_of(validator: Path) -> set[str]:
    """The names that a validator has: that of its file or folder, with and without what stands behind its last dot."""
    names = {validator.name, validator.stem}
    return names if validator.parent.name in PROGRAM_FOLDERS else {*names, validator.parent.name}


def package_in(folder: Path) -> Package:
    """The package in a folder. Raises BadPackage."""
    if not folder.is_dir():
        raise BadPackage(f"{folder}: no such folder")
    programs = [path.relative_to(folder) for name in PROGRAM_FOLDERS for path in programs_below(folder / name)]
    if not programs:
        raise BadPackage(f"{folder}: no program *{PROGRAM_SUFFIX} in {' or '.join(PROGRAM_FOLDERS)}")
    for program in programs:
        if is_special(folder / program):
            raise BadPackage(f"{folder / program}: {NO_FILE}")
    data = list(islice(all_data(folder), MOST_FILES + 1))
    if len(data) > MOST_FILES:
        raise BadPackage(f"{folder}: more than {MOST_FILES} files *{DATA_SUFFIX}")
    if not any(one.is_judged for one in data):
        raise BadPackage(f"{folder}: no files *{DATA_SUFFIX} in {' or '.join(f'data/{name}' for name in JUDGED_FOLDERS)}")
    refuse_wrong_flags(folder, programs, dict.fromkeys(one.flags for one in data))
    refuse_unknown_presets(folder, programs, data)
    return Package(folder, programs, data)


def refuse_wrong_flags(folder: Path, programs: Sequence[Path], all_flags: Iterable[Flags]) -> None:
    """Raises BadPackage for words that are no options of the checker, and for a name of flags that no validator has, or more than one."""
    validators = {*programs, *(path.relative_to(folder) for name in PROGRAM_FOLDERS for path in (folder / name).glob("[!.]*"))}
    validators -= {program.parent for program in programs}
    for flags in all_flags:
        for name, _ in flags.by_name or ():
            named = [validator for validator in validators if name in names_of(validator)]
            if len(named) != 1:
                raise BadPackage(f"{flags.path}: {flags.key}: {name[:ROOM]} is the name of {'more than one validator' if named else 'no validator'}")
        for program in programs:
            flags.options_for(program)


def refuse_unknown_presets(folder: Path, programs: Sequence[Path], data: Sequence[DataInPackage]) -> None:
    """Raises BadPackage for a preset of a group whose name stands in no program that gets it."""
    try:
        names = {program: {token.value for token in cut(program_text(folder / program)) if token.symbol == NAME} for program in programs}
        for flags, group in {one.flags: one.group for one in reversed(data)}.items():
            given = {program: {preset.name for preset in presets_in(flags.options_for(program))} for program in programs}
            for name in sorted(set().union(*given.values())):
                if not any(name in given[program] and name.encode() in names[program] for program in programs):
                    raise BadPackage(f"{folder / group}: the flags have a preset of {name}, which no program has")
    except (OSError, Refused):
        # (the checker will tell)
        return


def program_text(path: Path) -> bytes:
    """The text of a program, or the first bytes of one that is too long to be one. Raises OSError."""
    with open(path, "rb") as file:
        return file.read(MOST_PROGRAM + 1)


def programs_below(folder: Path) -> list[Path]:
    """The programs in a folder of validators, each of which may have a folder of its own."""
    return sorted([*folder.glob(f"*{PROGRAM_SUFFIX}"), *folder.glob(f"*/*{PROGRAM_SUFFIX}")])


def all_data(folder: Path) -> Iterator[DataInPackage]:
    """All data of a package: the samples and the secret data first, and last those that have to be rejected. Raises BadPackage."""
    first, counter = flags_in(folder / "data", Flags()), count()
    for names, has_to_fit in ((JUDGED_FOLDERS + RIGHT_FOLDERS, True), (INVALID_FOLDERS, False)):
        for name in names:
            if (folder / "data" / name).is_dir():
                yield from Group(folder, folder / "data" / name, has_to_fit, name in JUDGED_FOLDERS, counter).data(first)


@dataclass(frozen=True)
class Group:
    """A folder of data in a package, with a counter of all folders, and those around it by what the system knows them by."""

    package: Path
    folder: Path
    has_to_fit: bool
    is_judged: bool
    counter: Iterator[int]
    around: tuple[tuple[int, int], ...] = ()

    def data(self, flags: Flags) -> Iterator[DataInPackage]:
        """The data of a group and of the groups in it, which have its flags where they say no others. Raises BadPackage."""
        status = self.folder.stat()
        here = (status.st_dev, status.st_ino)
        if here in self.around:
            raise BadPackage(f"{self.folder}: is a link to a folder around it")
        if next(self.counter) == MOST_FOLDERS:
            raise BadPackage(f"{self.package}: more than {MOST_FOLDERS} folders of data")
        if len(self.around) == DEEPEST:
            raise BadPackage(f"{self.folder}: lies more than {DEEPEST} folders deep")
        flags = flags_in(self.folder, flags)
        entries = sorted(self.folder.iterdir(), key=lambda path: os.fsencode(path.name))
        self.refuse_lone_settings(entries)
        for entry in entries:
            if entry.is_dir():
                yield from replace(self, folder=entry, around=(*self.around, here)).data(flags)
            elif entry.name.endswith(DATA_SUFFIX):
                if is_special(entry):
                    raise BadPackage(f"{entry}: {NO_FILE}")
                group = self.folder.relative_to(self.package).as_posix()
                yield DataInPackage(entry.relative_to(self.package), group, self.has_to_fit, self.is_judged, flags_of_file(entry, flags))

    def refuse_lone_settings(self, entries: Sequence[Path]) -> None:
        """Raises BadPackage for settings of a file that is not there."""
        others = {entry.stem for entry in entries if entry.suffix != SETTINGS_SUFFIX}
        for entry in entries:
            if entry.suffix == SETTINGS_SUFFIX and entry.name not in SETTINGS and entry.stem not in others:
                raise BadPackage(f"{entry}: has settings of a file {entry.stem}{DATA_SUFFIX}, which is not there")


def flags_of_file(file: Path, inherited: Flags) -> Flags:
    """The flags that the settings of a file say, which stand beside it, or else those of its group. Raises BadPackage."""
    path = file.with_suffix(SETTINGS_SUFFIX)
    settings = settings_in(path, is_of_file=True) if path.name not in SETTINGS and os.path.lexists(path) else None
    return flags_from(settings) if settings else inherited


def flags_in(folder: Path, inherited: Flags) -> Flags:
    """The flags that the settings of a group say, or else those of the group around it. Raises BadPackage where they are no options."""
    found = [settings for name in SETTINGS if os.path.lexists(folder / name) and (settings := settings_in(folder / name))]
    if len(found) > 1:
        raise BadPackage(f"{found[1].path}: has flags, as {found[0].path.name} has")
    return flags_from(found[0]) if found else inherited


def options_for(file: Path, program: Path) -> tuple[str, ...]:
    """The options for a program that the settings of a file of data say, or of the groups around it, up to the folder `data` of its package."""
    groups = list(file.parents)
    names = [group.name for group in groups]
    flags = Flags()
    if "data" in names:
        for group in reversed(groups[: names.index("data") + 1]):
            flags = flags_in(group, flags)
        flags = flags_of_file(file, flags)
    return flags.options_for(program)


def flags_from(settings: Settings) -> Flags:
    """The flags that settings say. Raises BadPackage."""
    path, key, given = settings.path, settings.key, settings.flags
    if isinstance(given, dict):
        return Flags((), tuple((name, tuple(words)) for name, words in given.items()), path, key)
    try:
        words = tuple(shlex.split(given) if isinstance(given, str) else given)
    except ValueError as fault:
        raise BadPackage(f"{path}: {key}: {fault}") from fault
    return Flags(words, None, path, key)


def options_of(path: Path, words: Sequence[str], key: str = FLAGS) -> tuple[str, ...]:
    """Flags as options of the checker: its own options, and presets without -D. Of presets given apart one option is made."""
    presets: list[str] = []
    options: list[str] = []
    waiting = list(reversed(words))
    while waiting:
        word = waiting.pop()
        name, equals, value = word.partition("=")
        if word in ("-w", "--whitespace-ok"):
            options.append("-w")
        elif name in ("-D", "--define", "--max-steps") and (equals or waiting):
            value = value if equals else waiting.pop()
            presets, options = (presets, [*options, f"--max-steps={value}"]) if name == "--max-steps" else ([*presets, value], options)
        elif word.startswith("-D") and word != "-D":
            presets.append(word[2:])
        elif equals and "a" <= word[:1] <= "z":
            presets.append(word)
        else:
            raise BadPackage(f"{path}: {key}: {word[:ROOM]} is no option of checktestdata and no preset")
    return tuple(sorted(set(options)) + ([f"--define={','.join(presets)}"] if presets else []))
