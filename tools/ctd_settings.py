"""The files of settings in a problem package: the names that they may have, of this format and that before it, and what is read of their YAML."""
from __future__ import annotations

from collections.abc import Iterator
from dataclasses import dataclass
from difflib import get_close_matches
from pathlib import Path
from typing import Any, Union

from ctd_companion import NO_FILE

# The flags of validators of input, and the same in the format of 2025-09.
FLAGS, ARGUMENTS = "input_validator_flags", "input_validator_args"
# What is left alone: it is about submissions, answers, points and pictures. That of groups, and that which a single file may have too.
OF_FILES = {"args", "output_validator_args", "input_visualizer_args", "output_visualizer_args", "full_feedback", "hint", "description"}
OF_GROUPS = OF_FILES | {
    *("output_validator_flags", "on_reject", "grading", "grader_flags", "accept_score", "reject_score", "range"),
    *("static_validator_args", "static_validation_score", "max_score", "score_aggregation", "require_pass", "scoring", "run_samples"),
}
# How near a name has to be to one of these to be taken for it, of 1.
NEAR = 0.8
# The most bytes of a file, characters of a value, of all flags together, and levels of lists.
MOST_BYTES, MOST_CHARACTERS, MOST_FLAGS, DEEPEST = 1 << 16, 1 << 13, 1 << 12, 10
# What is told of a fault is not longer, in characters.
ROOM = 200
# The kinds of values that there are: texts, numbers, truths and nothing.
KINDS = {f"tag:yaml.org,2002:{name}" for name in ("str", "int", "float", "bool", "null")}
MOST_DIGITS = 40

# A value as it is written: a text, a list, names with values, or nothing.
Value = Union[str, list[Any], dict[str, Any], None]


class BadPackage(Exception):
    """A folder is no problem package, or its settings cannot be read: one line that says so."""


@dataclass(frozen=True)
class Settings:
    """What a file of settings says of the flags of validators: which name it has for them, and the words for all, or those for each by its name."""

    path: Path
    key: str
    flags: Union[str, list[str], dict[str, list[str]]]


def settings_in(path: Path, is_of_file: bool = False) -> Settings | None:
    """The settings of a group, or of a single file, where they say something of flags. Raises BadPackage for what they may not have."""
    values = values_in(path)
    refuse_unknown(path, values, OF_FILES if is_of_file else OF_GROUPS)
    given = [(key, values[key]) for key in (FLAGS, ARGUMENTS) if values.get(key) is not None]
    if len(given) > 1:
        raise BadPackage(f"{path}: has both {FLAGS} and {ARGUMENTS}")
    for key, value in given:
        is_by_name = key == ARGUMENTS and isinstance(value, dict)
        lists = list(value.values()) if is_by_name else [[value] if isinstance(value, str) else value]
        if not all(isinstance(one, list) and all(isinstance(word, str) for word in one) for one in lists):
            raise BadPackage(f"{path}: {key} is neither a text nor a list" + ("" if key == FLAGS else ", nor has it a list for each validator"))
        words = [word for one in lists for word in one]
        if any(word == "{}" or "{{" in word for word in words):
            raise BadPackage(f"{path}: {key}: constants {{{{..}}}} and files {{}} are not put in")
        if sum(len(word) + 1 for word in words) > MOST_FLAGS:
            raise BadPackage(f"{path}: {key} has more than {MOST_FLAGS} characters")
        return Settings(path, key, value)
    return None


def refuse_unknown(path: Path, values: dict[str, Any], others: set[str]) -> None:
    """Raises BadPackage for a name that the format does not have."""
    for key in values:
        if key not in (FLAGS, ARGUMENTS) and key not in others:
            near = get_close_matches(key, (FLAGS, ARGUMENTS, *sorted(others)), 1, NEAR)
            raise BadPackage(f"{path}: unknown key {key[:ROOM]}" + (f"; did you mean {near[0]}?" if near else ""))


def values_in(path: Path) -> dict[str, Any]:
    """The names and values of a file. Raises BadPackage, also for YAML that could mean much more than is written."""
    try:
        import yaml
    except ImportError as missing:
        raise BadPackage(f"{path}: cannot be read without PyYAML (in Debian: python3-yaml)") from missing
    if not path.is_file():
        raise BadPackage(f"{path}: {NO_FILE}")
    with open(path, "rb") as file:
        text = file.read(MOST_BYTES + 1)
    if len(text) > MOST_BYTES:
        raise BadPackage(f"{path}: has more than {MOST_BYTES} bytes")
    try:
        values = Reading(path, yaml.parse(text, yaml.SafeLoader)).whole()
    except yaml.YAMLError as fault:
        mark = getattr(fault, "problem_mark", None)
        raise BadPackage(f"{path}{f':{mark.line + 1}:{mark.column + 1}' if mark else ''}: is no YAML") from fault
    except (ValueError, OverflowError) as fault:
        # (of numbers of characters that there are not, and of versions)
        raise BadPackage(f"{path}: is no YAML") from fault
    if values is None:
        return {}
    if not isinstance(values, dict):
        raise BadPackage(f"{path}: has no settings by name")
    return values


class Reading:
    """Reads values from the events of a parser, each as it is written."""

    def __init__(self, path: Path, events: Iterator[Any]) -> None:
        from yaml.resolver import Resolver

        self.path, self.events, self.resolver = path, events, Resolver()

    def refuse(self, event: Any, told: str) -> BadPackage:
        return BadPackage(f"{self.path}:{event.start_mark.line + 1}:{event.start_mark.column + 1}: {told}")

    def whole(self) -> Value:
        """The value of the one document of a file; none where it is empty."""
        from yaml.events import DocumentStartEvent, StreamEndEvent

        next(self.events)
        start = next(self.events)
        if isinstance(start, StreamEndEvent):
            return None
        value = self.value(next(self.events), 0)
        next(self.events)
        if isinstance(behind := next(self.events), DocumentStartEvent):
            raise self.refuse(behind, "a second document")
        return value

    def value(self, event: Any, depth: int) -> Value:
        """The value that begins with an event."""
        from yaml.events import AliasEvent, MappingStartEvent, ScalarEvent

        if isinstance(event, AliasEvent) or event.anchor is not None:
            raise self.refuse(event, "anchors and aliases are not taken")
        if isinstance(event, ScalarEvent):
            return self.scalar(event)
        if event.tag is not None:
            raise self.refuse(event, "tags are not taken")
        if depth == DEEPEST:
            raise self.refuse(event, f"is more than {DEEPEST} levels deep")
        return self.mapping(depth) if isinstance(event, MappingStartEvent) else [self.value(one, depth + 1) for one in self.parts()]

    def parts(self) -> Iterator[Any]:
        """The first events of the values up to the end of a list, or of names and values."""
        from yaml.events import CollectionEndEvent

        while not isinstance(event := next(self.events), CollectionEndEvent):
            yield event

    def mapping(self, depth: int) -> dict[str, Value]:
        found: dict[str, Value] = {}
        for event in self.parts():
            name = self.value(event, depth + 1)
            if not isinstance(name, str) or name == "<<":
                raise self.refuse(event, "a name is no text")
            if name in found:
                raise self.refuse(event, f"the name {name[:ROOM]} comes twice")
            found[name] = self.value(next(self.events), depth + 1)
        return found

    def scalar(self, event: Any) -> str | None:
        """A text, number or truth as it is written; none for nothing."""
        from yaml.nodes import ScalarNode

        kind = self.resolver.resolve(ScalarNode, event.value, event.implicit)
        if event.tag is not None or kind not in KINDS:
            raise self.refuse(event, "tags, dates and << are not taken")
        if len(event.value) > (MOST_CHARACTERS if kind.endswith("str") else MOST_DIGITS):
            raise self.refuse(event, "is too long")
        if any("\ud800" <= one <= "\udfff" or one == "\0" for one in event.value):
            raise self.refuse(event, "has a character that is none")
        return None if kind.endswith("null") else str(event.value)
