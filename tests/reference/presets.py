"""The text of -D (docs/LANGUAGE.md, Presets)."""

import re

import ctd_program

from .faults import Misused, Refused
from .store import Indices
from .values import Value

Presets = dict[tuple[bytes, Indices], Value]

NAME = re.compile(rb"[a-z][a-z0-9]*")
VALUE = re.compile(rb'-?(?P<digits>[0-9]+)|(?P<literal>"(?:[^"\\]|\\.)*+")', re.DOTALL)


class BadPreset(Misused):
    def __init__(self) -> None:
        super().__init__("bad preset")


class Reader:
    """Reads a text of presets from the left."""

    def __init__(self, text: bytes) -> None:
        self.text = text
        self.index = 0

    def take_if(self, mark: bytes) -> bool:
        """Takes a mark, if it comes next."""
        found = self.text.startswith(mark, self.index)
        self.index += len(mark) * found
        return found

    def require(self, mark: bytes) -> None:
        if not self.take_if(mark):
            raise BadPreset

    def presets(self) -> Presets:
        """All presets, separated by commas; of two with one key the last counts."""
        found: Presets = {}
        while True:
            key = self.target()
            self.require(b"=")
            found[key] = self.value()
            if self.index == len(self.text):
                return found
            self.require(b",")

    def target(self) -> tuple[bytes, Indices]:
        name = NAME.match(self.text, self.index)
        if name is None:
            raise BadPreset
        self.index = name.end()
        if not self.take_if(b"["):
            return name[0], ()
        indices = [self.value()]
        while self.take_if(b","):
            indices.append(self.value())
        self.require(b"]")
        return name[0], tuple(indices)

    def value(self) -> Value:
        """A numeral, a minus and a numeral, or a string literal."""
        try:
            found = VALUE.match(self.text, self.index)
            if found is None:
                raise BadPreset
            self.index = found.end()
            if found["literal"]:
                return ctd_program.literal(found["literal"], found.start())
            number = ctd_program.numeral(self.text, *found.span("digits"))
            return -number if found[0].startswith(b"-") else number
        except Refused as fault:
            raise BadPreset from fault


def read_presets(text: bytes) -> Presets:
    return Reader(text).presets()
