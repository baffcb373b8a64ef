"""A generated case: the words of a command line, and the files that they name."""

from dataclasses import dataclass
from enum import Enum

from reference.tool import Answer, File, answer

PROGRAM = b"program"
DATA = b"data"


class Source(Enum):
    """How the data come."""

    FILE = "a file"
    INPUT = "standard input"
    FAILING_INPUT = "standard input that fails behind them"
    FOLDER = "a folder in their place"


@dataclass(frozen=True)
class Case:
    """The words, which name the files `program` and `data`, and what these hold. No program: the file is not there."""

    words: tuple[bytes, ...]
    program: bytes | None
    data: bytes
    source: Source = Source.FILE

    def open(self, name: str | None) -> File | None:
        """What the file of a name gives, or standard input where there is none."""
        match name, self.source:
            case None, Source.INPUT:
                return File(self.data)
            case None, Source.FAILING_INPUT:
                return File(self.data, fails=True)
            case None, _:
                return File(b"")
            case "program", _:
                return None if self.program is None else File(self.program)
            case ("data", Source.FOLDER) | ("folder", _):
                return File(b"", fails=True)
            case "data", _:
                return File(self.data)
        return None

    def reference_answer(self) -> Answer:
        """The answer of the reference. Raises LeftOut where it has none."""
        return answer(self.words, self.open)

    def __str__(self) -> str:
        return f"words   {[*self.words]}\nprogram {self.program!r}\ndata    {self.data!r}, from {self.source.value}"
