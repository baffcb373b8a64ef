"""The run of a program: where it is, the steps that are left, and what it does with a list of commands (docs/LANGUAGE.md, Steps)."""

from __future__ import annotations

from collections.abc import Sequence
from typing import TYPE_CHECKING

from .data import Data
from .faults import Stopped
from .store import Store

if TYPE_CHECKING:
    from .commands import Command
    from .conditions import Condition

# Where a run is in its program: the offset of a word, or one of these two.
PROGRAM_START = "program start"
PROGRAM_END = "program end"
Site = int | str


class Run:
    """A run of a program on data."""

    def __init__(self, store: Store, data: Data, steps: int) -> None:
        self.store = store
        self.data = data
        self.steps_left = steps
        # where the command or the turn that began last stands in the program, and where it began in the data
        self.site: Site = PROGRAM_START
        self.spot = 0

    def begin(self, site: Site) -> None:
        """Begins a command or a turn: pays its step before anything else happens."""
        self.site = site
        self.spot = self.data.taken
        if self.steps_left == 0:
            raise Stopped("step limit reached")
        self.steps_left -= 1

    def holds(self, test: Condition) -> bool:
        """Whether the test of the command or the turn that began last is true."""
        return test.holds(self.store, self.data)

    def perform(self, commands: Sequence[Command]) -> None:
        """Does one command after the other."""
        for command in commands:
            self.begin(command.place)
            command.act(self)

    def whole(self, commands: Sequence[Command]) -> None:
        """Runs a program, from the blanks at the start of the data to the implicit EOF."""
        self.data.skip_first_blanks()
        self.perform(commands)
        self.begin(PROGRAM_END)
        self.data.take_end()
