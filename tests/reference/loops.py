"""What the loops do (docs/LANGUAGE.md, Order of evaluation and Steps)."""

from collections.abc import Callable, Sequence
from dataclasses import dataclass

from . import limits
from .commands import Command
from .conditions import Condition
from .expressions import Expression, Variable
from .faults import Stopped
from .run import Run
from .values import number


@dataclass(frozen=True, slots=True)
class Loop(Command):
    """What the four loops have in common."""

    counter: Variable | None
    separator: Command | None
    commands: Sequence[Command]

    def takes_turn(self, run: Run, turn: int, goes_on: Callable[[int], bool]) -> bool:
        """Begins the turn of a number, and tells whether it takes place."""
        run.begin(self.place)
        if self.counter:
            self.counter.assign(run.store, turn)
        return goes_on(turn)

    def repeat(self, run: Run, goes_on: Callable[[int], bool]) -> None:
        """Takes turns as long as the loop goes on, with the separator between two of them."""
        turn = 0
        while self.takes_turn(run, turn, goes_on):
            if self.separator and turn > 0:
                run.perform([self.separator])
            run.perform(self.commands)
            turn += 1


@dataclass(frozen=True, slots=True)
class Rep(Loop):
    """REP and REPI"""

    count: Expression

    def act(self, run: Run) -> None:
        count = number(self.count.value(run.store))
        if not 0 <= count <= limits.GREATEST_COUNT:
            raise Stopped("bad count")
        self.repeat(run, lambda turn: turn < count)


@dataclass(frozen=True, slots=True)
class While(Loop):
    """WHILE and WHILEI"""

    test: Condition

    def act(self, run: Run) -> None:
        self.repeat(run, lambda turn: run.holds(self.test))
