"""What each command does (docs/LANGUAGE.md, Commands)."""

from collections.abc import Sequence
from dataclasses import dataclass

from .conditions import Condition
from .expressions import Expression, Variable
from .faults import Rejected
from .matching import Pattern
from .run import Run
from .values import number, string


@dataclass(frozen=True, slots=True)
class Command:
    """A command of a program, and the offset of its word."""

    place: int

    def act(self, run: Run) -> None:
        """Does the command, which has begun."""
        raise NotImplementedError


@dataclass(frozen=True, slots=True)
class Space(Command):
    def act(self, run: Run) -> None:
        run.data.take_space()


@dataclass(frozen=True, slots=True)
class Newline(Command):
    def act(self, run: Run) -> None:
        run.data.take_newline()


@dataclass(frozen=True, slots=True)
class Eof(Command):
    def act(self, run: Run) -> None:
        run.data.take_end()


@dataclass(frozen=True, slots=True)
class Int(Command):
    least: Expression
    greatest: Expression
    variable: Variable | None

    def act(self, run: Run) -> None:
        least = number(self.least.value(run.store))
        greatest = number(self.greatest.value(run.store))
        taken = run.data.take_integer(least, greatest)
        if self.variable:
            self.variable.assign(run.store, taken)


@dataclass(frozen=True, slots=True)
class String(Command):
    text: Expression

    def act(self, run: Run) -> None:
        run.data.take_text(string(self.text.value(run.store)))


@dataclass(frozen=True, slots=True)
class Regex(Command):
    pattern: Pattern
    variable: Variable | None

    def act(self, run: Run) -> None:
        taken = run.data.take_match(self.pattern)
        if self.variable:
            self.variable.assign(run.store, taken)


@dataclass(frozen=True, slots=True)
class Assert(Command):
    test: Condition

    def act(self, run: Run) -> None:
        if not run.holds(self.test):
            raise Rejected("assertion failed")


@dataclass(frozen=True, slots=True)
class Set(Command):
    assignments: Sequence[tuple[Variable, Expression]]

    def act(self, run: Run) -> None:
        for variable, expression in self.assignments:
            variable.assign(run.store, expression.value(run.store))


@dataclass(frozen=True, slots=True)
class Unset(Command):
    names: Sequence[bytes]

    def act(self, run: Run) -> None:
        for name in self.names:
            run.store.unset(name)


@dataclass(frozen=True, slots=True)
class If(Command):
    test: Condition
    commands: Sequence[Command]
    otherwise: Sequence[Command]

    def act(self, run: Run) -> None:
        run.perform(self.commands if run.holds(self.test) else self.otherwise)
