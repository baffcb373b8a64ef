"""What an expression gives (docs/LANGUAGE.md, Expressions)."""

from dataclasses import dataclass

from .store import Indices, Store
from .values import Value, negate, operate, string


class Expression:
    """An expression of a program."""

    def value(self, store: Store) -> Value:
        raise NotImplementedError


@dataclass(frozen=True, slots=True)
class Literal(Expression):
    """A numeral or a string literal."""

    constant: Value

    def value(self, store: Store) -> Value:
        return self.constant


@dataclass(frozen=True, slots=True)
class Variable(Expression):
    """A name with or without indices."""

    name: bytes
    indices: tuple[Expression, ...] = ()

    def indices_in(self, store: Store) -> Indices:
        """The values of the indices, from left to right."""
        return tuple([index.value(store) for index in self.indices])

    def value(self, store: Store) -> Value:
        return store.value(self.name, self.indices_in(store))

    def assign(self, store: Store, value: Value) -> None:
        """Gives the variable a value; its indices are evaluated first."""
        store.assign(self.name, self.indices_in(store), value)


@dataclass(frozen=True, slots=True)
class Length(Expression):
    """STRLEN(e)"""

    text: Expression

    def value(self, store: Store) -> Value:
        return len(string(self.text.value(store)))


@dataclass(frozen=True, slots=True)
class Negation(Expression):
    """A minus before an operand."""

    operand: Expression

    def value(self, store: Store) -> Value:
        return negate(self.operand.value(store))


@dataclass(frozen=True, slots=True)
class Operation(Expression):
    """An operator between two operands. Both are evaluated before their types are checked."""

    operator: str
    left: Expression
    right: Expression

    def value(self, store: Store) -> Value:
        left = self.left.value(store)
        return operate(self.operator, left, self.right.value(store))
