"""When a test is true (docs/LANGUAGE.md, Tests)."""

from dataclasses import dataclass

from .data import Data
from .expressions import Expression
from .faults import Stopped
from .store import Store
from .values import compare, string


class Condition:
    """A test of a program."""

    def holds(self, store: Store, data: Data) -> bool:
        raise NotImplementedError


@dataclass(frozen=True, slots=True)
class Or(Condition):
    left: Condition
    right: Condition

    def holds(self, store: Store, data: Data) -> bool:
        return self.left.holds(store, data) or self.right.holds(store, data)


@dataclass(frozen=True, slots=True)
class And(Condition):
    left: Condition
    right: Condition

    def holds(self, store: Store, data: Data) -> bool:
        return self.left.holds(store, data) and self.right.holds(store, data)


@dataclass(frozen=True, slots=True)
class Not(Condition):
    inner: Condition

    def holds(self, store: Store, data: Data) -> bool:
        return not self.inner.holds(store, data)


@dataclass(frozen=True, slots=True)
class Comparison(Condition):
    comparison: str
    left: Expression
    right: Expression

    def holds(self, store: Store, data: Data) -> bool:
        left = self.left.value(store)
        return compare(self.comparison, left, self.right.value(store))


@dataclass(frozen=True, slots=True)
class Match(Condition):
    """MATCH(e)"""

    text: Expression

    def holds(self, store: Store, data: Data) -> bool:
        return data.next_is_one_of(string(self.text.value(store)))


@dataclass(frozen=True, slots=True)
class IsEof(Condition):
    """ISEOF"""

    def holds(self, store: Store, data: Data) -> bool:
        return data.is_at_end()


@dataclass(frozen=True, slots=True)
class Unique(Condition):
    """UNIQUE(a,b,..)"""

    names: tuple[bytes, ...]

    def holds(self, store: Store, data: Data) -> bool:
        arrays = [store.array(name) for name in self.names]
        if any(array.keys() != arrays[0].keys() for array in arrays):
            raise Stopped("arrays have different indices")
        tuples = {tuple([array[indices] for array in arrays]) for indices in arrays[0]}
        return len(tuples) == len(arrays[0])


@dataclass(frozen=True, slots=True)
class InArray(Condition):
    """INARRAY(e,name)"""

    wanted: Expression
    name: bytes

    def holds(self, store: Store, data: Data) -> bool:
        return self.wanted.value(store) in store.array(self.name).values()
