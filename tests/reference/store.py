"""Variables and presets (docs/LANGUAGE.md, Values and variables)."""

from collections.abc import Mapping

from .faults import Stopped
from .values import Value

# A variable: its name, and the values of its indices.
Indices = tuple[Value, ...]
Array = dict[Indices, Value]


class Store:
    """The values of the variables. Those with a preset keep it."""

    def __init__(self, presets: Mapping[tuple[bytes, Indices], Value]) -> None:
        self.arrays: dict[bytes, Array] = {}
        self.presets: dict[bytes, Array] = {}
        for (name, indices), value in presets.items():
            self.presets.setdefault(name, {})[indices] = value

    def array(self, name: bytes) -> Array:
        """All values of a name, by their indices."""
        return self.arrays.get(name, {}) | self.presets.get(name, {})

    def value(self, name: bytes, indices: Indices) -> Value:
        for arrays in (self.presets, self.arrays):
            if name in arrays and indices in arrays[name]:
                return arrays[name][indices]
        raise Stopped("variable has no value")

    def assign(self, name: bytes, indices: Indices, value: Value) -> None:
        self.arrays.setdefault(name, {})[indices] = value

    def unset(self, name: bytes) -> None:
        self.arrays.pop(name, None)
