"""Reads a WebAssembly module as portable/build.sh makes it: position independent, with a memory of 64 bits, no table and no globals of its own."""
from __future__ import annotations

import sys
from collections.abc import Callable, Iterator
from dataclasses import dataclass, field
from typing import Any, NoReturn, TypeVar

I32, I64, F64, V128 = 0x7F, 0x7E, 0x7C, 0x7B
NO_RESULT = -64
# The instructions that the translation names. Those behind the prefix 0xFC or 0xFD have it in front of their number.
UNREACHABLE, NOP, BLOCK, LOOP, IF, ELSE, END = 0x00, 0x01, 0x02, 0x03, 0x04, 0x05, 0x0B
BR, BR_IF, BR_TABLE, RETURN, CALL, DROP, SELECT = 0x0C, 0x0D, 0x0E, 0x0F, 0x10, 0x1A, 0x1B
LOCAL_GET, LOCAL_SET, LOCAL_TEE, GLOBAL_GET, GLOBAL_SET = 0x20, 0x21, 0x22, 0x23, 0x24
I32_CONST, I64_CONST, F64_CONST, I64_ADD = 0x41, 0x42, 0x44, 0x7C
MEMORY_COPY, MEMORY_FILL = 0xFC0A, 0xFC0B
V128_STORE, V128_CONST, SHUFFLE = 0xFD0B, 0xFD0C, 0xFD0D
PREFIXES = (0xFC, 0xFD)
HAS_64_BIT_PLACE = 64

Item = TypeVar("Item")


def stop(why: str) -> NoReturn:
    sys.exit(f"wasm_to_c.py: {why}")


@dataclass
class Reader:
    """A part of the module, and how far it was read."""

    data: bytes
    at: int
    end: int

    def byte(self) -> int:
        self.at += 1
        return self.data[self.at - 1]

    def raw(self, count: int) -> bytes:
        self.at += count
        return self.data[self.at - count : self.at]

    def unsigned(self) -> int:
        number = shift = 0
        while True:
            byte = self.byte()
            number |= (byte & 127) << shift
            shift += 7
            if byte < 128:
                return number

    def signed(self) -> int:
        start = self.at
        number = self.unsigned()
        bits = 7 * (self.at - start)
        return number - (1 << bits) if number >> (bits - 1) & 1 else number

    def name(self) -> str:
        return self.raw(self.unsigned()).decode()

    def many(self, item: Callable[[], Item]) -> list[Item]:
        return [item() for _ in range(self.unsigned())]

    def part(self) -> Reader:
        """The next part, which begins with its length."""
        size = self.unsigned()
        self.at += size
        return Reader(self.data, self.at - size, self.at)

    def parts(self) -> Iterator[tuple[int, Reader]]:
        """What is left, as parts of which each has a number in front."""
        while self.at < self.end:
            yield self.byte(), self.part()

    def instruction(self) -> tuple[int, Any]:
        """The number of the next instruction, and what stands in it beside that."""
        number = self.byte()
        if number in PREFIXES:
            number = number << 8 | self.unsigned()
        reading = OPERANDS.get(number)
        return number, reading(self) if reading else None


def read_offset(reader: Reader) -> int:
    """The offset of a load or a store. Its alignment stands in front, which is a hint, and may say that a number of a memory follows."""
    if reader.unsigned() & HAS_64_BIT_PLACE:
        reader.unsigned()
    return reader.unsigned()


def read_offset_and_lane(reader: Reader) -> tuple[int, int]:
    return read_offset(reader), reader.byte()


def operands() -> dict[int, Callable[[Reader], Any]]:
    """How what stands in an instruction is read, for those in which something stands."""
    of_numbers = {
        Reader.signed: [BLOCK, LOOP, IF, I32_CONST, I64_CONST],
        Reader.unsigned: [BR, BR_IF, CALL, LOCAL_GET, LOCAL_SET, LOCAL_TEE, GLOBAL_GET, GLOBAL_SET, MEMORY_FILL],
        Reader.byte: range(0xFD15, 0xFD23),
        read_offset: [*range(0x28, 0x3F), *range(0xFD00, 0xFD0C), 0xFD5C, 0xFD5D],
        read_offset_and_lane: range(0xFD54, 0xFD5C),
    }
    readings: dict[int, Callable[[Reader], Any]] = {number: reading for reading, numbers in of_numbers.items() for number in numbers}
    readings[BR_TABLE] = lambda reader: (reader.many(reader.unsigned), reader.unsigned())
    readings[MEMORY_COPY] = lambda reader: (reader.unsigned(), reader.unsigned())
    readings[F64_CONST] = lambda reader: reader.raw(8)
    readings[V128_CONST] = readings[SHUFFLE] = lambda reader: reader.raw(16)
    return readings


OPERANDS = operands()


@dataclass(frozen=True)
class Signature:
    takes: list[int]
    gives: list[int]


@dataclass
class Module:
    """What stands in a module. Functions are numbered from the imported ones on."""

    types: list[Signature] = field(default_factory=list)
    imports: list[tuple[str, Signature]] = field(default_factory=list)
    globals: list[str] = field(default_factory=list)
    functions: list[Signature] = field(default_factory=list)
    bodies: list[Reader] = field(default_factory=list)
    exports: dict[str, int] = field(default_factory=dict)
    names: dict[int, str] = field(default_factory=dict)
    memory: bytearray = field(default_factory=bytearray)
    memory_size: int = 0

    def signature(self, function: int) -> Signature:
        imported = len(self.imports)
        return self.imports[function][1] if function < imported else self.functions[function - imported]

    def read_types(self, reader: Reader) -> None:
        for _ in range(reader.unsigned()):
            if reader.byte() != 0x60:
                stop("a type that is not of a function")
            self.types.append(Signature(reader.many(reader.byte), reader.many(reader.byte)))

    def read_imports(self, reader: Reader) -> None:
        for _ in range(reader.unsigned()):
            reader.name()
            name, kind = reader.name(), reader.byte()
            if kind == 0:
                self.imports.append((name, self.types[reader.unsigned()]))
            elif kind == 2:
                reader.unsigned(), reader.unsigned()
            elif kind == 3:
                reader.raw(2)
                self.globals.append(name)
            else:
                stop(f"an import of kind {kind}")

    def read_exports(self, reader: Reader) -> None:
        for _ in range(reader.unsigned()):
            name, kind, number = reader.name(), reader.byte(), reader.unsigned()
            if kind == 0:
                self.exports[name] = number

    def read_data(self, reader: Reader) -> None:
        for _ in range(reader.unsigned()):
            if reader.unsigned() != 0:
                stop("a passive segment")
            start, data = self.read_place(reader), reader.part()
            text = data.raw(data.end - data.at)
            self.memory.extend(bytes(max(0, start + len(text) - len(self.memory))))
            self.memory[start : start + len(text)] = text

    def read_place(self, reader: Reader) -> int:
        """Where a segment begins, counted from the start of the memory of this module."""
        place = 0
        while (step := reader.instruction())[0] != END:
            if step[0] == I64_CONST:
                place += step[1]
            elif step[0] == GLOBAL_GET:
                if self.globals[step[1]] != "__memory_base":
                    stop("a segment that begins elsewhere")
            elif step[0] != I64_ADD:
                stop("the place of a segment is computed")
        return place

    def read_custom(self, reader: Reader) -> None:
        kind = reader.name()
        for number, part in reader.parts() if kind in ("dylink.0", "name") else ():
            if (kind, number) == ("dylink.0", 1):
                self.memory_size = part.unsigned()
            elif (kind, number) == ("name", 1):
                self.names = dict(part.many(lambda part=part: (part.unsigned(), part.name())))


def read_module(data: bytes) -> Module:
    module = Module()
    for kind, part in Reader(data, 8, len(data)).parts():
        if kind == 0:
            module.read_custom(part)
        elif kind == 1:
            module.read_types(part)
        elif kind == 2:
            module.read_imports(part)
        elif kind == 3:
            module.functions = [module.types[number] for number in part.many(part.unsigned)]
        elif kind == 6 and part.unsigned():
            stop("globals of the module's own")
        elif kind == 7:
            module.read_exports(part)
        elif kind == 9:
            stop("a table")
        elif kind == 10:
            module.bodies = part.many(part.part)
        elif kind == 11:
            module.read_data(part)
    return module
