#!/usr/bin/env python3
"""Makes C of a WebAssembly module: SOURCE.wasm >RESULT.c. The C stands on runtime.h, and each exported function is there as export_NAME.

An address of the module is an address of the C program, so its heap is C's malloc, and no access is checked: the module is that of a proved
program. The script stops at any instruction that it does not know."""
from __future__ import annotations

import sys
from collections.abc import Callable, Sequence
from dataclasses import dataclass, field
from pathlib import Path
from typing import Any, TextIO

import wasm_module as wasm
from wasm_code import EXTRACTS, LANE_LOADS, LANE_STORES, LOADS, REPLACES, SIMPLE, STORES, Simple
from wasm_module import F64, I32, I64, V128, Module, Signature, stop

# The types of C, and how the variables of each type begin that hold what waits on the stack of WebAssembly.
TYPES = {I32: "u32", I64: "u64", F64: "f64", V128: "v128"}
SLOTS = {I32: "i", I64: "j", F64: "d", V128: "v"}
RUNTIME = Path(__file__).with_name("runtime.h")
# A longer text is given a variable.
LONGEST = 300
# The file can be compiled in so many parts side by side.
PARTS = 4
CONDITION = "c0"
BYTES_A_LINE = 100


@dataclass(frozen=True)
class Value:
    """A value that waits on the stack: its text in C, its type, which variables that reads, and whether it reads the memory."""

    text: str
    type: int
    reads: frozenset[str] = frozenset()
    reads_memory: bool = False


@dataclass
class Block:
    """An open block: the kind of its instruction, its label in C, how high the stack is below it, and what it leaves there."""

    kind: int
    label: int
    height: int
    results: list[int]
    is_target: bool = False


def variable(name: str, type_: int) -> Value:
    return Value(name, type_, frozenset([name]))


def bare(text: str) -> str:
    """A text without the parentheses around the whole of it."""
    if not text.startswith("("):
        return text
    depth = 0
    for place, mark in enumerate(text):
        depth += (mark == "(") - (mark == ")")
        if depth == 0:
            return text[1:-1] if place == len(text) - 1 else text
    return text


def truth(text: str) -> str:
    """A text as a condition: a comparison needs no type there."""
    return bare(text[2:] if text.startswith("is(") else text)


def number_text(number: int, bits: int = 64) -> str:
    """A number of that many bits. Each such text is of a type with as many."""
    number &= (1 << bits) - 1
    return (f"{number}" if number < 1 << 31 else f"0x{number:x}") + ("ull" if bits == 64 else "u")


def is_number(text: str) -> bool:
    return text[0].isdigit()


def plain(text: str) -> str:
    """A text where another operand, or a parameter, gives its type: without parentheses around it, and a number without its type."""
    return text.rstrip("ul") if is_number(text) else bare(text)


def with_number(text: str, number: int, bits: int) -> tuple[str, str]:
    """The text of an instruction whose second operand is a number, and of that number. The first operand gives the type."""
    if f"({{1}} & {bits - 1})" in text:
        return text.replace(f"({{1}} & {bits - 1})", "{1}"), str(number % bits)
    negative = (1 << bits) - number
    if text == "({0} + {1})" and negative < 1 << 31:
        return "({0} - {1})", str(negative)
    return text, plain(number_text(number, bits))


def place_text(address: Value, offset: int) -> str:
    return f"{bare(address.text)} + {offset}" if offset else plain(address.text)


@dataclass
class Function:
    """The translation of one function. A value waits on the stack as a text, and gets a variable before something changes that it reads."""

    module: Module
    index: int
    lines: list[str] = field(default_factory=list)
    stack: list[Value] = field(default_factory=list)
    variables: dict[str, int] = field(default_factory=dict)
    blocks: list[Block] = field(default_factory=list)
    label: int = 0
    # How many blocks are open in code that is never reached, and one for that code itself.
    unreached: int = 0

    def __post_init__(self) -> None:
        self.signature = self.module.signature(self.index)
        self.locals = list(self.signature.takes)

    def translate(self) -> None:
        reader = self.module.bodies[self.index - len(self.module.imports)]
        for count, type_ in reader.many(lambda: (reader.unsigned(), reader.byte())):
            self.locals += [type_] * count
        self.blocks.append(Block(wasm.CALL, 0, 0, self.signature.gives))
        while self.blocks:
            number, operand = reader.instruction()
            if not self.skips(number):
                self.instruction(number, operand)

    def skips(self, number: int) -> bool:
        """Whether an instruction is never reached, and does not end the code that is not."""
        if not self.unreached:
            return False
        if number in (wasm.BLOCK, wasm.LOOP, wasm.IF):
            self.unreached += 1
        elif number == wasm.END and self.unreached > 1:
            self.unreached -= 1
        else:
            return number not in (wasm.END, wasm.ELSE) or self.unreached > 1
        return True

    def instruction(self, number: int, operand: Any) -> None:
        if number in SIMPLE:
            self.simple(SIMPLE[number])
        elif number in LOADS:
            type_, text = LOADS[number]
            address = self.stack.pop()
            self.push(Value(text.format(place_text(address, operand)), type_, address.reads, True))
        elif number in STORES:
            address, value = self.pop_many(2)
            self.store(STORES[number], address, operand, value.text)
        elif number in OTHERS:
            OTHERS[number](self, operand)
        elif number >> 8 == 0xFD:
            self.lane(number, operand)
        else:
            stop(f"instruction 0x{number:02x} in {self.module.names.get(self.index)}")

    # The stack.

    def put(self, line: str) -> None:
        self.lines.append(line)

    def slot(self, depth: int, type_: int) -> str:
        """The variable for what waits at a depth of the stack."""
        name = f"{SLOTS[type_]}{depth}"
        self.variables[name] = type_
        return name

    def push(self, value: Value) -> None:
        self.stack.append(value)
        if len(value.text) > LONGEST:
            self.keep(len(self.stack) - 1)

    def pop_many(self, count: int) -> list[Value]:
        popped = self.stack[len(self.stack) - count :]
        del self.stack[len(self.stack) - count :]
        return popped

    def apply(self, text: str, type_: int, values: Sequence[Value]) -> None:
        """Pushes what a text gives for some values."""
        reads = frozenset[str]().union(*(value.reads for value in values))
        arguments = (value.text for value in values)
        self.push(Value(text.format(*arguments), type_, reads, any(value.reads_memory for value in values)))

    def simple(self, simple: Simple) -> None:
        values = self.pop_many(len(simple.takes))
        if len(values) == 2 and values[0].type in (I32, I64) and is_number(values[1].text):
            bits = 64 if values[1].type == I64 else 32
            text, number = with_number(simple.text, int(values[1].text.rstrip("ul"), 0), bits)
            self.apply(text, simple.gives, [values[0], Value(number, values[1].type)])
        else:
            self.apply(simple.text, simple.gives, values)

    def keep(self, depth: int) -> None:
        """Gives what waits at a depth a variable of its own."""
        value, name = self.stack[depth], self.slot(depth, self.stack[depth].type)
        if value.text == name:
            return
        for below in range(depth):
            if name in self.stack[below].reads:
                self.keep(below)
        self.put(f"{name} = {plain(value.text)};")
        self.stack[depth] = variable(name, value.type)

    def keep_all(self) -> None:
        for depth in range(len(self.stack)):
            self.keep(depth)

    def before_change(self, of: str | None = None) -> None:
        """Keeps what reads a variable, or the memory, which is about to change."""
        for depth, value in enumerate(self.stack):
            if of in value.reads if of else value.reads_memory:
                self.keep(depth)

    # Control.

    def jump(self, depth: int) -> str:
        """The text of a jump to a block. All that waits has a variable."""
        block = self.blocks[-1 - depth]
        if block.kind == wasm.CALL:
            return f"return {plain(self.stack[-1].text)};" if block.results else "return;"
        block.is_target = True
        results = block.results if block.kind != wasm.LOOP else []
        return f"{self.moves(block, results)}goto L{block.label};"

    def moves(self, block: Block, results: Sequence[int]) -> str:
        """The text that moves the results of a block to where they wait behind it."""
        given = self.stack[len(self.stack) - len(results) :]
        targets = [self.slot(block.height + number, value.type) for number, value in enumerate(given)]
        return "".join(f"{target} = {plain(value.text)}; " for target, value in zip(targets, given) if value.text != target)

    def condition(self, text: str) -> str:
        """A text that is tested once all that waits has a variable: it gets one too where one of these is given a value meanwhile."""
        if any(value.text != self.slot(depth, value.type) for depth, value in enumerate(self.stack)):
            self.put(f"{CONDITION} = {bare(text)};")
            self.variables[CONDITION] = I32
            text = CONDITION
        self.keep_all()
        return text

    def open_block(self, kind: int, type_: int) -> None:
        if type_ >= 0:
            stop("a block with operands")
        condition = truth(self.condition(self.stack.pop().text)) if kind == wasm.IF else ""
        self.keep_all()
        self.label += 1
        self.blocks.append(Block(kind, self.label, len(self.stack), [] if type_ == wasm.NO_RESULT else [type_ & 127]))
        self.put({wasm.BLOCK: "{", wasm.LOOP: f"L{self.label}: {{", wasm.IF: f"if ({condition}) {{"}[kind])

    def leave_block(self) -> None:
        """The end of the code of a block, or of its first half."""
        block = self.blocks[-1]
        if not self.unreached:
            self.keep_all()
            if moves := self.moves(block, block.results):
                self.put(moves.rstrip())
        del self.stack[block.height :]
        self.unreached = 0

    def turn_to_else(self, _: Any) -> None:
        self.leave_block()
        self.put("} else {")

    def end_block(self, _: Any) -> None:
        if self.blocks[-1].kind == wasm.CALL:
            if not self.unreached:
                self.give_back(None)
            self.blocks.pop()
            return
        self.leave_block()
        block = self.blocks.pop()
        self.put("}")
        if block.kind != wasm.LOOP and block.is_target:
            self.put(f"L{block.label}:;")
        for number, type_ in enumerate(block.results, block.height):
            self.stack.append(variable(self.slot(number, type_), type_))

    def branch(self, depth: int) -> None:
        if self.blocks[-1 - depth].kind != wasm.CALL:
            self.keep_all()
        self.put(self.jump(depth))
        self.unreached = 1

    def branch_if(self, depth: int) -> None:
        condition = self.condition(self.stack.pop().text)
        jump = self.jump(depth)
        self.put(f"if ({truth(condition)}) {jump if jump.count(';') == 1 else '{ ' + jump + ' }'}")

    def branch_by_table(self, operand: tuple[list[int], int]) -> None:
        depths, other = operand
        which = self.condition(self.stack.pop().text)
        cases: dict[int, str] = {}
        for number, depth in enumerate(depths):
            if depth != other:
                cases[depth] = cases.get(depth, "") + f"case {number}: "
        jumps = "".join(case + self.jump(depth) + " " for depth, case in cases.items())
        self.put(f"switch ({bare(which)}) {{ {jumps}default: {self.jump(other)} }}")
        self.unreached = 1

    def give_back(self, _: Any) -> None:
        self.put(f"return {plain(self.stack.pop().text)};" if self.signature.gives else "return;")
        self.unreached = 1

    def never(self, _: Any) -> None:
        self.put("never();")
        self.unreached = 1

    def call(self, function: int) -> None:
        imported = len(self.module.imports)
        signature = self.module.signature(function)
        arguments = ", ".join(plain(value.text) for value in self.pop_many(len(signature.takes)))
        name = f"host_{self.module.imports[function][0]}" if function < imported else f"fn{function - imported}"
        self.before_change()
        if not signature.gives:
            self.put(f"{name}({arguments});")
            return
        result = self.slot(len(self.stack), signature.gives[0])
        self.before_change(result)
        self.put(f"{result} = {name}({arguments});")
        self.stack.append(variable(result, signature.gives[0]))

    def select(self, _: Any) -> None:
        first, second, which = self.pop_many(3)
        reads = first.reads | second.reads | which.reads
        # (without its parentheses another choice would take this one into its second half)
        condition = which.text[2:] if which.text.startswith("is(") else which.text
        text = f"({condition} ? {first.text} : {second.text})"
        self.push(Value(text, first.type, reads, any(value.reads_memory for value in (first, second, which))))

    # Variables.

    def get_local(self, number: int) -> None:
        self.push(variable(f"l{number}", self.locals[number]))

    def set_local(self, number: int) -> None:
        name, value = f"l{number}", self.stack.pop()
        if value.text != name:
            self.before_change(name)
            self.put(f"{name} = {plain(value.text)};")

    def tee_local(self, number: int) -> None:
        self.set_local(number)
        self.get_local(number)

    def get_global(self, number: int) -> None:
        if self.module.globals[number] == "__memory_base":
            self.push(Value("BASE", I64))
        else:
            self.push(Value("sp", I64, frozenset(["sp"]), True))

    def set_global(self, number: int) -> None:
        if self.module.globals[number] != "__stack_pointer":
            stop("a global is set")
        value = self.stack.pop()
        self.before_change("sp")
        self.put(f"set_sp({bare(value.text)});")

    # Memory and vectors.

    def store(self, name: str, address: Value, offset: int, text: str) -> None:
        self.before_change()
        self.put(f"{name}({place_text(address, offset)}, {plain(text)});")

    def copy_memory(self, _: Any) -> None:
        to, source, count = (plain(value.text) for value in self.pop_many(3))
        self.before_change()
        self.put(f"copy({to}, {source}, {count});")

    def fill_memory(self, _: Any) -> None:
        to, byte, count = (plain(value.text) for value in self.pop_many(3))
        self.before_change()
        self.put(f"fill({to}, {byte}, {count});")

    def vector(self, data: bytes) -> None:
        low, high = (int.from_bytes(data[start : start + 8], "little") for start in (0, 8))
        self.push(Value(f"pair({plain(number_text(low))}, {plain(number_text(high))})", V128))

    def shuffle(self, lanes: bytes) -> None:
        self.apply(f"shuffle({{0}}, {{1}}, {', '.join(map(str, lanes))})", V128, self.pop_many(2))

    def lane(self, number: int, operand: Any) -> None:
        """The instructions of one lane of a vector."""
        if number in EXTRACTS:
            text, type_ = EXTRACTS[number]
            self.apply(text.format("{0}", operand), type_, self.pop_many(1))
        elif number in REPLACES:
            self.apply(f"with_u{REPLACES[number]}({{0}}, {operand}, {{1}})", V128, self.pop_many(2))
        elif number in LANE_LOADS:
            (offset, lane), bits = operand, LANE_LOADS[number]
            address, vector = self.pop_many(2)
            loaded = f"r{bits}({place_text(address, offset)})"
            self.push(Value(f"with_u{bits}({vector.text}, {lane}, {loaded})", V128, vector.reads | address.reads, True))
        elif number in LANE_STORES:
            (offset, lane), bits = operand, LANE_STORES[number]
            address, vector = self.pop_many(2)
            self.store(f"w{bits}", address, offset, f"lane_u{bits}({vector.text}, {lane})")
        else:
            stop(f"instruction 0x{number:04x}")

    # The text.

    def text(self) -> str:
        """The function in C."""
        kinds: dict[str, list[str]] = {}
        for number, type_ in list(enumerate(self.locals))[len(self.signature.takes) :]:
            kinds.setdefault(TYPES[type_], []).append(f"l{number} = {'{0}' if type_ == V128 else 0}")
        for name, type_ in self.variables.items():
            kinds.setdefault(TYPES[type_], []).append(name)
        declared = [f"{kind} {', '.join(names)};" for kind, names in kinds.items()]
        number = self.index - len(self.module.imports)
        # the name of the function in the source is a comment
        comment = self.module.names.get(self.index, "").replace("*/", "* /")
        return "\n".join([f"/* {comment} */", f"{head(self.signature, number)} {{", *declared, *self.lines, "}"]) + "\n"


OTHERS: dict[int, Callable[[Function, Any], None]] = {
    wasm.UNREACHABLE: Function.never,
    wasm.NOP: lambda function, _: None,
    wasm.BLOCK: lambda function, type_: function.open_block(wasm.BLOCK, type_),
    wasm.LOOP: lambda function, type_: function.open_block(wasm.LOOP, type_),
    wasm.IF: lambda function, type_: function.open_block(wasm.IF, type_),
    wasm.ELSE: Function.turn_to_else,
    wasm.END: Function.end_block,
    wasm.BR: Function.branch,
    wasm.BR_IF: Function.branch_if,
    wasm.BR_TABLE: Function.branch_by_table,
    wasm.RETURN: Function.give_back,
    wasm.CALL: Function.call,
    wasm.DROP: lambda function, _: function.stack.pop() and None,
    wasm.SELECT: Function.select,
    wasm.LOCAL_GET: Function.get_local,
    wasm.LOCAL_SET: Function.set_local,
    wasm.LOCAL_TEE: Function.tee_local,
    wasm.GLOBAL_GET: Function.get_global,
    wasm.GLOBAL_SET: Function.set_global,
    wasm.I32_CONST: lambda function, number: function.push(Value(number_text(number, 32), I32)),
    wasm.I64_CONST: lambda function, number: function.push(Value(number_text(number), I64)),
    wasm.F64_CONST: lambda function, data: function.push(Value(f"of_bits({number_text(int.from_bytes(data, 'little'))})", F64)),
    wasm.MEMORY_COPY: Function.copy_memory,
    wasm.MEMORY_FILL: Function.fill_memory,
    wasm.V128_CONST: Function.vector,
    wasm.SHUFFLE: Function.shuffle,
}


def head(signature: Signature, number: int) -> str:
    """The head of a function in C."""
    result = TYPES[signature.gives[0]] if signature.gives else "void"
    parameters = ", ".join(f"{TYPES[type_]} l{place}" for place, type_ in enumerate(signature.takes)) or "void"
    return f"SHARED {result} fn{number}({parameters})"


def write_memory(module: Module, out: TextIO) -> None:
    """The start of the memory, which is an array. Its first and only definition is in the first part."""
    memory = module.memory.rstrip(b"\0")
    size = module.memory_size + 16
    out.write(f"\n#if IN_PART(0)\nSHARED ALIGNED u8 memory[{size}] = {{\n")
    for start in range(0, len(memory), BYTES_A_LINE):
        out.write(",".join(map(str, memory[start : start + BYTES_A_LINE])) + ",\n")
    out.write(f"}};\n#else\nextern u8 memory[{size}];\n#endif\n#define BASE ((u64)(uintptr_t)memory)\n\n")


def write_functions(functions: Sequence[Function], out: TextIO) -> None:
    """The functions, in parts of about the same size."""
    texts = [function.text() for function in functions]
    share = sum(map(len, texts)) / PARTS
    written, part = 0.0, -1
    for text in texts:
        if written >= share * (part + 1):
            part += 1
            out.write(f"{'#endif' if part else ''}\n#if IN_PART({part})\n")
        out.write(text)
        written += len(text)
    out.write("#endif\n")


def write_module(module: Module, out: TextIO) -> None:
    imported = len(module.imports)
    known = RUNTIME.read_text()
    lacking = [name for name, _ in module.imports if f" host_{name}(" not in known]
    if lacking:
        stop(f"functions that runtime.h lacks: {', '.join(lacking)}")
    functions = [Function(module, imported + number) for number in range(len(module.functions))]
    for function in functions:
        function.translate()
    out.write("/* What follows was made of the proved program by wasm_to_c.py. */\n")
    write_memory(module, out)
    for number, signature in enumerate(module.functions):
        out.write(f"{head(signature, number)};\n")
    for name, index in module.exports.items():
        out.write(f"#define export_{name} fn{index - imported}\n")
    write_functions(functions, out)


if __name__ == "__main__":
    write_module(wasm.read_module(Path(sys.argv[1]).read_bytes()), sys.stdout)
