"""A program as a Python function that reads data which fit it. What it says is a guess until the checker confirms it."""
from __future__ import annotations

import re
import warnings
from collections import Counter
from collections.abc import Callable, Sequence
from typing import Dict, NamedTuple, Union

from ctd_patterns import text_of_pattern
from ctd_presets import Preset
from ctd_program import NAME, Command, Node, Token, Tree
from ctd_trees import LOOPS, all_commands, name_of

Value = Union[int, bytes]
# How deep a line of the Python function is indented at most: Python allows little more.
MOST_DEPTH = 90
# What a REGEX sees.
WINDOW = 1 << 20
BLANKS = rb"[ \t\v\f\r]"
# What a pattern is made of, so far as it matters here: escapes, classes, and single bytes.
PIECE = re.compile(rb"\\.|\[\^?\]?[^\]]*\]|.", re.DOTALL)
HELPERS = {"/": "quotient", "%": "remainder"}
SEPARATORS = (b" ", b",", b";", b":", b"/")


class CannotRead(Exception):
    """There is no such function, or the data are not those that it reads."""


class Kept(NamedTuple):
    """The last value of a variable, and where in the data it was set."""

    value: Value
    offset: int


Reader = Callable[[bytes], Dict[bytes, Kept]]


class Values(Dict[object, Value]):
    """The values of a name by their indices, which knows how often it has each."""

    def __init__(self) -> None:
        super().__init__()
        self.counts: Counter[Value] = Counter()

    def __setitem__(self, index: object, value: Value) -> None:
        if index in self:
            self.counts[self[index]] -= 1
        self.counts[value] += 1
        super().__setitem__(index, value)

    def clear(self) -> None:
        super().clear()
        self.counts.clear()


def quotient(left: int, right: int) -> int:
    """A quotient, rounded towards zero."""
    result = abs(left) // abs(right)
    return result if (left < 0) == (right < 0) else -result


def is_unique(*arrays: Dict[object, Value]) -> bool:
    return len({tuple(one[index] for one in arrays) for index in arrays[0]}) == len(arrays[0])


def remainder(left: int, right: int) -> int:
    return left - right * quotient(left, right)


def is_quick(pattern: bytes) -> bool:
    """Whether Python surely finds a match in a time that grows with its length: no text can be parted into the turns of a repeated group in many
    ways."""
    starts: list[int] = []
    for piece in PIECE.finditer(pattern):
        if piece[0] == b"(":
            starts.append(piece.end())
        elif piece[0] == b")" and starts:
            inner = pattern[starts.pop() : piece.start()].removeprefix(b"?:")
            is_repeated = pattern[piece.end() : piece.end() + 1] in (b"*", b"+", b"{")
            if is_repeated and re.search(rb"[*+{]", inner) and not is_parted(inner):
                return False
    return True


def is_parted(turn: bytes) -> bool:
    """Whether each turn of a group begins or ends with a separator that stands nowhere else in it."""
    ends = ((turn[:1], turn[1:]), (turn[-1:], turn[:-1]))
    return any(one in SEPARATORS and not any(other in rest for other in (one, b".", b"\\", b"[^")) for one, rest in ends)


def reader_of(commands: Sequence[Command], presets: Sequence[Preset], skips_blanks: bool, kept: Sequence[bytes]) -> Reader:
    """The function that reads data and gives what some variables have at the end. Raises CannotRead where there is none."""
    translation = Translation(commands, presets, skips_blanks, [name.decode() for name in kept])
    try:
        code = compile(translation.text(commands), "<a program>", "exec")
    except (SyntaxError, RecursionError, MemoryError, OverflowError) as fault:
        raise CannotRead from fault
    exec(code, translation.known)
    read = translation.known["read"]

    def reader(data: bytes) -> dict[bytes, Kept]:
        try:
            # what the data do not fit, or what reads them otherwise than the checker does
            return dict(zip(kept, map(Kept._make, read(data))))  # type: ignore[operator]
        except (ArithmeticError, AttributeError, LookupError, NameError, TypeError, ValueError, MemoryError) as fault:
            raise CannotRead from fault

    return reader


def take(text: str, size: int | str) -> str:
    """A line that takes a text, and raises ValueError where another one stands: so no loop goes on without end behind the data."""
    return f"pos = data.index({text}, pos, pos + {size}) + {size}"


class Translation:
    """The lines of a Python function, and the names that it knows."""

    def __init__(self, commands: Sequence[Command], presets: Sequence[Preset], skips_blanks: bool, kept: Sequence[str]) -> None:
        self.kept, self.lines = kept, [" pos, size = 0, len(data)"]
        self.depth, self.loops = 1, 0
        self.presets = {preset.name: preset.value for preset in presets}
        found = [one for command in all_commands(commands) for tree in command.arguments for one in arrays_in(tree)]
        self.arrays = {name for name, _ in found}
        self.searched = {name for name, is_searched in found if is_searched}
        if any(preset.has_indices or preset.name in self.arrays for preset in presets):
            raise CannotRead
        self.known: dict[str, object] = {one.__name__: one for one in (Values, quotient, remainder, is_unique)}
        self.known.update(integer=re.compile(rb"-?[0-9]+").match, blanks=re.compile(BLANKS + rb"*").match, some_blanks=re.compile(BLANKS + rb"+").match)
        self.skips_blanks = skips_blanks

    def text(self, commands: Sequence[Command]) -> str:
        """The text of the function."""
        for name in sorted(self.arrays):
            self.add(f"a_{name} = {'Values()' if name in self.searched else '{}'}")
        for name, value in self.presets.items():
            self.add(f"n_{name} = {value!r}")
        self.skip_blanks()
        self.add_all(commands)
        self.skip_blanks()
        self.add("if pos != size: raise ValueError")
        self.add(f"return [{', '.join(f'(n_{name}, p_{name})' for name in self.kept)}]")
        return "\n".join(["def read(data):", *self.lines])

    def add(self, line: str) -> None:
        if self.depth > MOST_DEPTH:
            raise CannotRead
        self.lines.append(" " * self.depth + line)

    def skip_blanks(self) -> None:
        if self.skips_blanks:
            self.add("pos = blanks(data, pos).end()")

    def add_block(self, head: str, commands: Sequence[Command]) -> None:
        self.add(head)
        self.depth += 1
        self.add_all(commands)
        self.add("pass")
        self.depth -= 1

    def add_all(self, commands: Sequence[Command]) -> None:
        for command in commands:
            self.add_command(command)

    def add_command(self, command: Command) -> None:
        """Adds what a command does; an ASSERT and an EOF do nothing to data that fit. Raises CannotRead for a command that is not known here."""
        word, arguments = command.word, command.arguments
        if word in LOOPS:
            self.add_loop(command)
        elif word == "IF":
            self.add_block(f"if {self.test(arguments[0])}:", command.body)
            if command.otherwise:
                self.add_block("else:", command.otherwise)
        elif word == "SPACE":
            self.add("pos = some_blanks(data, pos).end()" if self.skips_blanks else take("b' '", 1))
        elif word == "NEWLINE":
            self.skip_blanks()
            self.add(take(r"b'\n'", 1))
            self.skip_blanks()
        elif word == "STRING":
            self.add(f"found = {self.expression(arguments[0])}")
            self.add(take("found", "len(found)"))
        elif word == "INT":
            self.add_taker("integer(data, pos)", "int(found[0])", arguments[2:])
        elif word == "REGEX":
            self.add_taker(f"{self.matcher(arguments[0])}(data, pos, pos + {WINDOW})", "found[0]", arguments[1:])
        elif word == "SET":
            for target, value in zip(arguments[::2], arguments[1::2]):
                self.store(target, self.expression(value))
        elif word == "UNSET":
            for target in arguments:
                name = word_of(target)
                if name not in self.presets:
                    self.add(f"a_{name}.clear()" if name in self.arrays else f"n_{name} = None")
        elif word not in ("ASSERT", "EOF"):
            raise CannotRead

    def add_taker(self, found: str, value: str, target: Sequence[Tree]) -> None:
        self.add(f"found = {found}")
        self.add("pos = found.end()")
        for one in target:
            self.store(one, value)

    def matcher(self, pattern: Tree) -> str:
        """The name of what matches a pattern."""
        text = text_of_pattern(pattern)
        if not is_quick(text):
            raise CannotRead
        with warnings.catch_warnings():
            warnings.simplefilter("error")
            try:
                # (a match begins where the window does)
                match = re.compile(text[1:] if text.startswith(b"^") else text).match
            except (re.error, Warning, OverflowError, RecursionError) as fault:
                raise CannotRead from fault
        name = f"match{len(self.known)}"
        self.known[name] = match
        return name

    def add_loop(self, command: Command) -> None:
        """Adds a loop with a number of its own that counts the turns."""
        self.loops += 1
        turn, has_counter = f"turn{self.loops}", command.word in ("REPI", "WHILEI")
        counter, limit = command.arguments[:1] if has_counter else [], command.arguments[-1]
        is_counted = command.word.startswith("REP")
        self.add(f"most{self.loops} = {self.expression(limit)}" if is_counted else f"{turn} = 0")
        self.add(f"for {turn} in range(most{self.loops}):" if is_counted else "while True:")
        end = f"most{self.loops}"
        self.depth += 1
        for one in counter:
            self.store(one, turn)
        if not is_counted:
            self.add(f"if not {self.test(limit)}: break")
        if command.separator:
            self.add_block(f"if {turn}:", [command.separator])
        self.add_all(command.body)
        self.add("pass" if is_counted else f"{turn} += 1")
        self.depth -= 1
        for one in counter if is_counted else []:
            self.store(one, end)

    def store(self, target: Tree, value: str) -> None:
        name = word_of(target)
        if name not in self.presets:
            self.add(f"{self.variable(target)} = {value}")
            if name in self.kept:
                self.add(f"p_{name} = pos")

    def variable(self, tree: Tree) -> str:
        name = word_of(tree)
        if name not in self.arrays:
            return f"n_{name}"
        indices = [self.expression(part) for part in tree.parts[2:-1:2]] if isinstance(tree, Node) else []
        return f"a_{name}[{', '.join(indices) or '()'}]"

    def expression(self, tree: Tree) -> str:
        if isinstance(tree, Token):
            return self.variable(tree) if tree.symbol == NAME else repr(tree.value)
        parts = tree.parts
        if tree.symbol == "variable":
            return self.variable(tree)
        if parts[0].symbol == "(":
            return self.expression(parts[1])
        if parts[0].symbol == "STRLEN":
            return f"len({self.expression(parts[2])})"
        if len(parts) == 2:
            return f"(-{self.expression(parts[1])})"
        left, sign, right = self.expression(parts[0]), parts[1].symbol, self.expression(parts[2])
        if sign in HELPERS:
            return f"{HELPERS[sign]}({left}, {right})"
        return f"({left} {'**' if sign == '^' else sign} {right})"

    def test(self, tree: Tree) -> str:
        if isinstance(tree, Token):
            return "pos >= size"
        parts, word = tree.parts, tree.parts[0].symbol
        if word == "!":
            return f"(not {self.test(parts[1])})"
        if word == "(" and len(parts) == 3 and tree.symbol == "plain":
            return self.test(parts[1])
        if word == "MATCH":
            return f"(pos < size and data[pos] in {self.expression(parts[2])})"
        if word == "UNIQUE":
            return f"is_unique({', '.join(f'a_{word_of(part)}' for part in parts if part.symbol == NAME)})"
        if word == "INARRAY":
            return f"(a_{word_of(parts[4])}.counts[{self.expression(parts[2])}] > 0)"
        sign = parts[1].symbol
        if sign in ("&&", "||"):
            return f"({self.test(parts[0])} {'and' if sign == '&&' else 'or'} {self.test(parts[2])})"
        return f"({self.expression(parts[0])} {sign} {self.expression(parts[2])})"


def arrays_in(tree: Tree) -> list[tuple[str, bool]]:
    """The names in a tree that are arrays somewhere, each with whether a value is looked for in it."""
    if isinstance(tree, Token):
        return []
    found = [one for part in tree.parts for one in arrays_in(part)]
    first = tree.parts[0].symbol
    if tree.symbol == "variable":
        found.append((word_of(tree), False))
    elif first == "UNIQUE":
        found += [(word_of(part), False) for part in tree.parts if part.symbol == NAME]
    elif first == "INARRAY":
        found.append((word_of(tree.parts[4]), True))
    return found


def word_of(tree: Tree) -> str:
    """The name of a variable as Python has it."""
    return name_of(tree).decode()
