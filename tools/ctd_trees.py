"""What the trees of a program are made of: its commands in order, and what each does; names, and comparisons."""
from __future__ import annotations

from collections.abc import Iterable, Iterator, Sequence
from enum import Enum
from typing import NamedTuple, Optional, Type, Union

from ctd_program import BLOCKS, NAME, Command, Node, Token, Tree

LOOPS = tuple(word for word in BLOCKS if word != "IF")


class Taken(Enum):
    """What a command takes from the data itself, without those in it."""

    NOTHING = "nothing"
    BLANK = "a blank"
    INTEGER = "an integer"
    STRING = "a string, which may be empty"


class Deed(NamedTuple):
    """What a command does: what it takes, which of its arguments are names that it gives values or takes them from, and the type of the values, where it
    is always the same."""

    takes: Taken = Taken.NOTHING
    changes: slice = slice(0)
    gives: Optional[Union[Type[int], Type[bytes]]] = None

    def is_changing(self, index: int) -> bool:
        """Whether the argument with a number is such a name."""
        return index in range(index + 1)[self.changes]


# All commands of the language.
DEEDS = {
    "SPACE": Deed(Taken.BLANK),
    "NEWLINE": Deed(Taken.BLANK),
    "EOF": Deed(),
    "INT": Deed(Taken.INTEGER, slice(2, None), int),
    "STRING": Deed(Taken.STRING),
    "REGEX": Deed(Taken.STRING, slice(1, None), bytes),
    "ASSERT": Deed(),
    "SET": Deed(changes=slice(0, None, 2)),
    "UNSET": Deed(changes=slice(0, None)),
    "REP": Deed(),
    "REPI": Deed(changes=slice(0, 1), gives=int),
    "WHILE": Deed(),
    "WHILEI": Deed(changes=slice(0, 1), gives=int),
    "IF": Deed(),
}
# Comparisons, each with itself and its opposite.
SIGNS = {"<": ("<", ">="), ">": (">", "<="), "<=": ("<=", ">"), ">=": (">=", "<"), "==": ("==", "!="), "!=": ("!=", "==")}


def all_commands(commands: Iterable[Command]) -> Iterator[Command]:
    """All commands of a program, in the order of their text."""
    for command in commands:
        yield command
        separator = [command.separator] if command.separator else []
        yield from all_commands([*separator, *command.body, *(command.otherwise or [])])


def changed_by(command: Command) -> Sequence[Tree]:
    """The names that a command gives values, or takes them from."""
    return command.arguments[DEEDS[command.word].changes]


def trees_in(tree: Tree) -> Iterator[Tree]:
    """A tree and all that are in it, those of a part behind it."""
    waiting = [tree]
    while waiting:
        one = waiting.pop()
        yield one
        if isinstance(one, Node):
            waiting += reversed(one.parts)


def name_of(tree: Tree) -> bytes:
    """The name of a variable, with or without indices."""
    token = tree if isinstance(tree, Token) else tree.parts[0]
    assert isinstance(token, Token) and isinstance(token.value, bytes)
    return token.value


def is_variable(tree: Tree) -> bool:
    return tree.symbol in (NAME, "variable")


def in_parentheses(tree: Tree) -> Tree:
    """What stands in the parentheses around an expression or a test, if there are some."""
    while isinstance(tree, Node) and len(tree.parts) == 3 and tree.parts[0].symbol == "(":
        tree = tree.parts[1]
    return tree
