"""The bounds of the programs of a problem package beside the limits of its statement: what one has and the other has not."""
from __future__ import annotations

import operator
import re
from collections.abc import Iterable, Iterator, Mapping, Sequence
from contextlib import suppress
from dataclasses import dataclass
from math import log

from ctd_companion import printable
from ctd_limits import Mention, Statement, statement_in
from ctd_presets import presets_in
from ctd_problem import Package, program_text
from ctd_program import NUMERAL, TEXT, Command, Node, Refused, Token, Tree, commands_of
from ctd_questions import place_at
from ctd_reader import quotient, remainder
from ctd_trees import all_commands, is_variable, name_of, trees_in

STATEMENT_FOLDERS = ("problem_statement", "statement")
STATEMENT_SUFFIXES = (".tex", ".md")
# Numbers that stand in programs and statements for much else.
COMMON = (-1, 0, 1)
# How many numbers of each side are told of, and with how many each is compared.
MOST_NOTES, MOST_NEAR = 1000, 2000
REPETITION = re.compile(rb"\{([0-9]{1,7})(?:,([0-9]{1,7})?)?\}")
COMPARISONS = ("<", ">", "<=", ">=")
OPERATIONS = {"+": operator.add, "-": operator.sub, "*": operator.mul, "/": quotient, "%": remainder, "^": operator.pow}
# No power with a larger exponent is a number of the language, but those of -1, 0 and 1.
MOST_EXPONENT = 127


@dataclass(frozen=True)
class Numbers:
    """The bounds of programs and flags, in order; and all their numbers, each of which may be meant where a statement has a limit."""

    bounds: Sequence[Mention]
    all: frozenset[int]


def statements_of(package: Package) -> list[Statement]:
    """The statements of a package, one for each language."""
    names = [path for folder in STATEMENT_FOLDERS for path in sorted((package.folder / folder).glob("*")) if path.suffix in STATEMENT_SUFFIXES]
    return [statement_in(package.folder, path.relative_to(package.folder)) for path in names if not path.is_dir()]


def values_of(trees: Iterable[Tree]) -> dict[int, int]:
    """The numbers that expressions without variables are, each by the identity of its tree. Those of a part stand behind it."""
    values: dict[int, int] = {}
    for tree in reversed(list(trees)):
        value = value_from_parts(tree, values)
        if value is not None:
            values[id(tree)] = value
    return values


def value_from_parts(tree: Tree, values: Mapping[int, int]) -> int | None:
    """The number that an expression is, by those of its parts; None where it is none."""
    if isinstance(tree, Token):
        return tree.value if tree.symbol == NUMERAL and isinstance(tree.value, int) else None
    if tree.symbol == "atom" and len(tree.parts) == 3:
        return values.get(id(tree.parts[1]))
    if len(tree.parts) == 2:
        inner = values.get(id(tree.parts[1]))
        return None if inner is None or tree.parts[0].symbol != "-" else -inner
    if tree.symbol not in ("expr", "product", "power"):
        return None
    left, sign, right = values.get(id(tree.parts[0])), tree.parts[1].symbol, values.get(id(tree.parts[2]))
    return None if left is None or right is None else result_of(left, sign, right)


def result_of(left: int, sign: str, right: int) -> int | None:
    """The result of an operation on two numbers; None where it has none, or is too large to be a limit."""
    is_there = right != 0 if sign in ("/", "%") else 0 <= right <= MOST_EXPONENT if sign == "^" else True
    return int(OPERATIONS[sign](left, right)) if is_there else None


def bounding_trees(command: Command) -> Iterator[Tree]:
    """The expressions that are bounds: both of an INT, and each side of a comparison by size in an ASSERT."""
    if command.word == "INT":
        yield from command.arguments[:2]
    elif command.word == "ASSERT":
        for test in trees_in(command.arguments[0]):
            if isinstance(test, Node) and test.symbol == "plain" and len(test.parts) == 3 and test.parts[1].symbol in COMPARISONS:
                yield from (test.parts[0], test.parts[2])


def numbers_in(text: bytes, name: str) -> Numbers:
    """The bounds of a program, of which the text is given: numbers that bound something, or that SET gives to a variable which does, and the
    repetitions of patterns. Raises Refused."""
    commands = list(all_commands(commands_of(text)))
    trees = [tree for command in commands for argument in command.arguments for tree in trees_in(argument)]
    values = values_of(trees)
    bounding = [tree for command in commands for tree in bounding_trees(command)]
    names = {name_of(part) for tree in bounding for part in trees_in(tree) if is_variable(part)}
    settings = [pair for command in commands if command.word == "SET" for pair in zip(command.arguments[::2], command.arguments[1::2])]
    bounding += [value for target, value in settings if name_of(target) in names]
    found = [(tree.offset, values[id(tree)]) for tree in bounding if id(tree) in values]
    found += [(tree.offset, value) for tree in trees for value in repetitions_of(tree)]
    places = {offset: place_at(text, offset) for offset, _ in found}
    bounds = [mention(value, f"{name}:{places[offset].line}:{places[offset].column}") for offset, value in sorted(found, key=lambda one: one[0])]
    return Numbers(bounds, frozenset([*values.values(), *(value for _, value in found)]))


def repetitions_of(tree: Tree) -> Iterator[int]:
    """The numbers of repetitions in a pattern, or another text."""
    if isinstance(tree, Token) and tree.symbol == TEXT and isinstance(tree.value, bytes):
        yield from (int(number) for found in REPETITION.findall(tree.value) for number in found if number)


def mention(value: int, place: str) -> Mention:
    return Mention(value, place, frozenset({value}))


def numbers_of(package: Package) -> Numbers:
    """The bounds of all programs of a package, and of the flags of its groups. A program that is refused, or nests too deeply, has none."""
    parts = []
    for program in package.programs:
        try:
            parts.append(numbers_in(program_text(package.folder / program), printable(program.as_posix())))
        except (Refused, RecursionError):
            continue
    presets = list(presets_of(package))
    bounds = [bound for part in parts for bound in part.bounds] + presets
    return Numbers(bounds, frozenset({bound.value for bound in presets}.union(*(part.all for part in parts))))


def presets_of(package: Package) -> Iterator[Mention]:
    """The numbers that flags give to variables, each with the first settings that have it."""
    for flags in dict.fromkeys(data.flags for data in package.data):
        for program in package.programs:
            with suppress(Refused):
                for preset in presets_in(flags.options_for(program)):
                    if isinstance(preset.value, int):
                        where = printable(flags.path.relative_to(package.folder).as_posix())
                        yield mention(preset.value, f"{where}: {preset.name}={preset.value}")


def differences(package: Package) -> list[str] | None:
    """Notes of the bounds that no statement has, and of the limits that no program has; None where there is no statement."""
    statements = statements_of(package)
    if not statements:
        return None
    numbers = numbers_of(package)
    limits = [limit for statement in statements for limit in statement.limits]
    said = {number for statement in statements for number in statement.numbers}.union(*(limit.same for limit in limits))
    bounds_alone = [bound for bound in firsts(numbers.bounds) if bound.value not in said]
    limits_alone = [limit for limit in firsts(limits) if not limit.same & numbers.all]
    notes = [
        *(note(bound, "no statement has this bound", limits_alone or limits) for bound in bounds_alone[:MOST_NOTES]),
        *(note(limit, "no program has this limit", bounds_alone or numbers.bounds) for limit in limits_alone[:MOST_NOTES]),
    ]
    left_out = len(bounds_alone) + len(limits_alone) - len(notes)
    return [*notes, f"and {left_out} more numbers"] if left_out else notes


def firsts(mentions: Iterable[Mention]) -> list[Mention]:
    """The first mention of each number, without those that stand for much else."""
    by_value: dict[int, Mention] = {}
    for one in mentions:
        if one.value not in COMMON:
            by_value.setdefault(one.value, one)
    return list(by_value.values())


def note(one: Mention, told: str, others: Sequence[Mention]) -> str:
    """A note of a number, with the nearest of the others."""

    def distance(other: Mention) -> float:
        return abs(signed_log(one.value) - signed_log(other.value))

    nearest = min((other for other in others[:MOST_NEAR] if other.value not in COMMON), key=distance, default=None)
    behind = f"; the nearest is {nearest.value} ({nearest.place})" if nearest else ""
    return f"{one.place}: note: {told}: {one.value}{behind}"


def signed_log(value: int) -> float:
    """The logarithm of a number with its sign, so that one with a zero too many is near."""
    return log(value + 1) if value >= 0 else -log(1 - value)
