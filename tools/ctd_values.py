"""The values of the variables in a command that failed, asked of the checker by copies of the program."""
from __future__ import annotations

import re
import sys
import tempfile
from collections.abc import Callable, Iterable, Iterator, Sequence
from dataclasses import dataclass, field
from pathlib import Path
from typing import IO, Union

from ctd_companion import Answer, Checker, Progress
from ctd_decisions import operands_of
from ctd_equal import equal_elements
from ctd_ladders import STRING_ROOM, Ladder, Sought, behind
from ctd_likely import Likely
from ctd_program import NAME, NUMERAL, Command, Node, Refused, Token, Tree, commands_of
from ctd_questions import Asker, CannotAsk, Copy, EndedOtherwise, Question, TooManyRuns, fresh_name, offset_at
from ctd_refusals import words_of_refusal
from ctd_trees import DEEDS, SIGNS, all_commands, in_parentheses, is_variable, name_of
from ctd_turns import find_turn

# How many runs asking may take.
MOST_RUNS = 60
# How many values are shown.
MOST_VALUES = 8
LEFT_OUT = "values left out: asking for them takes more than {}; --values allows more"

Value = Union[int, bytes]


@dataclass(frozen=True)
class Told:
    """What is shown of a fault: lines, and how many bytes before its place in the data are the match of a REGEX that an assertion rejects."""

    lines: list[str]
    match: int = 0


NOTHING = Told([])


def told_of_fault(
    checker: Checker, answer: Answer, data: IO[bytes], origin: int, most_runs: int = MOST_RUNS, progress: Progress | None = None
) -> Told:
    """What is shown of a fault: the values of the variables in its command, or what could stand where a program is refused; nothing where there
    is none of it. Asking may take so many runs; with 0 nothing is asked."""
    try:
        if not Path(checker.program).is_file():
            # (a pipe cannot be read again)
            return NOTHING
        text = Path(checker.program).read_bytes()
        if answer.is_of_the_call:
            told = words_of_refusal(answer.message, text, answer.in_program and offset_at(text, answer.in_program))
            return Told([told if answer.message == "syntax error" else f"{answer.message}: {told}"] if told else [])
        if answer.in_program is None or answer.message == "step limit reached" or not most_runs:
            return NOTHING
        # Programs nest deeply, and each level takes some calls.
        sys.setrecursionlimit(max(sys.getrecursionlimit(), 10_000))
        offset, commands = offset_at(text, answer.in_program), commands_of(text)
        found = [(one, is_separator) for one, is_separator in with_separators(commands) if one.offset == offset]
        if not found:
            return NOTHING
        with tempfile.TemporaryDirectory() as folder:
            asker = Asker(checker, data, Path(folder) / "copy.ctd", origin, most_runs, progress=progress)
            fault = Fault(text, *found[0], answer, asker, fresh_name(text, checker.options), match_before(commands, found[0][0]))
            told = fault.told()
            return Told([f"{answer.message}: {told}"] if told else [], fault.match_length())
    except TooManyRuns:
        return Told([LEFT_OUT.format("1 run" if most_runs == 1 else f"{most_runs} runs")])
    except (OSError, CannotAsk, EndedOtherwise, Refused):
        return NOTHING


def commands_before(commands: Sequence[Command], command: Command) -> list[Command] | None:
    """The commands before one in its block, and in front of an IF around it, the last of them first; None where it is not in them."""
    for index, one in enumerate(commands):
        if one is command:
            return [*commands[:index]][::-1]
        for block in (one.body, one.otherwise or []):
            found = commands_before(block, command)
            if found is not None:
                return found + ([*commands[:index]][::-1] if one.word == "IF" else [])
    return None


def match_before(commands: Sequence[Command], command: Command) -> Tree | None:
    """The variable of a REGEX of which an assertion speaks that comes behind it, where nothing between them takes data; else None."""
    trees = list(command.arguments)
    for one in commands_before(commands, command) or [] if command.word == "ASSERT" else []:
        if one.word == "REGEX" and len(one.arguments) == 2:
            name = name_of(one.arguments[1])
            return one.arguments[1] if any(name_of(variable) == name for tree in trees for variable in variables_in(tree)) else None
        if one.word not in ("SET", "UNSET", "ASSERT"):
            return None
        trees += one.arguments if one.word == "SET" else []
    return None


def with_separators(commands: Sequence[Command]) -> Iterator[tuple[Command, bool]]:
    """All commands, each with whether it is a separator."""
    found = list(all_commands(commands))
    separators = {command.separator for command in found}
    for command in found:
        yield command, command in separators


def variables_in(tree: Tree) -> Iterator[Tree]:
    """The variables that an expression or a test reads, each before those in its indices. An array as a whole is none."""
    if isinstance(tree, Token):
        if tree.symbol == NAME:
            yield tree
        return
    if tree.symbol == "variable":
        yield tree
    word = tree.parts[0].symbol
    if word == "UNIQUE":
        return
    parts = tree.parts[1:] if tree.symbol == "variable" else tree.parts[:3] if word == "INARRAY" else tree.parts
    for part in parts:
        yield from variables_in(part)


def quoted(value: Value, length: int) -> str:
    """A value as it is shown: a string in quotes, cut where it is long."""
    if isinstance(value, int):
        return str(value)
    marks = {0x22: '\\"', 0x5C: "\\\\", 0x0A: "\\n", 0x09: "\\t", 0x0D: "\\r"}
    text = "".join(marks.get(byte) or (chr(byte) if 0x20 <= byte < 0x7F else f"\\{byte:03o}") for byte in value)
    return f'"{text}"' + ("…" if length > len(value) else "")


def shown_value(sought: Sought) -> str:
    """A value that was found, as it is shown."""
    return str(sought.low) if isinstance(sought.low, int) else quoted(sought.low[:STRING_ROOM], len(sought.low))


@dataclass
class Fault:
    """A command that failed, and how its values are asked for: in a copy, behind a test that is true just where it fails."""

    text: bytes
    command: Command
    is_separator: bool
    answer: Answer
    asker: Asker
    fresh: bytes
    # the variable that has what a REGEX took before the command, if it speaks of that; and the values that are known, None where there is none
    match: Tree | None = None
    known: dict[bytes, Sought | None] = field(default_factory=dict)
    _likely: Likely | None = None

    def __post_init__(self) -> None:
        self.condition = b""
        # what the command gives way to, and what stands at the start of the program and before it
        self.new, self.start, self.before = self.source(self.command), b"", b""

    def source(self, tree: Tree | Command) -> bytes:
        return self.text[tree.offset : tree.end]

    def told(self) -> str:
        """What is told of the values; an empty text where there are none."""
        command, message = self.command, self.answer.message
        if command.word in ("WHILE", "WHILEI") or (command.word in ("REP", "REPI") and message != "bad count"):
            return ""
        trees = list(command.arguments[:1] if command.word in ("IF", "REP") else command.arguments)
        variables = self.read_variables(trees)
        if command.word == "INT" and message == "value out of range":
            return self.told_of_range(variables)
        if message == "assertion failed":
            self.condition = b"!(%b)" % self.source(command.arguments[0])
            return ", ".join(self.told_of_test(command.arguments[0]))
        if not variables:
            return ""
        self.count()
        return ", ".join(self.values(variables))

    def read_variables(self, trees: Sequence[Tree]) -> list[bytes]:
        """The variables that the command reads, each once; of a variable that it sets, those in its indices."""
        is_changing = DEEDS[self.command.word].is_changing
        found: dict[bytes, None] = {}
        for index, tree in enumerate(trees):
            for variable in variables_in(tree):
                if not (is_changing(index) and variable is tree):
                    found[self.source(variable)] = None
        return list(found)

    # the copies

    def copy(self, put: Callable[[Copy], None], setting: bytes = b"") -> Copy:
        """The program with something put where the command fails, behind commands that set variables of ours."""
        command, copy = self.command, Copy()
        copy.add(self.start)
        copy.add(self.text[: command.offset], 0)
        copy.add(b"IF(0==0) " if self.is_separator else b"")
        copy.add(self.before)
        copy.add(b"IF(%b)\n%b" % (self.condition, setting))
        put(copy)
        copy.add(b"END\n")
        copy.add(self.new, command.offset)
        copy.add(b" END " if self.is_separator else b"")
        copy.add(self.text[command.end :], command.end)
        return copy

    def ask(self, questions: Sequence[Question]) -> Question:
        """The question that fails first. Raises EndedOtherwise where one ends with another fault, or none fails."""
        stopped = self.asker.first_failing(self.copy(lambda copy: copy.ask_all(questions)))
        if stopped is None:
            raise CannotAsk("the data fit a copy of a program that they do not fit")
        return stopped[0]

    def count(self) -> None:
        """Finds at which turn the command fails: that is how the copies know the place."""
        self.start, self.before, self.condition = find_turn(self)

    # the values

    def values(self, expressions: Sequence[bytes]) -> list[str]:
        """Expressions with their values, those that have one."""
        told = []
        self.find(expressions[:MOST_VALUES])
        for expression in expressions[:MOST_VALUES]:
            value = self.value(expression)
            if value is not None:
                told.append(f"{shown(expression)} = {value}")
        return told + ([f"and {len(expressions) - MOST_VALUES} more"] if len(expressions) > MOST_VALUES else [])

    def value(self, expression: bytes) -> str | None:
        """The value of an expression as it is shown; None where it has none."""
        self.find([expression])
        found = self.known[expression]
        return shown_value(found) if found else None

    def find(self, expressions: Iterable[bytes]) -> None:
        """Finds the values of expressions, of all together."""
        likely = self.likely
        open_ones = [likely.sought(one) for one in dict.fromkeys(expressions) if one not in self.known]
        while open_ones:
            ladder = Ladder(open_ones, self.fresh)
            try:
                ladder.take(self.asker.told(self.copy(ladder.ask)))
            except EndedOtherwise as other:
                failed = next((one for one in open_ones if one.question is other.question), None)
                if failed is None:
                    raise
                open_ones.remove(failed)
                instead = likely.of_other_type(failed) if other.message == "wrong type" else None
                open_ones += [instead] if instead else []
                self.known[failed.expression] = None
            self.known.update((one.expression, one) for one in open_ones if one.is_found)
            open_ones = [one for one in open_ones if not one.is_found]

    @property
    def likely(self) -> Likely:
        """What values may well be."""
        if self._likely is None:
            assert self.answer.in_data
            self._likely = Likely.around(self.asker.data, self.asker.origin, self.answer.in_data, self.text, self.asker.checker.options)
        return self._likely

    def numbers(self, setting: bytes, sought: Sequence[Sought]) -> list[int]:
        """Numbers that commands of ours find."""
        while waiting := [one for one in sought if not one.is_found]:
            ladder = Ladder(waiting, self.fresh)
            ladder.take(self.asker.told(self.copy(ladder.ask, setting)))
        return [int(one.low) for one in sought]

    @property
    def matched(self) -> list[bytes]:
        """The variable that has what a REGEX took before the command, if the command speaks of that."""
        return [self.source(self.match)] if self.match else []

    def match_length(self) -> int:
        """How many bytes before the place of the fault are the match of which the assertion speaks, where that is known."""
        found = self.known.get(self.matched[0]) if self.matched else None
        place, data = self.answer.in_data, self.asker.data
        if found is None or not isinstance(found.low, bytes) or place is None:
            return 0
        before, value, length = self.asker.offset(place), found.low, len(found.low)
        if found.high != behind(value) and length <= before:
            # no more than the beginning of the string is known
            value = found.prefix
            length = self.numbers(b"", [Sought(b"STRLEN(%b)" % found.expression, len(value), before + 2)])[0]
        data.seek(self.asker.origin + max(before - length, 0))
        return length if length <= before and data.read(len(value)) == value else 0

    # a test that is false

    def told_of_test(self, test: Tree) -> list[str]:
        """What is told of a test that is false: the values in the parts that make it so, and these parts as they are written."""
        parts = self.false_parts(test)
        told: dict[str, None] = {}
        for part in parts:
            told.update(dict.fromkeys(self.told_of_part(part)))
        told.update(dict.fromkeys(self.values(self.matched)))
        told.pop("", None)
        written = " || ".join(shown(self.source(part), b" ") for part in parts)
        if told:
            return [*told] if is_unique(parts[0]) and len(parts) == 1 else [*told, f"in {written}"]
        return [f"{written} is false"] if is_comparison(parts[0]) or len(self.conjuncts(test)) > 1 else []

    def conjuncts(self, test: Tree) -> list[Tree]:
        """The sides of a test with &&, or the test itself."""
        inner = in_parentheses(test)
        return operands_of(inner) if isinstance(inner, Node) and inner.symbol == "both" else [test]

    def false_parts(self, test: Tree) -> list[Tree]:
        """The first side of && that is false, or of || all sides, in each the same."""
        sides = self.conjuncts(test)
        if len(sides) > 1:
            questions = [Question(b"ASSERT(%b) " % self.source(side)) for side in sides]
            return self.false_parts(sides[questions.index(self.ask(questions))])
        inner = in_parentheses(test)
        if isinstance(inner, Node) and inner.symbol == "test":
            return [part for side in operands_of(inner) for part in self.false_parts(side)]
        return [inner]

    def told_of_part(self, part: Tree) -> list[str]:
        """The values of both sides of a comparison, two equal elements, or the values of variables."""
        if isinstance(part, Node) and is_unique(part):
            return [equal_elements(self, [name_of(name) for name in part.parts if name.symbol == NAME])]
        sides = [side for side in (part.parts[0], part.parts[2]) if not is_plain(side)] if isinstance(part, Node) and is_comparison(part) else []
        variables = self.read_variables([part])
        self.find([*map(self.asked_of, sides), *variables[:MOST_VALUES], *self.matched])
        values = [f"{shown(self.source(side))} = {value}" for side in sides if (value := self.value(self.asked_of(side))) is not None]
        return [*values, *self.values([one for one in variables if one not in map(self.source, sides)])]

    def asked_of(self, tree: Tree) -> bytes:
        """An expression as it is asked for."""
        return self.source(tree) if is_variable(tree) else b"(%b)" % self.source(tree)

    # a value out of range

    def told_of_range(self, variables: Sequence[bytes]) -> str:
        """The number in the data, the bounds, and the variables of both."""
        low, high, *target = self.command.arguments
        lower, upper, taken = self.source(low), self.source(high), self.fresh + b"taken"
        self.new = b"".join(b"SET(%b=%b)" % (self.source(one), taken) for one in target)
        self.before = b"INT(-2^126*2,2^126-1+2^126,%b) " % taken
        self.condition = b"%b<(%b)||%b>(%b)" % (taken, lower, taken, upper)
        try:
            bounds = self.bounds(variables)
        except EndedOtherwise:
            # a number that no variable can have
            self.new = self.source(self.command)
            self.known.clear()
            self.count()
            bounds = self.bounds(variables)
        told = f"{self.number_in_data()}; bounds {bounds[0]} .. {bounds[1]}"
        return ", ".join([told, *self.values([one for one in variables if one not in (lower, upper)])])

    def bounds(self, variables: Sequence[bytes]) -> list[str]:
        """Both bounds as they are shown. They are asked for together with variables."""
        trees = self.command.arguments[:2]
        asked = [self.asked_of(tree) for tree in trees if not (isinstance(tree, Token) and tree.symbol == NUMERAL)]
        self.find([*asked, *variables[:MOST_VALUES]])
        return [self.bound(tree) for tree in trees]

    def bound(self, tree: Tree) -> str:
        source = self.source(tree)
        if isinstance(tree, Token) and tree.symbol == NUMERAL:
            return source.decode()
        value = str(self.value(self.asked_of(tree)))
        return value if re.fullmatch(rb"-\s*[0-9]+", source) else f"{shown(source)} = {value}"

    def number_in_data(self) -> str:
        """The number that the data have at the place of the fault."""
        place, data = self.answer.in_data, self.asker.data
        assert place
        data.seek(self.asker.origin + self.asker.offset(place))
        found = re.match(rb"-?[0-9]*", data.read(2 * STRING_ROOM))
        number = found[0].decode() if found else ""
        return number if len(number) <= STRING_ROOM else number[:STRING_ROOM] + "…"


def is_unique(part: Tree) -> bool:
    return isinstance(part, Node) and part.parts[0].symbol == "UNIQUE"


def is_plain(tree: Tree) -> bool:
    """Whether an expression is a numeral, also one with a sign, or a string literal."""
    if isinstance(tree, Token):
        return tree.symbol != NAME
    return len(tree.parts) == 2 and all(isinstance(part, Token) for part in tree.parts) and tree.parts[1].symbol == NUMERAL


def is_comparison(part: Tree) -> bool:
    return isinstance(part, Node) and len(part.parts) == 3 and part.parts[1].symbol in SIGNS


# A string of a program; or blanks and comments.
BLANKS = re.compile(rb'("(?:[^"\\]|\\.)*")|(?:[ \t\r\n]|#[^\n]*)+', re.DOTALL)


def shown(source: bytes, blank: bytes = b"") -> str:
    """A part of the program on one line, with this in place of blanks."""
    text = BLANKS.sub(lambda found: found[1] or blank, source)
    return text.decode("utf-8", "backslashreplace").replace("\n", "\\n")
