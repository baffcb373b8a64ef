"""What files of test data try of a program: the things that are watched, and the copies of the program that ask for them."""
from __future__ import annotations

from collections.abc import Callable, Iterator, Mapping, Sequence
from dataclasses import dataclass, field
from functools import cached_property
from typing import Protocol

from ctd_decisions import Apart, Condition, Effect, Holds, decisions, numbers_of, tight_comparisons
from ctd_patterns import alternatives_of, lengths_of
from ctd_presets import Preset
from ctd_program import Command, Tree
from ctd_questions import GREATEST, LEAST, Copy, Question, literal, numeral
from ctd_ranges import Operand, Range, Ranges
from ctd_takers import parted_integers
from ctd_trees import LOOPS, all_commands


@dataclass(frozen=True)
class Spot:
    """A place in a file of data."""

    file: str
    line: int
    column: int

    def __str__(self) -> str:
        return f"{self.file}:{self.line}:{self.column}"


@dataclass(frozen=True)
class Found:
    """Where something happened; and for a number which it was."""

    spot: Spot
    value: int = 0


@dataclass(frozen=True, eq=False)
class Thing:
    """Something that is watched: whether a test is ever false; or the greatest number that an expression is, or the least (`sign` -1).

    `bound`: a number that it does not pass. `is_taken`: an INT took the number, and what stands before it in the data is no digit. `is_asked`: files are
    asked for it."""

    test: bytes = b""
    expression: bytes = b""
    sign: int = 0
    bound: int | None = None
    is_taken: bool = False
    is_asked: bool = True

    def passes(self, best: int) -> bytes:
        """A test that is true where the number is better than the best."""
        return b"%b%b%b" % (self.expression, b">" if self.sign > 0 else b"<", numeral(best))

    def range_beyond(self, best: int | None) -> tuple[int, int]:
        """What a number may be that is better than the best: no less than the first and less than the second."""
        if best is None:
            return LEAST, GREATEST + 1
        return (best + 1, GREATEST + 1) if self.sign > 0 else (LEAST, best)

    def stays(self, best: int) -> bytes:
        return b"%b%b%b" % (self.expression, b"<=" if self.sign > 0 else b">=", numeral(best))


# How the names of things begin that are parts of a test, and words of a list.
TIGHT, DECIDED, WORD = "tight: ", "decided by ", "word "

# The bounds of an INT or of the lengths of a REGEX, and the numbers that tell whether they are taken.
ENDS = {"low": "least", "high": "greatest"}

# What was found of the things that happened.
Findings = Mapping[Thing, Found]


def merged(first: Findings, second: Findings) -> dict[Thing, Found]:
    """What two parts of the data give together; the first counts where both are as good."""
    both = dict(first)
    for thing, found in second.items():
        if thing not in both or (found.value - both[thing].value) * thing.sign > 0:
            both[thing] = found
    return both


class Putter(Protocol):
    """What puts something into a copy for things that are open. It may count the NEWLINEs in a variable, and tell no turn, the first and later ones apart
    by names that have values."""

    @property
    def counter(self) -> bytes | None: ...

    @property
    def is_telling_turns(self) -> bool: ...

    def is_open(self, thing: Thing) -> bool: ...

    def put(self, copy: Copy, thing: Thing) -> None: ...


Piece = Callable[[Copy, Putter], None]


@dataclass
class Block:
    """Commands that run together: those of a program, of a loop or of a branch."""

    commands: list[Command]
    is_entered: Callable[[Findings], bool]
    parent: Block | None = None
    # what may happen that a run comes here
    ways: Sequence[Thing] = ()

    def is_run(self, found: Findings) -> bool:
        """Whether some file runs these commands."""
        return self.is_entered(found) and (self.parent is None or self.parent.is_run(found))


@dataclass
class Watched:
    """A command of which something is watched, with its things by their names."""

    command: Command
    block: Block
    things: dict[str, Thing] = field(default_factory=dict)
    # the bounds of which the number is known: files are asked for the least and the greatest number, which tell whether these are taken
    ends: dict[str, Thing] = field(default_factory=dict)
    # for an INT its bounds, for a REGEX its lengths: what is known of them
    low: Range = Range()
    high: Range = Range()

    def thing(self, name: str) -> Thing:
        return self.things[name] if name in self.things else self.ends[name]

    def open_things(self, found: Findings) -> Iterator[Thing]:
        """What did not happen, but for numbers."""
        seen = self.found_by_name(found)
        return (thing for name, thing in {**self.things, **self.ends}.items() if name not in seen and not thing.sign)

    def found_by_name(self, found: Findings) -> dict[str, Found]:
        """What was found of the things and the ends."""
        names = [*self.things, *(bound for bound in self.ends if self.is_taken(bound, found))]
        things = {name: self.things[name if name in self.things else ENDS[name]] for name in names}
        return {name: found[thing] for name, thing in things.items() if thing in found}

    def add_bound(self, name: str, test: bytes, known: Range) -> None:
        """Adds that a bound is taken, where a test is false; files are not asked for one of which the number is known."""
        (self.things if known.only is None else self.ends)[name] = Thing(test=test, is_asked=known.only is None)

    def is_taken(self, bound: str, found: Findings) -> bool:
        """Whether a bound of an INT or of the lengths of a REGEX is taken, or not known."""
        if bound in self.things:
            return self.things[bound] in found
        only, end = (self.low.only, "least") if bound == "low" else (self.high.only, "greatest")
        return only is None or ((best := found.get(self.things[end])) is not None and best.value == only)

    def add_decisions(self, skeleton: Skeleton, wanted: bool | None) -> list[Thing]:
        """Watches the sides of && and || in the test, which has to have a value, or may have both."""
        for effect in decisions(self.command.arguments[-1], wanted):
            self.things[f"{DECIDED}{text_of(skeleton, effect)}"] = skeleton.thing_of_effect(effect)
        return [thing for name, thing in self.things.items() if name.startswith(DECIDED)]


class Skeleton:
    """A program with the places in it at which questions can be put."""

    def __init__(self, text: bytes, commands: list[Command], fresh: bytes, presets: Sequence[Preset], ranges: Ranges) -> None:
        self.text, self.fresh, self.presets, self.ranges = text, fresh, presets, ranges
        self.pieces: list[Piece] = []
        self.at = 0
        self.watched: list[Watched] = []
        self.blocks: list[Block] = []
        self.taken: set[bytes] = set()
        self.numbers = numbers_of(commands, presets)
        self.parted = parted_integers(commands)
        self.add_block(Block(commands, lambda found: True))
        self.verbatim(len(text))

    # what a run does with it

    def copy(self, putter: Putter, start: bytes = b"", end: bytes = b"") -> Copy:
        """The program with what is put in for things, and something at its start and its end."""
        copy = Copy()
        copy.add(start)
        for piece in self.pieces:
            piece(copy, putter)
        if end:
            # (a comment may be the last line)
            copy.add(b"\n" + end)
        return copy

    @cached_property
    def owners(self) -> dict[Thing, tuple[Watched, str]]:
        """The command of each thing, and its name there."""
        return {thing: (watched, name) for watched in self.watched for name, thing in {**watched.things, **watched.ends}.items()}

    @cached_property
    def things(self) -> Sequence[Thing]:
        """Those for which files are asked."""
        return [thing for thing in self.owners if thing.is_asked]

    @cached_property
    def opposites(self) -> dict[Thing, Thing]:
        """To the least of numbers the greatest, and the other way round."""
        pairs = [(one.things["least"], one.things["greatest"]) for one in self.watched if "least" in one.things]
        return {**dict(pairs), **{greatest: least for least, greatest in pairs}}

    def is_told(self, thing: Thing, found: Findings) -> bool:
        """Whether a note may tell something of a thing: of the least and the greatest number only where a bound is not taken."""
        watched, name = self.owners[thing]
        if name == "most":
            return False
        if name not in ("least", "greatest"):
            return True
        has_words = any(one.startswith(WORD) for one in watched.things)
        return not has_words and any(not watched.is_taken(bound, found) for bound in ("low", "high"))

    def question(self, thing: Thing, text: bytes) -> Question:
        return ThingQuestion(text, thing)

    def thing_of(self, question: Question) -> Thing:
        assert isinstance(question, ThingQuestion)
        return question.thing

    # how it is made

    def verbatim(self, end: int) -> None:
        """Takes over the text up to an offset."""
        start, self.at = self.at, end
        self.pieces.append(lambda copy, putter: copy.add(self.text[start:end], start))

    def insert(self, piece: Piece) -> None:
        self.pieces.append(piece)

    def put_all(self, things: Sequence[Thing], before: bytes = b" ") -> None:
        """Puts what is open of some things here, behind other text."""

        def piece(copy: Copy, putter: Putter) -> None:
            if any(putter.is_open(thing) for thing in things):
                copy.add(before)
                for thing in things:
                    putter.put(copy, thing)

        self.insert(piece)

    def add_block(self, block: Block) -> None:
        self.blocks.append(block)
        for command in block.commands:
            self.add_command(command, block)

    def add_command(self, command: Command, block: Block) -> None:
        watched = Watched(command, block)
        if command.word in MAKERS:
            self.watched.append(watched)
            MAKERS[command.word](self, watched)
        self.verbatim(command.end)
        if command.word in ENDINGS:
            ENDINGS[command.word](self, watched)
        if command.word == "NEWLINE":
            self.insert(lambda copy, putter: copy.add(b" SET(%b=%b+1)" % (putter.counter, putter.counter)) if putter.counter else None)

    def add_separator(self, command: Command, block: Block) -> None:
        """A separator is one command, so it gets an IF around it that is always true."""
        self.verbatim(command.offset)
        self.blocks.append(block)
        is_counted, is_plain = command.word == "NEWLINE", command.word not in MAKERS

        def unless_plain(text: bytes) -> Piece:
            return lambda copy, putter: None if is_plain and not (is_counted and putter.counter) else copy.add(text)

        self.insert(unless_plain(b"IF(0==0) "))
        self.add_command(command, block)
        self.insert(unless_plain(b" END"))

    def variable(self) -> bytes:
        """A name that the program does not have."""
        return b"%bv%d" % (self.fresh, len(self.watched))

    def source(self, tree: Tree) -> bytes:
        return self.text[tree.offset : tree.end]

    def range_of(self, tree: Tree) -> Range:
        """What is known of the bound of an INT, or of the count of a loop."""
        return self.ranges.get(tree.offset, Range())

    def condition(self, one: Condition) -> bytes:
        """A condition of a part of a test as a test."""
        if isinstance(one, Holds):
            return b"%b(%b)" % (b"" if one.wanted else b"!", self.source(one.test))
        assert isinstance(one, Apart)
        return b"(%b)==(%b)%b" % (self.source(one.left), self.source(one.right), b"%+d" % one.distance if one.distance else b"")

    def thing_of_effect(self, effect: Effect) -> Thing:
        return Thing(test=b"!(%b)" % b"&&".join(map(self.condition, effect.conditions)))


def text_of(skeleton: Skeleton, effect: Effect) -> str:
    return skeleton.source(effect.part).decode("utf-8", "backslashreplace")


@dataclass(eq=False)
class ThingQuestion(Question):
    """A question that is asked of a thing."""

    thing: Thing


def add_taker(skeleton: Skeleton, watched: Watched, behind: int, target: Tree | None, name: bytes) -> None:
    """An INT or a REGEX that gets a name of ours for what it takes, where something of it is open; its own variable is set behind the
    questions."""
    command, things = watched.command, [*watched.things.values(), *watched.ends.values()]
    skeleton.verbatim(behind)
    rest = skeleton.text[behind : command.end]
    setting = b"SET(%b=%b) " % (skeleton.source(target), name) if target else b""

    def piece(copy: Copy, putter: Putter) -> None:
        if any(putter.is_open(thing) for thing in things):
            copy.add(b",%b) " % name)
            for thing in things:
                putter.put(copy, thing)
            copy.add(setting)
        else:
            copy.add(rest, behind)

    skeleton.insert(piece)
    skeleton.at = command.end


def bounding_operands(commands: Sequence[Command]) -> list[Operand]:
    """The bounds of INTs and the counts of loops, of which it is watched how near numbers come to them."""
    places = {"INT": slice(0, 2), "REP": slice(0, 1), "REPI": slice(1, 2)}
    return [Operand(command, tree) for command in all_commands(commands) for tree in command.arguments[places.get(command.word, slice(0))]]


def add_integer(skeleton: Skeleton, watched: Watched) -> None:
    command = watched.command
    low, high, *target = command.arguments
    name = skeleton.variable()
    skeleton.taken.add(name)
    watched.low, watched.high = skeleton.range_of(low), skeleton.range_of(high)
    is_taken = command in skeleton.parted
    for bound, tree, known in (("low", low, watched.low), ("high", high, watched.high)):
        watched.add_bound(bound, b"%b!=(%b)" % (name, skeleton.source(tree)), known)
    watched.things["least"] = Thing(expression=name, sign=-1, bound=watched.low.least, is_taken=is_taken)
    watched.things["greatest"] = Thing(expression=name, sign=1, bound=watched.high.greatest, is_taken=is_taken)
    add_taker(skeleton, watched, high.end, target[0] if target else None, name)


def add_regex(skeleton: Skeleton, watched: Watched) -> None:
    pattern, *target = watched.command.arguments
    name = skeleton.variable()
    length, lengths = b"STRLEN(%b)" % name, lengths_of(pattern)
    watched.low, watched.high = Range(lengths.least, lengths.least), Range(lengths.greatest, lengths.greatest)
    watched.things["least"] = Thing(expression=length, sign=-1, bound=lengths.least or 0)
    watched.things["greatest"] = Thing(expression=length, sign=1, bound=lengths.greatest)
    if lengths.least is not None and lengths.greatest is not None:
        watched.add_bound("low", b"%b!=%d" % (length, lengths.least), watched.low)
        watched.add_bound("high", b"%b!=%d" % (length, lengths.greatest), watched.high)
    alternatives = alternatives_of(pattern)
    for one in alternatives if len(alternatives) > 1 else []:
        watched.things[f"{WORD}{one.decode()}"] = Thing(test=b"%b!=%b" % (name, literal(one)))
    add_taker(skeleton, watched, pattern.end, target[0] if target else None, name)


def add_choice(skeleton: Skeleton, watched: Watched) -> None:
    command, block = watched.command, watched.block
    yes, no = watched.things["true"], watched.things["false"] = Thing(test=b"0!=0"), Thing(test=b"0!=0")
    skeleton.verbatim(command.offset)
    skeleton.put_all(watched.add_decisions(skeleton, None))
    skeleton.verbatim(command.head_end)
    skeleton.put_all([yes])
    skeleton.add_block(Block(command.body, lambda found: yes in found, block, [yes]))
    if command.otherwise is None:
        skeleton.verbatim(command.end - len("END"))
        skeleton.put_all([no], b" ELSE ")
    else:
        skeleton.verbatim(command.else_end)
        skeleton.put_all([no])
        skeleton.add_block(Block(command.otherwise, lambda found: no in found, block, [no]))


def add_loop(skeleton: Skeleton, watched: Watched) -> None:
    """A loop: of REP and REPI the count tells the turns before the first; of WHILE and WHILEI a variable of ours counts them."""
    command, is_counted = watched.command, watched.command.word.startswith("REP")
    turns = b"(%b)" % skeleton.source(command.arguments[-1]) if is_counted else skeleton.variable()
    one, more = Thing(test=turns + b"!=1"), Thing(test=turns + b"<=1")
    most = Thing(expression=turns, sign=1, bound=skeleton.range_of(command.arguments[-1]).greatest if is_counted else None)
    watched.things.update(none=Thing(test=turns + b"!=0"), one=one, more=more, most=most)
    things = list(watched.things.values())
    # (a separator comes between the test and the commands, and may change what the test is about)
    sides = [] if is_counted or command.separator else watched.add_decisions(skeleton, None)

    def unless_closed(text: bytes, telling: bytes = b"") -> Piece:
        return lambda copy, putter: copy.add(text + telling * putter.is_telling_turns) if any(putter.is_open(thing) for thing in things) else None

    skeleton.verbatim(command.offset)
    if is_counted:
        skeleton.put_all(things)
    else:
        skeleton.insert(unless_closed(b"SET(%b=0) " % turns, b"UNSET(%bf,%bl) " % (turns, turns)))
    if command.separator:
        between = Block([command.separator], lambda found: more in found, watched.block, [more])
        skeleton.add_separator(command.separator, between)
    skeleton.verbatim(command.head_end)
    if not is_counted:
        telling = b"IF(%b==1) SET(%bf=1) ELSE SET(%bl=1) END " % (turns, turns, turns)
        skeleton.insert(unless_closed(b" SET(%b=%b+1) " % (turns, turns), telling))
        skeleton.put_all([more, *sides])
    skeleton.add_block(Block(command.body, lambda found: one in found or more in found, watched.block, [one, more]))


def end_loop(skeleton: Skeleton, watched: Watched) -> None:
    if watched.command.word.startswith("WHILE"):
        skeleton.put_all([thing for name, thing in watched.things.items() if name != "more"])


def add_assertion(skeleton: Skeleton, watched: Watched) -> None:
    for effect in tight_comparisons(watched.command.arguments[0], skeleton.numbers):
        watched.things[f"{TIGHT}{text_of(skeleton, effect)}"] = skeleton.thing_of_effect(effect)
    watched.add_decisions(skeleton, True)


def end_assertion(skeleton: Skeleton, watched: Watched) -> None:
    skeleton.put_all(list(watched.things.values()))


Maker = Callable[[Skeleton, Watched], None]
MAKERS: dict[str, Maker] = {"INT": add_integer, "REGEX": add_regex, "IF": add_choice, "ASSERT": add_assertion, **{word: add_loop for word in LOOPS}}
ENDINGS: dict[str, Maker] = {"ASSERT": end_assertion, **{word: end_loop for word in LOOPS}}
