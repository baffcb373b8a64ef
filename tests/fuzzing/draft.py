"""Data that fit a program: the program is run, and writes what it asks for in place of taking it."""

from random import Random

from reference.characters import CharacterSet
from reference.data import BLANKS, Data
from reference.faults import Fault, LeftOut, Refused, Rejected
from reference.matching import Alternatives, OneOf, Pattern, Repetition, Sequence
from reference.run import Run
from reference.store import Store
from reference.tool import File, commands_of
from reference.words import Settings

MOST_BYTES = 200
MOST_STEPS = 300
LINE_FEED = b"\n"
TRIED_BYTES = [b"a", b"b", b"0", b" ", b"x", b"-", b"\n", b"\xc3\xa9", b"Z", b"_", b"\xff", b"\xe2\x82\xac", b"#", b"\t"]


class Draft(Data):
    """The data that a run writes. What tests ask of the next byte is decided by chance, and kept in mind."""

    def __init__(self, random: Random, blanks_may_differ: bool) -> None:
        super().__init__(b"")
        self.random = random
        self.blanks_may_differ = blanks_may_differ
        self.written = bytearray()
        self.wanted = b""
        self.unwanted = b""
        self.ended = False

    def write(self, content: bytes) -> None:
        """Writes these bytes. The run ends where there are too many, or where the data are at their end."""
        if content:
            if self.ended or len(self.written) > MOST_BYTES:
                raise Rejected("the draft ends")
            self.written += content
            self.taken = len(self.written)
            self.wanted = self.unwanted = b""

    def blanks(self, least: int) -> bytes:
        """Some blanks, for whitespace mode."""
        if self.random.random() < 0.7:
            return b" " * least
        return bytes(self.random.choice(BLANKS) for _ in range(least + self.random.randrange(3)))

    def is_at_end(self) -> bool:
        if not self.wanted and not self.ended:
            self.ended = self.random.random() < 0.3
        return self.ended

    def next_is_one_of(self, allowed: bytes) -> bool:
        if self.ended or not allowed:
            return False
        if not self.wanted:
            free = bytes(set(allowed) - set(self.unwanted))
            if not free or self.random.random() < 0.5:
                self.unwanted += allowed
                return False
            self.wanted = bytes([self.random.choice(sorted(free))])
        return self.wanted in allowed

    def skip_first_blanks(self) -> None:
        if self.blanks_may_differ:
            self.write(self.blanks(0))

    def take_end(self) -> None:
        if self.blanks_may_differ and not self.ended:
            self.write(self.blanks(0))
        self.ended = True

    def take_space(self) -> None:
        self.write(self.blanks(1) if self.blanks_may_differ else b" ")

    def take_newline(self) -> None:
        self.write(self.blanks(0) + LINE_FEED + self.blanks(0) if self.blanks_may_differ else LINE_FEED)

    def take_text(self, wanted: bytes) -> None:
        self.write(wanted)

    def take_integer(self, least: int, greatest: int) -> int:
        number = self.number(least, greatest)
        for _ in range(4):
            first = str(number)[0].encode()
            if first in self.unwanted or not first.startswith(self.wanted):
                number = self.number(least, greatest)
        # now and then blanks that are not skipped there
        strayed = self.blanks_may_differ and self.random.random() < 0.03
        self.write((self.blanks(1) if strayed else b"") + str(number).encode())
        return number

    def number(self, least: int, greatest: int) -> int:
        """A number between two bounds, if there is one."""
        if least > greatest:
            return least
        share = self.random.random()
        if share < 0.1:
            return least
        if share < 0.2:
            return greatest
        return self.random.randint(least, min(greatest, max(least, 0) + 12) if share < 0.6 else greatest)

    def take_match(self, pattern: Pattern) -> bytes:
        found = self.match(pattern)
        for _ in range(3):
            if found and (found[:1] in self.unwanted or not found.startswith(self.wanted)):
                found = self.match(pattern)
        self.write(found)
        return found

    def match(self, pattern: Pattern) -> bytes:
        """What a pattern may match."""
        match pattern:
            case Sequence(parts):
                return b"".join([self.match(part) for part in parts])
            case Alternatives(alternatives):
                return self.match(self.random.choice(alternatives))
            case Repetition(part, least, most, _):
                count = least + self.random.choice((0, 1, 1, 2, 3))
                return b"".join([self.match(part) for _ in range(count if most is None else min(count, most))])
            case OneOf(members):
                return self.member(members)
        return b""

    def member(self, members: CharacterSet) -> bytes:
        """A member of a set, if one is found."""
        if members.ranges and not members.negated:
            code = self.random.randint(*self.random.choice(members.ranges))
            return bytes([code]) if members.bytewise else chr(code).encode()
        tried = self.random.choice(TRIED_BYTES)
        for _ in range(4):
            if members.end(tried, 0) == len(tried):
                break
            tried = self.random.choice(TRIED_BYTES)
        return tried


def fitting_data(random: Random, program: bytes, settings: Settings) -> tuple[bytes, int]:
    """Data that mostly fit a program, and the number of steps that writing them took; none if the program is refused."""
    draft, run, _ = drafted(random, program, settings)
    return bytes(draft.written), MOST_STEPS - run.steps_left


def whole_data(random: Random, program: bytes, settings: Settings) -> bytes | None:
    """Data that fit a program; None where these turn out to be none."""
    draft, _, is_whole = drafted(random, program, settings)
    return bytes(draft.written) if is_whole else None


def drafted(random: Random, program: bytes, settings: Settings) -> tuple[Draft, Run, bool]:
    """What a run of a program writes, and whether it comes to the end."""
    draft = Draft(random, settings.whitespace_ok)
    run = Run(Store(settings.presets), draft, MOST_STEPS)
    try:
        run.whole(commands_of(File(program)))
    except (Fault, LeftOut, Refused):
        return draft, run, False
    return draft, run, True


def changed_data(random: Random, data: bytes) -> bytes:
    """These data with one or two changes."""
    changed = bytearray(data)
    for _ in range(random.choice((1, 1, 2))):
        at = random.randrange(len(changed) + 1)
        match random.randrange(8):
            case 0:
                del changed[at : at + 1]
            case 1 | 2:
                changed[at:at] = random.choice(INSERTED)
            case 3:
                changed[at : at + 1] = random.choice(INSERTED)
            case 4:
                del changed[at:]
            case 5:
                changed[at:at] = changed[max(at - 4, 0) : at]
            case 6:
                changed += random.choice(INSERTED)
            case 7:
                changed[at : at + 1] = bytes([random.randrange(256)])
    return bytes(changed)


INSERTED = [
    b" ", b" ", b"\n", b"\n", b"0", b"-", b"1", b"9", b"a", b"  ", b"\t", b"\r", b"\v\f", b"-0", b"00",
    b"12345678901234567890" * 3, b"\xff", b"\xc3",
]
