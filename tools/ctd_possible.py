"""Whether what is watched in a program can happen where data fit. A copy of the program, the one in which files are asked for it, gives a name of its own
a value where it happens, and reads that name at its end: where ctd-lint proves that no run passes this, it cannot happen."""
from __future__ import annotations

from collections.abc import Iterable
from dataclasses import dataclass, field

from ctd_asked import Linter, Told
from ctd_coverage import Skeleton, Thing
from ctd_questions import Copy, Question, place_at


@dataclass(frozen=True)
class Noting:
    """Puts into a copy that a thing is noted where it happens."""

    thing: Thing
    note: bytes
    counter: None = None
    is_telling_turns: bool = True

    def is_open(self, thing: Thing) -> bool:
        return thing is self.thing

    def put(self, copy: Copy, thing: Thing) -> None:
        if thing is self.thing:
            copy.add(b"IF(!(%b)) SET(%b=1) END " % (thing.test, self.note))


# What of a test never happens where a thing with a name cannot.
EVENTS = {"true": ("is-true",), "false": ("is-false",), "one": ("is-true",), "more": ("is-true",)}


@dataclass
class Possible:
    """What can happen in a program, of which ctd-lint has told something. What is called impossible is proved to be so in the program, or in a copy; of
    the rest some may be impossible too."""

    skeleton: Skeleton
    linter: Linter
    told: Told
    known: dict[Thing, bool] = field(default_factory=dict)

    def can_be(self, thing: Thing) -> bool:
        if thing not in self.known:
            self.ask_all([thing])
        return self.known[thing]

    def ask_all(self, things: Iterable[Thing]) -> None:
        """Asks for all of some things at once."""
        open_things = [thing for thing in dict.fromkeys(things) if thing not in self.known]
        self.known.update((thing, False) for thing in open_things if self.is_never(thing))
        rest = [thing for thing in open_things if thing not in self.known]
        room = max(0, self.linter.room(self.skeleton.text) - len(self.known))
        self.known.update((thing, True) for thing in rest[room:])
        asked = [self.copy(thing) for thing in rest[:room]]
        for (thing, copy, end), told in zip(asked, self.linter.tell([bytes(copy.text) for _, copy, _ in asked])):
            self.known[thing] = not told.is_never(copy.place_of(end))

    def is_never(self, thing: Thing) -> bool:
        """Whether the program shows itself that a thing cannot happen."""
        if not self.told.never:
            return False
        watched, name = self.skeleton.owners[thing]
        return self.told.is_never(place_at(self.skeleton.text, watched.command.offset), *EVENTS.get(name, ()))

    def copy(self, thing: Thing) -> tuple[Thing, Copy, Question]:
        """The copy that notes a thing, and what stands at its end."""
        note = self.skeleton.fresh + b"p"
        copy, end = self.skeleton.copy(Noting(thing, note)), Question(b"SET(%b=%b)" % (note, note))
        # (a comment may be the last line)
        copy.add(b"\n")
        copy.ask(end)
        return thing, copy, end
