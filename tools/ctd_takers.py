"""What a command of a program takes its bytes behind: INTs of which no digit or minus stands before their number."""
from __future__ import annotations

from collections.abc import Sequence
from dataclasses import dataclass, field
from typing import FrozenSet

from ctd_program import Command
from ctd_trees import DEEDS, LOOPS, Taken, all_commands

BLANK, OTHER = "a blank", "anything else"


Before = FrozenSet[str]


def parted_integers(commands: Sequence[Command]) -> set[Command]:
    """The INTs before which a SPACE or a NEWLINE took something, or nothing did: what they take begins behind a blank, or at the start."""
    takers = Takers()
    takers.behind_all(commands, frozenset())
    return {command for command in all_commands(commands) if command.word == "INT"} - takers.unparted


@dataclass
class Takers:
    """What may have been taken last behind a command, by what it may have been before it; and the INTs that are not parted."""

    known: dict[tuple[Command, Before], Before] = field(default_factory=dict)
    unparted: set[Command] = field(default_factory=set)

    def behind_all(self, commands: Sequence[Command], before: Before) -> Before:
        for command in commands:
            if (command, before) not in self.known:
                self.known[command, before] = self.behind(command, before)
            before = self.known[command, before]
        return before

    def behind(self, command: Command, before: Before) -> Before:
        takes = DEEDS[command.word].takes
        if takes is Taken.BLANK:
            return frozenset({BLANK})
        if takes is Taken.INTEGER:
            if OTHER in before:
                self.unparted.add(command)
            return frozenset({OTHER})
        if takes is Taken.STRING:
            return before | {OTHER}
        if command.word == "IF":
            return self.behind_all(command.body, before) | self.behind_all(command.otherwise or [], before)
        if command.word in LOOPS:
            turn = [command.separator, *command.body] if command.separator else command.body
            behind = self.behind_all(command.body, before)
            # what a turn may find before it grows at most twice, since there are two things to be taken
            for _ in range(2):
                behind |= self.behind_all(turn, behind)
            return before | behind
        return before
