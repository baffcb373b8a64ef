"""Puts what the built ctd-lint says of every accepted file into the programs of generated cases, as assertions, and sees that none rejects its data."""

from collections.abc import Sequence
from dataclasses import dataclass, field, replace

from guaranteed import Said, asserted, guarantees_in, is_of_all

from .case import Case
from .checker import Checker
from .verdicts import Linter, case_to_compare

# What the checker says where a run takes too many steps, which assertions add to.
TOO_MANY_STEPS = b"step limit"


@dataclass
class Asserted:
    """How many lines were put into programs, which cases have one that rejects its data, and how many lines are not of all values of their names."""

    lines: int = 0
    left_out: int = 0
    wrong: list[int] = field(default_factory=list)

    def add(self, other: "Asserted") -> None:
        self.lines += other.lines
        self.left_out += other.left_out
        self.wrong += other.wrong


def lines_of(case: Case, checker: Checker, linter: Linter) -> list[Said]:
    """What is said of every file that is accepted, if the data of the case are."""
    if case.program is None or checker.answer(case).status != 0:
        return []
    return guarantees_in(linter.output(case, "--guarantees"))


def is_wrong(case: Case, lines: list[Said], checker: Checker) -> bool:
    """Whether the data of a case are not accepted once these lines are put into its program."""
    program = asserted((case.program or b"").decode("latin-1"), lines).encode("latin-1")
    answer = checker.answer(replace(case, program=program))
    return answer.status != 0 and TOO_MANY_STEPS not in answer.err


def complaints_of(case: Case, checker: Checker, linter: Linter) -> list[str]:
    """The lines that are not so."""
    lines = [said for said in lines_of(case, checker, linter) if is_of_all(said)]
    return [f"not so: {said['text']}" for said in lines if is_wrong(case, [said], checker)]


def assert_all(checker: Checker, linter: Linter, seed: int, numbers: Sequence[int]) -> Asserted:
    """Puts the lines into the programs of the cases of these numbers."""
    found = Asserted()
    for number in numbers:
        case = case_to_compare(seed, number)
        all_lines = lines_of(case, checker, linter)
        lines = [said for said in all_lines if is_of_all(said)]
        found.lines += len(lines)
        found.left_out += len(all_lines) - len(lines)
        if lines and is_wrong(case, lines, checker):
            found.wrong.append(number)
    return found
