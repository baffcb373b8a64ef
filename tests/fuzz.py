#!/usr/bin/env python3
"""Compares the built checker with the reference (tests/reference) on generated cases: both streams and the status.

A case depends on its seed and its number alone. Cases for which the reference has no answer are left out, such as patterns of which it
knows nothing. A case with two answers is made smaller and printed. The last line counts the cases with one answer, as passed, and the
others.

    tests/fuzz.py --count 100000 --seed 1     the first 100,000 cases of seed 1; --first N begins with number N
    tests/fuzz.py --seed 1 --case 4711        one case, as it stands
    tests/fuzz.py --self-test                 sees that each of ten wrong bodies in the reference makes a difference

With --verdicts it compares the built checker with the built ctd-lint: each fault of a value by which a run stops has to be told, as a trap
at its place, and no such run may be of a program of which ctd-lint says that every data file gets a verdict. Of each eight programs one fills arrays
and reads them. The last line counts the faults that are told, as passed, and the others. With --self-test too it sees that a report without the lines
of a kind is complained of.

With --findings it holds what ctd-lint finds against the runs of the reference: variables that count for nothing, commands that no run begins or
passes, and tests that are never true or never false. The last line counts such findings, as passed, and the cases with a wrong one. With --self-test
too it sees that wrong ones are complained of.

With --guarantees it puts what ctd-lint says of every accepted file into the programs of cases whose data are accepted, as assertions: none may reject
them. The last line counts the lines that were put, as passed, and the cases with a wrong one.

With --impossible it holds what ctd-cover calls impossible, and the ranges that it knows, against runs of the built checker on data that fit. Of each
four programs two compute with variables that may have no value, and one fills arrays. The last line counts the runs, as passed, and the programs in
which something impossible happens. With --self-test too it sees that wrong claims are complained of."""
import argparse
import multiprocessing
import os
import re
import sys
import tempfile
from collections.abc import Iterator, Sequence
from contextlib import contextmanager
from dataclasses import dataclass, field
from pathlib import Path

from fuzzing.case import Case
from fuzzing.cases import case_of
from fuzzing.checker import Checker
from fuzzing.findings import IDLE_KINDS, NEVER, Held, hold, wrong_claims_seen
from fuzzing.findings import complaints_of as complaints_of_findings
from fuzzing.guarantees import Asserted, assert_all
from fuzzing.guarantees import complaints_of as complaints_of_guarantees
from fuzzing.possible import KINDS as KINDS_OF_THINGS
from fuzzing.possible import RANGE, Tried, cases_to_try, try_all
from fuzzing.possible import complaints_of as complaints_of_possible
from fuzzing.possible import wrong_claims_seen as wrong_possible_seen
from fuzzing.shrink import shrink
from fuzzing.verdicts import Comparison, Linter, case_to_compare, complaints_of, wrong_reports_seen
from fuzzing.verdicts import compare as compare_verdicts
from reference.faults import LeftOut
from reference.syntax import printed_grammar
from reference.tool import Answer
from reference.wrong_bodies import WRONG_BODIES, WrongBody
from results import BUILT, BUILT_LINTER, print_counts
from traps_told import TRAP_KINDS

CASES_OF_SELF_TEST = 20_000
# The words of the language, and those in a text.
WORD = re.compile(rb"[A-Z]+")
WORDS = {word.encode() for word in re.findall('"([A-Z]+)"', printed_grammar())}
MOST_PRINTED = 10
# So many cases have faults of each kind.
MANY_CASES = 2_000


@dataclass
class Summary:
    """How many cases had one answer, how many were left out, the numbers of those with two answers, and the words in the programs."""

    passed: int = 0
    left_out: int = 0
    differing: list[int] = field(default_factory=list)
    words: set[bytes] = field(default_factory=set)

    def add(self, other: "Summary") -> None:
        self.passed += other.passed
        self.left_out += other.left_out
        self.differing += other.differing
        self.words |= other.words


@contextmanager
def checker_in_folder(program: Path) -> Iterator[Checker]:
    """The checker, with a folder that is in memory where there is one."""
    memory = Path("/dev/shm")
    with tempfile.TemporaryDirectory(dir=memory if memory.is_dir() else None) as folder:
        yield Checker(program, Path(folder))


def answers(case: Case, checker: Checker) -> tuple[Answer, Answer] | None:
    """The answers of the reference and of the checker, or none where the case is left out."""
    try:
        return case.reference_answer(), checker.answer(case)
    except LeftOut:
        return None


def differs(case: Case, checker: Checker) -> bool:
    found = answers(case, checker)
    return found is not None and found[0] != found[1]


def compare(program: Path, seed: int, numbers: Sequence[int]) -> Summary:
    """Compares the answers for the cases of these numbers."""
    summary = Summary()
    with checker_in_folder(program) as checker:
        for number in numbers:
            case = case_of(seed, number)
            summary.words.update(WORD.findall(case.program or b""))
            found = answers(case, checker)
            if found is None:
                summary.left_out += 1
            elif found[0] == found[1]:
                summary.passed += 1
            else:
                summary.differing.append(number)
    return summary


def compare_all(program: Path, seed: int, numbers: range, jobs: int) -> Summary:
    """Compares the answers for the cases of these numbers, in this many processes."""
    if jobs == 1:
        return compare(program, seed, numbers)
    summary = Summary()
    with multiprocessing.Pool(jobs) as pool:
        for part in pool.starmap(compare, [(program, seed, numbers[job::jobs]) for job in range(jobs)]):
            summary.add(part)
    return summary


def print_case(case: Case, checker: Checker) -> None:
    """Prints a case and its answers."""
    print(case)
    found = answers(case, checker)
    if found is None:
        print("left out")
    else:
        for name, answer in zip(("reference", "checker"), found):
            print(f"{name:10} status {answer.status}, out {answer.out!r}, err {answer.err!r}")


def processor_seconds() -> float:
    """The time that this process and its children had a processor."""
    spent = os.times()
    return spent.user + spent.system + spent.children_user + spent.children_system


def fuzz(program: Path, seed: int, numbers: range, jobs: int) -> int:
    """Compares cases and prints those with two answers. Of many cases some have to have each word of the language."""
    start = processor_seconds()
    summary = compare_all(program, seed, numbers, jobs)
    rate = len(numbers) / (processor_seconds() - start)
    with checker_in_folder(program) as checker:
        for number in sorted(summary.differing)[:MOST_PRINTED]:
            print(f"fuzz: case {number} of seed {seed} has two answers; made smaller:")
            print_case(shrink(case_of(seed, number), lambda case: differs(case, checker)), checker)
    print(f"fuzz: {rate:.0f} cases a second of a processor; {summary.left_out} were left out")
    missing = sorted(WORDS - summary.words) if len(numbers) >= MANY_CASES else []
    for word in missing:
        print(f"fuzz: no program has the word {word.decode()}")
    return print_counts(summary.passed, len(summary.differing) + len(missing))


def makes_a_difference(wrong: WrongBody, case: Case, right: Answer) -> bool:
    """Whether a wrong body in the reference changes its answer."""
    try:
        with wrong.plant():
            return case.reference_answer() != right
    except LeftOut:
        return False


def self_test(program: Path, seed: int) -> int:
    """Counts the wrong bodies that make a difference in some case."""
    missing = [*WRONG_BODIES]
    with checker_in_folder(program) as checker:
        for number in range(CASES_OF_SELF_TEST):
            case = case_of(seed, number)
            found = answers(case, checker)
            if found is None or found[0] != found[1]:
                continue
            for wrong in [wrong for wrong in missing if makes_a_difference(wrong, case, found[1])]:
                print(f"fuzz: {wrong.name}: seen by case {number}")
                missing.remove(wrong)
            if not missing:
                break
    for wrong in missing:
        print(f"fuzz: {wrong.name}: not seen by {CASES_OF_SELF_TEST} cases")
    return print_counts(len(WRONG_BODIES) - len(missing), len(missing))


def compare_part(program: Path, linter: Path, seed: int, numbers: Sequence[int]) -> Comparison:
    """Compares the faults of values of the cases of these numbers with what ctd-lint tells."""
    with checker_in_folder(program) as checker:
        return compare_verdicts(checker, Linter(linter), seed, numbers)


def fuzz_verdicts(program: Path, linter: Path, seed: int, numbers: range, jobs: int) -> int:
    """Compares faults of values with what ctd-lint tells, and prints cases with one that it leaves out. Of many cases some have to have each kind."""
    found = Comparison()
    with multiprocessing.Pool(jobs) as pool:
        for part in pool.starmap(compare_part, [(program, linter, seed, numbers[job::jobs]) for job in range(jobs)]):
            found.add(part)
    with checker_in_folder(program) as checker:
        for number in sorted(found.untold)[:MOST_PRINTED]:
            case = shrink(case_to_compare(seed, number), lambda case: bool(complaints_of(case, checker, Linter(linter))))
            print(f"fuzz: case {number} of seed {seed} has a fault that is not told; made smaller:\n{case}")
            print("\n".join(complaints_of(case, checker, Linter(linter))))
    missing = [kind for kind in TRAP_KINDS if kind not in found.kinds] if len(numbers) >= MANY_CASES else []
    for kind in missing:
        print(f"fuzz: no fault is of the kind {kind}")
    for counts in (found.programs, found.kinds):
        print("fuzz: " + ", ".join(f"{name}: {count}" for name, count in sorted(counts.items())))
    return print_counts(found.kinds.total() - len(found.untold), len(found.untold) + len(missing))


def hold_part(program: Path, linter: Path, seed: int, numbers: Sequence[int]) -> Held:
    """Holds what ctd-lint finds in the programs of the cases of these numbers against their runs."""
    with checker_in_folder(program):
        return hold(Linter(linter), seed, numbers)


def fuzz_findings(program: Path, linter: Path, seed: int, numbers: range, jobs: int) -> int:
    """Holds findings against runs, and prints cases with a wrong one. Of many cases some have to have each kind."""
    held = Held()
    with multiprocessing.Pool(jobs) as pool:
        for part in pool.starmap(hold_part, [(program, linter, seed, numbers[job::jobs]) for job in range(jobs)]):
            held.add(part)
    with checker_in_folder(program):
        for number in sorted(held.wrong)[:MOST_PRINTED]:
            case = shrink(case_of(seed, number), lambda case: bool(complaints_of_findings(case, Linter(linter))))
            print(f"fuzz: case {number} of seed {seed} has a wrong finding; made smaller:\n{case}")
            print("\n".join(complaints_of_findings(case, Linter(linter))))
    missing = [kind for kind in (*IDLE_KINDS, *NEVER) if kind not in held.kinds] if len(numbers) >= MANY_CASES else []
    for kind in missing:
        print(f"fuzz: no finding is of the kind {kind}")
    print("fuzz: " + ", ".join(f"{name}: {count}" for name, count in sorted(held.kinds.items())))
    return print_counts(held.kinds.total(), len(held.wrong) + len(missing))


def assert_part(program: Path, linter: Path, seed: int, numbers: Sequence[int]) -> Asserted:
    """Puts what ctd-lint says into the programs of the cases of these numbers."""
    with checker_in_folder(program) as checker:
        return assert_all(checker, Linter(linter), seed, numbers)


def fuzz_guarantees(program: Path, linter: Path, seed: int, numbers: range, jobs: int) -> int:
    """Puts what ctd-lint says into programs, and prints cases with a line that is not so."""
    found = Asserted()
    with multiprocessing.Pool(jobs) as pool:
        for part in pool.starmap(assert_part, [(program, linter, seed, numbers[job::jobs]) for job in range(jobs)]):
            found.add(part)
    with checker_in_folder(program) as checker:
        for number in sorted(found.wrong)[:MOST_PRINTED]:
            case = shrink(case_to_compare(seed, number), lambda case: bool(complaints_of_guarantees(case, checker, Linter(linter))))
            print(f"fuzz: case {number} of seed {seed} has a line that is not so; made smaller:\n{case}")
            print("\n".join(complaints_of_guarantees(case, checker, Linter(linter))))
    print(f"fuzz: {found.left_out} lines are not of all values of their names, and were left out")
    return print_counts(found.lines, len(found.wrong))


def try_part(program: Path, linter: Path, seed: int, numbers: Sequence[int]) -> Tried:
    """Holds what is called impossible in the programs of these numbers against runs."""
    with checker_in_folder(program) as checker:
        return try_all(checker, linter, seed, numbers)


def fuzz_impossible(program: Path, linter: Path, seed: int, numbers: range, jobs: int) -> int:
    """Holds what is called impossible against runs, and prints cases in which it happens. Of many programs some have to have each kind."""
    tried = Tried()
    with multiprocessing.Pool(jobs) as pool:
        for part in pool.starmap(try_part, [(program, linter, seed, numbers[job::jobs]) for job in range(jobs)]):
            tried.add(part)
    with checker_in_folder(program) as checker:
        for number in sorted(tried.wrong)[:MOST_PRINTED]:
            wrong = next(case for case in cases_to_try(seed, number) if complaints_of_possible(case, checker, linter))
            case = shrink(wrong, lambda case: bool(complaints_of_possible(case, checker, linter)))
            print(f"fuzz: in case {number} of seed {seed} something impossible happens; made smaller:\n{case}")
            print("\n".join(complaints_of_possible(case, checker, linter)))
    missing = [kind for kind in (*KINDS_OF_THINGS, RANGE) if kind not in tried.kinds] if len(numbers) >= MANY_CASES else []
    for kind in missing:
        print(f"fuzz: nothing impossible is of the kind {kind}")
    print("fuzz: " + ", ".join(f"{kind.rstrip(': ')}: {count}" for kind, count in sorted(tried.kinds.items())))
    return print_counts(tried.runs, len(tried.wrong) + len(missing))


def count_seen(wrong: Iterator[tuple[str, int | None]]) -> int:
    """Counts the wrong claims that are complained of in some case."""
    passed = failed = 0
    for name, number in wrong:
        print(f"fuzz: {name}: " + (f"not seen by {CASES_OF_SELF_TEST} cases" if number is None else f"seen by case {number}"))
        passed, failed = passed + (number is not None), failed + (number is None)
    return print_counts(passed, failed)


def self_test_of(given: argparse.Namespace, program: Path, linter: Path) -> int:
    """Sees that what is wrong is complained of."""
    with checker_in_folder(program) as checker:
        if given.verdicts:
            return count_seen(wrong_reports_seen(checker, Linter(linter), given.seed, CASES_OF_SELF_TEST))
        if given.findings:
            return count_seen(wrong_claims_seen(given.seed, CASES_OF_SELF_TEST))
        if given.impossible:
            return count_seen(wrong_possible_seen(checker, given.seed, CASES_OF_SELF_TEST))
    return self_test(program, given.seed)


def main() -> int:
    parser = argparse.ArgumentParser(description=__doc__, formatter_class=argparse.RawDescriptionHelpFormatter)
    parser.add_argument("checker", nargs="?", type=Path, default=BUILT, help="the checker (default: the one that was built here)")
    parser.add_argument("--count", type=int, default=2_000, help="how many cases")
    parser.add_argument("--seed", type=int, default=1)
    parser.add_argument("--first", type=int, default=0, help="the number of the first case")
    parser.add_argument("--jobs", type=int, default=1, help="how many processes")
    parser.add_argument("--case", type=int, help="prints the case of this number and its answers")
    parser.add_argument("--self-test", action="store_true", help="looks for wrong bodies in the reference")
    parser.add_argument("--verdicts", action="store_true", help="compares the checker with ctd-lint")
    parser.add_argument("--findings", action="store_true", help="holds what ctd-lint finds against runs")
    parser.add_argument("--guarantees", action="store_true", help="puts what ctd-lint says of accepted files into programs")
    parser.add_argument("--impossible", action="store_true", help="holds what ctd-cover calls impossible against runs")
    parser.add_argument("--linter", type=Path, default=BUILT_LINTER, help="the ctd-lint (default: the one that was built here)")
    given = parser.parse_args()
    program, linter = given.checker.resolve(), given.linter.resolve()
    for needed in [program, *([linter] if given.verdicts or given.findings or given.guarantees or given.impossible else [])]:
        if not needed.is_file():
            parser.error(f"there is no {needed}: make build makes it")
    numbers = range(given.first, given.first + given.count)
    if given.self_test:
        return self_test_of(given, program, linter)
    if given.verdicts:
        return fuzz_verdicts(program, linter, given.seed, numbers, given.jobs)
    if given.findings:
        return fuzz_findings(program, linter, given.seed, numbers, given.jobs)
    if given.guarantees:
        return fuzz_guarantees(program, linter, given.seed, numbers, given.jobs)
    if given.impossible:
        return fuzz_impossible(program, linter, given.seed, numbers, given.jobs)
    if given.case is None:
        return fuzz(program, given.seed, numbers, given.jobs)
    with checker_in_folder(program) as checker:
        print_case(case_of(given.seed, given.case), checker)
    return 0


if __name__ == "__main__":
    sys.exit(main())
