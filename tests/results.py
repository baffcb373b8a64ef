"""What the tests of the built checker share: the checker that they run, and how they say what passed."""
import sys
import unittest
from collections.abc import Iterable, Sequence
from pathlib import Path

TOP = Path(__file__).resolve().parent.parent
BUILT = TOP / "crates/checktestdata/out/checktestdata"
BUILT_LINTER = TOP / "crates/ctd_lint/out/ctd_lint"


def checker_to_test() -> Path:
    """The checker that the command line names first, or else the one that was built here."""
    return program_to_test(1, BUILT)


def linter_to_test() -> Path:
    """The ctd-lint that the command line names second, or else the one that was built here."""
    return program_to_test(2, BUILT_LINTER)


def program_to_test(word: int, built: Path) -> Path:
    """The program that this word of the command line names, or else the one that was built here."""
    program = Path(sys.argv[word]).resolve() if len(sys.argv) > word else built
    if not program.is_file():
        sys.exit(f"there is no {program}: make build makes it")
    return program


def print_results(test: str, results: Iterable[tuple[str, Sequence[str]]]) -> int:
    """Prints the faults of each result, and as the last line how many results had none, and how many had some. Gives the status."""
    passed = failed = 0
    for what, faults in results:
        passed, failed = passed + (not faults), failed + bool(faults)
        for fault in faults:
            print(f"{test}: {what}: {fault}")
    return print_counts(passed, failed)


def run_unit_tests(test: str, suite: unittest.TestSuite | None = None) -> int:
    """Runs unit tests, by default those of the program, says which are left out, and prints the counts as the last line. Gives the status."""
    suite = suite or unittest.defaultTestLoader.loadTestsFromModule(sys.modules["__main__"])
    outcome = unittest.TextTestRunner(verbosity=0).run(suite)
    for left_out, reason in outcome.skipped:
        print(f"{test}: left out {left_out.id().removeprefix('__main__.')}: {reason}")
    failed = len({case.id().partition(" ")[0] for case, _ in outcome.failures + outcome.errors})
    return print_counts(outcome.testsRun - failed - len(outcome.skipped), failed)


def print_counts(passed: int, failed: int) -> int:
    """Prints the last line of a test. Gives the status."""
    print(f"{passed} passed, {failed} failed")
    return int(failed > 0)
