#!/usr/bin/env python3
"""How much of the data ctd-cover and ctd-show have the checker read, on large data for programs as juries write them: counts that do not depend on the
machine. A run counts as the part of the data that it reads, up to the place that its answer names, and where a file is read without the checker that
counts as one whole run.

The last line counts what passed and failed. usage: tests/cover_runs.py [PROGRAM]"""
from __future__ import annotations

import sys
from random import Random
from unittest import mock

from companions import CompanionTest
from results import TOP, checker_to_test, run_unit_tests

sys.path.insert(0, str(TOP / "tools"))
import ctd_untried  # noqa: E402
from ctd_companion import Checker, DataFile, open_data  # noqa: E402
from ctd_guesses import Reading  # noqa: E402
from ctd_questions import offset_at  # noqa: E402
from ctd_values import told_of_fault  # noqa: E402

CHECKER = str(checker_to_test())
# How many checks' worth of the data may be read, and in how many runs.
MOST_CHECKS, MOST_RUNS = 6, 12

# 27 commands that take data, and 4 that do not; neither bound of most numbers is ever taken.
TOURNAMENT = """INT(1,100,t) NEWLINE
REPI(c,t)
  INT(2,2000,n) SPACE INT(1,20000,g) NEWLINE
  REPI(i,n) REGEX("[A-Z]{2,3}",country) SPACE INT(0,3000,rating[i]) SPACE INT(1,n,seed[i]) NEWLINE END
  REPI(j,g)
    INT(1,n,a) SPACE INT(1,n,b) SPACE INT(0,99,sa) STRING(":") INT(0,99,sb)
    ASSERT(a!=b)
    IF(sa==sb) SPACE REGEX("pen|draw",how) IF(how=="pen") SPACE INT(0,20,pa) STRING("-") INT(0,20,pb) ASSERT(pa!=pb) END END
    IF(sa>sb+50 || sb>sa+50) SPACE STRING("!") END
    NEWLINE
  END
  INT(1,n,winner) SPACE INT(0,1000000,prize) SPACE INT(0,prize,second) NEWLINE
  ASSERT(second*2<=prize || prize==0)
  UNSET(rating,seed)
END
"""


def tournament(random: Random) -> str:
    """A test case: players, games and prizes."""
    number = random.randint
    players, games = number(2, 900), number(500, 2500)
    lines = [f"{players} {games}"]
    lines += [f"{''.join(random.choices('ABCDE', k=number(2, 3)))} {number(3, 2950)} {number(1, players)}" for _ in range(players)]
    for _ in range(games):
        first, home, away = number(1, players), number(1, 97), number(1, 96)
        penalties = number(1, 17)
        end = random.choice((" draw", f" pen {penalties}-{penalties + 1}")) if home == away else " !" if abs(home - away) > 50 else ""
        lines.append(f"{first} {first % players + 1} {home}:{away}{end}")
    prize = number(100, 990_000)
    return "\n".join([*lines, f"{number(1, players)} {prize} {number(0, prize // 2)}\n"])


class Runs(CompanionTest):
    """What is read of the data by all runs together."""

    def counting(self, program: str, data: str) -> tuple[Checker, list[float]]:
        """A checker of a program, and the list of what its runs read."""
        self.write("p.ctd", program)
        self.write("1.in", data)
        parts: list[float] = []
        check, guesses = Checker.check_file, Reading.guesses

        def counted_check(checker: Checker, *given: object) -> object:
            answer, file = check(checker, *given)  # type: ignore[arg-type]
            parts.append(offset_at(data.encode(), answer.in_data) / len(data) if answer.in_data else 1)
            return answer, file

        def counted_guesses(reading: Reading, content: bytes) -> object:
            parts.append(1)
            return guesses(reading, content)

        for owner, name, counted in ((Checker, "check_file", counted_check), (Reading, "guesses", counted_guesses)):
            patch = mock.patch.object(owner, name, counted)
            patch.start()
            self.addCleanup(patch.stop)
        return Checker(CHECKER, str(self.folder / "p.ctd")), parts

    def assert_few(self, parts: list[float]) -> None:
        self.assertLessEqual(sum(parts), MOST_CHECKS, [round(part, 3) for part in parts])
        self.assertLessEqual(len(parts), MOST_RUNS)

    def assert_covered(self, program: str, data: str) -> list[str]:
        """That few runs find what data do not try of a program; gives what is said."""
        checker, parts = self.counting(program, data)
        for is_whole in (False, True):
            parts.clear()
            coverage = ctd_untried.cover(checker, [DataFile(str(self.folder / "1.in"))], 2, is_whole)
            self.assertEqual((coverage.misfits, coverage.files), ([], 1))
            self.assert_few(parts)
        return [line.partition(": note: ")[2] for line in ctd_untried.notes("p.ctd", ctd_untried.rows(coverage))]

    def test_numbers_in_any_order(self) -> None:
        numbers = [(number * 7919 + 13) % 99_991 + 1 for number in range(40_000)]
        told = self.assert_covered("REP(40000) INT(0,999999) NEWLINE END", "".join(f"{number}\n" for number in numbers))
        least, greatest = min(numbers), max(numbers)
        spots = ", ".join(f"{self.folder}/1.in:{numbers.index(one) + 1}:1" for one in (least, greatest))
        self.assertEqual(told, [f"INT: took {least}..{greatest} of 0..999999: neither bound is ever taken ({spots})"])

    def test_numbers_that_rise(self) -> None:
        lines = "".join(f"{3 * number + 5} {9 * number + 7}\n" for number in range(30_000))
        self.assert_covered("INT(1,99999,n) NEWLINE REPI(i,n) INT(0,999999,a[i]) SPACE INT(0,999999,b[i]) NEWLINE END", f"30000\n{lines}")

    def test_a_program_of_many_commands(self) -> None:
        random = Random(1)
        self.assert_covered(TOURNAMENT, "20\n" + "".join(tournament(random) for _ in range(20)))

    def test_the_values_at_the_end_of_large_data(self) -> None:
        random = Random(2)
        data = "60\n" + "".join(tournament(random) for _ in range(60))
        self.assertGreater(len(data), 1 << 20)
        lines = data.splitlines()
        checker, parts = self.counting(TOURNAMENT, "\n".join([*lines[:-1], "9999999 1 0\n"]))
        with open_data(str(self.folder / "1.in")) as file:
            answer, _ = checker.check_file(file)
            told = told_of_fault(checker, answer, file, 0).lines
        self.assertEqual((answer.message, answer.in_data and answer.in_data.line), ("value out of range", len(lines)))
        self.assertEqual(len(told), 1)
        self.assertRegex(told[0], r"^value out of range: 9999999; bounds 1 \.\. n = [0-9]+$")
        self.assert_few(parts)


if __name__ == "__main__":
    sys.exit(run_unit_tests("cover_runs"))
