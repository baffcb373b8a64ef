#!/usr/bin/env python3
"""Compares the limits of statements with the bounds of programs and flags, as ctd-package does: statements in several notations, and what is told
of a package of which the two differ. The answers were worked out by hand.

The last line counts what passed and failed. usage: tests/statement.py [PROGRAM]"""
from __future__ import annotations

import importlib.util
import json
import sys
import unittest
from pathlib import Path

from companions import TOOLS, CompanionTest
from results import run_unit_tests

sys.path.insert(0, str(TOOLS))
from ctd_limits import statement_in  # noqa: E402
from ctd_problem import package_in  # noqa: E402
from ctd_statement import differences, numbers_in  # noqa: E402

PROGRAM = "SET(maxn=100000)\nINT(1,maxn,n) NEWLINE\nREP(n,SPACE) INT(-1000000000,1000000000) END NEWLINE\n"
RIGHT = "1\n5\n"


class PackageTest(CompanionTest):
    tool = "ctd-package"

    def put(self, files: dict[str, str]) -> Path:
        """Writes files below the folder of the package, which it gives."""
        for name, text in {"input_validators/n.ctd": PROGRAM, "data/sample/1.in": RIGHT, **files}.items():
            path = self.folder / "p" / name
            path.parent.mkdir(parents=True, exist_ok=True)
            path.write_text(text)
        return self.folder / "p"


class Limits(PackageTest):
    def limits(self, text: str, name: str = "problem.tex") -> list[int]:
        (self.folder / name).write_text(text)
        return [limit.value for limit in statement_in(self.folder, Path(name)).limits]

    def test_notations(self) -> None:
        for text, wanted in [
            (r"$1 \leq n \leq 10^5$", [1, 100000]),
            (r"$1 \le n \le 10^{5}$", [1, 100000]),
            (r"$1 \leqslant n \leqslant 100\,000$", [1, 100000]),
            (r"\(1 \le n \le 2 \cdot 10^5\)", [1, 200000]),
            (r"\[1 \le n \le 2\times 10^{5}\]", [1, 200000]),
            (r"$$ 1 \le n \le 1e5 $$", [1, 100000]),
            (r"$1 ≤ n ≤ 10⁵$", [1, 100000]),
            (r"$1 \le n \le 10<sup>5</sup>$", [1, 100000]),
            (r"$n \le \num{100000}$", [100000]),
            (r"$n \le 100{,}000$ and $m \le 100,000$", [100000, 100000]),
            (r"$n \ge 3$ and $5 < m$ and $7 > k$", [3, 5, 7]),
            (r"$-10^9 \le x < 10^9 + 7$", [-1000000000, 1000000007]),
            (r"$-2^{31} \le x \le 2^{31} - 1$", [-2147483648, 2147483647]),
            (r"$1 \le n \le 10^5, \quad 2 \le m \le 3$", [1, 100000, 2, 3]),
            ("\\begin{align*}\n 4 &\\le n \\\\\n n &\\le 50\n\\end{align*}", [4, 50]),
            (r"costs \$5, and $n \le 6$ costs \$7", [6]),
        ]:
            with self.subTest(text):
                self.assertEqual(self.limits(text), wanted)

    def test_what_is_no_limit(self) -> None:
        for text in [
            "1 and 10^5",
            "$10^5$ things",
            r"$n \le 2m$",
            r"$n \le 2 \cdot m$",
            r"$2n \le m$",
            r"$a_{10} \le b_2$",
            r"$n \le 10^k$ or $n - 1 \le m$",
            r"$\frac{n}{2} \le m$",
            r"$x = 5$ and $y \ne 6$",
            "% $n \\le 5$",
            r"$n \le 2\pi$",
        ]:
            with self.subTest(text):
                self.assertEqual(self.limits(text), [])

    def test_a_percent_sign_begins_no_comment_in_markdown(self) -> None:
        self.assertEqual(self.limits("50% of $n \\le 5$", "problem.md"), [5])

    def test_places(self) -> None:
        (self.folder / "problem.tex").write_text("é\né $n \\le\n  -10^5$")
        [limit] = statement_in(self.folder, Path("problem.tex")).limits
        # two bytes for the first letter, and the number begins with its sign
        self.assertEqual((limit.value, limit.place), (-100000, "problem.tex:3:3"))


class Bounds(unittest.TestCase):
    def test_what_bounds(self) -> None:
        for program, bounds in [
            ("INT(1,100)", [1, 100]),
            ("INT(-5,2*10^5+1)", [-5, 200001]),
            ("SET(maxn=50,other=60) INT(1,maxn-1)", [50, 1]),
            ("SET(left=200) REP(2) INT(1,left,n) SET(left=left-n) END", [200, 1]),
            ("INT(1,9,n) ASSERT(n<8 && (7>n || !(n%4>=2)) && n!=6)", [1, 9, 8, 7, 2]),
            ('REGEX("[a-z]{2,20}x{3}y{4,}")', [2, 20, 3, 4]),
            ("REP(10) INT(1,2) END", [1, 2]),
            # a deep expression
            ("INT(0," + "1+" * 5000 + "1)", [0, 5001]),
        ]:
            with self.subTest(program[:50]):
                self.assertEqual([bound.value for bound in numbers_in(program.encode(), "p.ctd").bounds], bounds)


class Differences(PackageTest):
    def differences(self, files: dict[str, str]) -> list[str] | None:
        return differences(package_in(self.put(files)))

    def test_a_package_whose_statement_says_the_same(self) -> None:
        for name, text in [
            ("problem_statement/problem.en.tex", r"$1 \leq n \leq 10^5$ numbers, $-10^9 \le a_i \le 10^{9}$"),
            ("problem_statement/problem.md", r"$1 \leq n \leq 100\,000$ numbers, $|a_i| \le 1\,000\,000\,000$, or at least $-1000000000$"),
            ("statement/problem.en.tex", r"$0 < n < 1 + 1 \cdot 10^5$ numbers, $-1e9 \le a_i \le 1e9$"),
        ]:
            with self.subTest(name):
                self.assertEqual(self.differences({name: text}), [])
                (self.folder / "p" / name).unlink()

    def test_no_statement(self) -> None:
        self.assertIsNone(self.differences({"problem_statement/problem.pdf": "", "problem_statement/problem.tex.bak": "$n < 5$"}))

    def test_a_zero_too_many(self) -> None:
        for name, text, place in [
            ("problem_statement/problem.en.tex", r"Of $1 \leq n \leq 10^6$ numbers, $-10^9 \le a_i \le 10^{9}$", "1:19"),
            ("problem_statement/problem.md", "Of\n$1 \\le n \\le 1\\,000\\,000$ numbers, $-10^9 \\le a_i \\le 10^{9}$", "2:14"),
            ("statement/problem.en.tex", r"Of $n \le 1e6$ numbers, $-1e9 \le a_i \le 1e9$", "1:11"),
        ]:
            with self.subTest(name):
                there = f"{name}:{place}"
                wanted = [
                    f"input_validators/n.ctd:1:10: note: no statement has this bound: 100000; the nearest is 1000000 ({there})",
                    f"{there}: note: no program has this limit: 1000000; the nearest is 100000 (input_validators/n.ctd:1:10)",
                ]
                self.assertEqual(self.differences({name: text}), wanted)
                (self.folder / "p" / name).unlink()

    def test_either_side_alone(self) -> None:
        text = r"$n \le 10^5$, $-10^9 \le a_i \le 10^9$, and $k \ge 12$"
        name = "problem_statement/problem.tex"
        told = self.differences({name: text})
        # of the bounds 1 counts for nothing; 12 is nearest to 100000 by its logarithm
        self.assertEqual(told, [f"{name}:1:52: note: no program has this limit: 12; the nearest is 100000 (input_validators/n.ctd:1:10)"])
        told = self.differences({name: r"$n \le 10^5$, $a_i \le 10^9$"})
        self.assertEqual(told, [f"input_validators/n.ctd:3:18: note: no statement has this bound: -1000000000; the nearest is 100000 ({name}:1:8)"])

    @unittest.skipUnless(importlib.util.find_spec("yaml"), "PyYAML is not there")
    def test_flags(self) -> None:
        files = {"data/secret/small/testdata.yaml": "input_validator_flags: maxn=50", "data/secret/small/1/1.in": RIGHT}
        told = self.differences({**files, "problem_statement/p.md": r"$n \le 10^5$, $-10^9 \le a_i \le 10^9$; in group 1 $n \le 500$"})
        there = "data/secret/small/testdata.yaml: maxn=50"
        wanted = [
            f"{there}: note: no statement has this bound: 50; the nearest is 500 (problem_statement/p.md:1:59)",
            f"problem_statement/p.md:1:59: note: no program has this limit: 500; the nearest is 50 ({there})",
        ]
        self.assertEqual(told, wanted)

    def test_a_program_that_is_refused(self) -> None:
        told = self.differences({"input_validators/n.ctd": "INT(1,10", "problem_statement/p.md": "$n < 5$"})
        self.assertEqual(told, ["problem_statement/p.md:1:6: note: no program has this limit: 5"])

    def test_the_report(self) -> None:
        self.put({"problem_statement/p.md": r"$n \le 10^5$, $|a_i| \le 10^9$"})
        note = "input_validators/n.ctd:3:18: note: no statement has this bound: -1000000000; the nearest is 100000 (problem_statement/p.md:1:8)"
        ran = self.run_tool("p")
        lines = ran.stdout.decode().splitlines()
        self.assertEqual((ran.returncode, lines[1:3]), (0, [note, "statement: 1 note"]))
        self.assertEqual(json.loads(self.run_tool("--json", "p").stdout)["statement"], [note])


if __name__ == "__main__":
    sys.exit(run_unit_tests("statement"))
