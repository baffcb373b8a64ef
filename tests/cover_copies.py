#!/usr/bin/env python3
"""Programs that ctd-cover puts together again have the checker's answer, as they stand and with questions that never fail; and what it finds where it
reads data itself, the checker confirms: on the rows of tests/tables and on generated cases.

The last line counts what passed and failed. usage: tests/cover_copies.py [PROGRAM [CASES]]"""
from __future__ import annotations

import multiprocessing
import os
import subprocess
import sys
import tempfile
import unittest
from collections.abc import Callable, Iterator, Sequence
from dataclasses import replace
from pathlib import Path

from fuzzing.case import Case, Source
from fuzzing.cases import case_of
from reference.faults import Refused
from reference.syntax import printed_grammar
from reference.tool import Answer as Left
from results import TOP, checker_to_test, run_unit_tests
from tables import TABLES, Row, bytes_of, rows_of, unfolded

sys.path.insert(0, str(TOP / "tools"))
import fuzz  # noqa: E402
from ctd_companion import FITS, Answer, Checker, answer_of  # noqa: E402
from ctd_coverage import Skeleton, Thing  # noqa: E402
from ctd_file_runs import FileRun  # noqa: E402
from ctd_guesses import Guess, Reading, Watching  # noqa: E402
from ctd_presets import presets_in  # noqa: E402
from ctd_program import BLOCKS, GRAMMAR, NAME, Grammar, commands_of, cut, parse  # noqa: E402
from ctd_questions import Asker, Copy, Question, fresh_name, offset_at, place_at  # noqa: E402
from ctd_trees import DEEDS  # noqa: E402

CHECKER = checker_to_test()
GENERATED = int(sys.argv[2]) if len(sys.argv) > 2 else 1_000
SEED = 20
# Longer programs take seconds each to be read in Python: they are put together again where more cases are asked for than the gate does.
MOST_BYTES = 1 << 20 if GENERATED > 1_000 else 50_000
# What is read here is compared of shorter programs alone.
MOST_READ = 2000
JOBS = min(os.cpu_count() or 1, 4)
STEP_LIMIT = "step limit reached"


class NeverFailing(FileRun):
    """Puts a question that never fails at each place; or with `is_bare` none."""

    def __init__(self, skeleton: Skeleton, is_bare: bool) -> None:
        super().__init__(skeleton, Asker(Checker("", ""), open(os.devnull, "rb"), Path()), "", {}, Reading(skeleton, False))
        self.asker.data.close()
        self.is_bare = is_bare

    def question_for(self, thing: Thing) -> bytes | None:
        if self.is_bare:
            return None
        value = b"%b==0" % thing.expression if thing.sign else b"!(%b)" % thing.test
        return b"ASSERT(%b||0==0) " % value


def told_of(program: bytes, copy: Copy, answer: Answer) -> tuple[object, ...]:
    """What an answer to a copy says of the program: its place there is brought back."""
    source = copy.source_at(answer.in_program) if answer.in_program else None
    place = place_at(program, source) if isinstance(source, int) else source
    return answer.status, answer.message, answer.in_data, place


def differences(program: bytes, words: Sequence[str], wanted: Answer, run: Callable[[bytes], Answer]) -> Iterator[str]:
    """How the answers to copies differ from that to the program. Where a run has no verdict, one with questions has the same message."""
    skeleton = Skeleton(program, commands_of(program), fresh_name(program, words), [], {})
    for is_bare in (True, False):
        copy = skeleton.copy(NeverFailing(skeleton, is_bare))
        answer = run(bytes(copy.text))
        if answer.message in (STEP_LIMIT, "nested too deeply", "program too long"):
            continue
        found, right = told_of(program, copy, answer), (wanted.status, wanted.message, wanted.in_data, wanted.in_program)
        if wanted.status == 2 and not is_bare:
            found, right = found[:2], right[:2]
        if found != right:
            yield f"{'without' if is_bare else 'with'} questions {found}, wanted {right}"


def read_and_confirmed(program: bytes, words: Sequence[str], data: bytes, run: Callable[[bytes], Answer]) -> bool | None:
    """Whether the checker confirms all that is found where data that fit are read here; None where they are not read."""
    if any(word.startswith("-D") or word == "--define" for word in words):
        return None
    skeleton = Skeleton(program, commands_of(program), fresh_name(program, words), list(presets_in(words)), {})
    guesses = Reading(skeleton, bool({"-w", "--whitespace-ok"} & set(words))).guesses(data)
    watching = Watching(skeleton)
    if not guesses:
        return None
    ends = (watch.confirming(guesses.get(thing, Guess(watch.first, 0, 0))) for thing, watch in watching.watches.items())
    answer = run(bytes(skeleton.copy(watching, watching.start, b"".join(ends)).text))
    return None if answer.message in (STEP_LIMIT, "nested too deeply", "program too long") else answer.status == FITS


def without_limit(words: Sequence[bytes]) -> list[bytes]:
    """The words of a command line with another limit of steps, which no case needs."""
    changed: list[bytes] = []
    for word in words:
        is_value = bool(changed) and changed[-1] == b"--max-steps"
        changed.append(b"100000" if is_value else b"--max-steps=100000" if word.startswith(b"--max-steps=") else word)
    return changed


def compare_cases(numbers: Sequence[int]) -> tuple[int, list[str]]:
    """How many of the generated cases of these numbers had a program to put together again, and the differences."""
    compared, told = 0, []
    with fuzz.checker_in_folder(CHECKER) as checker:

        def run(case: Case) -> Answer:
            left: Left = checker.answer(case)
            return answer_of(left.status, left.out, left.err)

        for number in numbers:
            case = case_of(SEED, number)
            case = replace(case, words=tuple(word for word in case.words if word not in (b"-q", b"--quiet")))
            if case.program is None or case.source in (Source.FAILING_INPUT, Source.FOLDER):
                continue
            wanted = run(case)
            # (a help or a version has no program)
            if (wanted.in_data is None and wanted.line != "testdata ok!") or wanted.message == STEP_LIMIT:
                continue
            compared += 1
            words = without_limit(case.words)
            shown = [os.fsdecode(word) for word in words]

            def run_copy(text: bytes, case: Case = case, words: Sequence[bytes] = words) -> Answer:
                return run(replace(case, program=text, words=tuple(words)))

            told += [f"case {number}: {one}" for one in differences(case.program, shown, wanted, run_copy)]
            if wanted.status == FITS and len(case.program) <= MOST_READ and read_and_confirmed(case.program, shown, case.data, run_copy) is False:
                told.append(f"case {number}: what is read here is not confirmed")
    return compared, told


class PutTogether(unittest.TestCase):
    """A program that is put together again does what it did."""

    def setUp(self) -> None:
        scratch = tempfile.TemporaryDirectory()
        self.addCleanup(scratch.cleanup)
        self.folder = Path(scratch.name)

    def run_row(self, row: Row, text: bytes) -> Answer:
        (self.folder / "program").write_bytes(text)
        call = [CHECKER, *(unfolded(word) for word in row.words), self.folder / "program"]
        ran = subprocess.run(call, input=bytes_of(row.data), capture_output=True, check=False)
        return answer_of(ran.returncode, ran.stdout, ran.stderr)

    def test_the_grammar_is_that_of_the_reference(self) -> None:
        self.assertEqual(GRAMMAR.strip(), printed_grammar().strip())

    def test_what_each_command_does_is_known(self) -> None:
        grammar = Grammar()
        grammar.add_rules(GRAMMAR)
        commands = [production.parts for production in grammar.productions["command"]]
        self.assertEqual({word for word, *_ in commands}, set(DEEDS))
        self.assertEqual({word for word, *rest in commands if "END" in rest}, set(BLOCKS))
        for word, *rest in commands:
            # (what stands in braces is as what stands before it)
            arguments = [part for part in rest[1 : rest.index(")")] if part not in (",", "=") and part[0] != "{"] if rest else []
            changed = [index for index in range(len(arguments)) if DEEDS[word].is_changing(index)]
            self.assertEqual(changed, [index for index, part in enumerate(arguments) if part in ("variable", NAME)], word)

    def test_the_rows_of_the_tables(self) -> None:
        compared = 0
        for file in sorted(TABLES.glob("*.toml")):
            for name, row in rows_of(file):
                wanted = Answer(*answer_fields(row))
                if row.fails or wanted.message == STEP_LIMIT or (wanted.status == 2 and wanted.in_data is None):
                    continue
                program = bytes_of(row.program)
                if len(program) > MOST_BYTES:
                    continue
                compared += 1
                words = [unfolded(word) for word in row.words]
                for difference in differences(program, words, wanted, lambda text, row=row: self.run_row(row, text)):
                    self.fail(f"{name}: {program[:200]!r}: {difference}")
        self.assertGreater(compared, 800)

    def test_each_command_is_read(self) -> None:
        program = b"""INT(0,9,n) SPACE STRING("a") REGEX("b",s) NEWLINE SET(k=n) ASSERT(k>0) UNSET(k)
            REP(1) END REPI(i,1) END WHILE(n<0) END WHILEI(j,j<1) END IF(n>0) END EOF"""
        self.assertEqual({command.word for command in commands_of(program)}, set(DEEDS))
        skeleton = Skeleton(program, commands_of(program), b"q", [], {})
        # of the loops WHILE alone has no turn, and the others have one
        found = {skeleton.owners[thing][1] for thing in Reading(skeleton, False).guesses(b"1 ab\n")}
        self.assertEqual(found, {"least", "greatest", "true", "tight: k>0", "none", "one", "most"})

    def test_the_rows_that_are_read(self) -> None:
        read = 0
        for file in sorted(TABLES.glob("*.toml")):
            for name, row in rows_of(file):
                program, words = bytes_of(row.program), [unfolded(word) for word in row.words]
                if row.wanted()[0] == FITS and len(program) <= MOST_READ and not row.fails:
                    found = read_and_confirmed(program, words, bytes_of(row.data), lambda text, row=row: self.run_row(row, text))
                    self.assertIsNot(found, False, f"{name}: {program[:200]!r}")
                    read += found is not None
        self.assertGreater(read, 150)

    def test_the_parser_refuses_what_the_checker_refuses(self) -> None:
        others = ("nested too deeply", "bad pattern", "program too long", "cannot read program")
        for file in sorted(TABLES.glob("*.toml")):
            for name, row in rows_of(file):
                wanted = Answer(*answer_fields(row))
                program = bytes_of(row.program)
                if wanted.message in others or len(program) > 100_000:
                    continue
                is_refused = wanted.status == 2 and wanted.in_data is None and wanted.in_program is not None
                try:
                    parse(cut(program))
                    found = None
                except Refused as refused:
                    assert refused.offset is not None
                    found = refused.message, place_at(program, refused.offset)
                self.assertEqual(found, (wanted.message, wanted.in_program) if is_refused else None, f"{name}: {program[:200]!r}")

    def test_generated_cases(self) -> None:
        with multiprocessing.Pool(JOBS) as pool:
            parts = pool.map(compare_cases, [range(job, GENERATED, JOBS) for job in range(JOBS)])
        self.assertEqual([one for _, told in parts for one in told], [])
        self.assertGreater(sum(compared for compared, _ in parts), GENERATED // 2)

    def test_a_place_comes_back(self) -> None:
        copy = Copy()
        copy.add(b"ab\ncd", 0)
        question = Question(b"x\ny")
        copy.ask(question)
        copy.add(b"ef", 5)
        text = bytes(copy.text)
        for part, source in ((b"d", 4), (b"x", question), (b"y", question), (b"f", 6)):
            self.assertEqual(copy.source_at(place_at(text, text.index(part))), source)
        self.assertEqual(offset_at(text, place_at(text, 7)), 7)


def answer_fields(row: Row) -> tuple[object, ...]:
    """The fields of the answer that a row has to give."""
    status, out, err = row.wanted()
    answer = answer_of(status, out, err)
    return answer.status, answer.line, answer.message, answer.in_data, answer.command, answer.in_program


if __name__ == "__main__":
    sys.exit(run_unit_tests("cover_copies"))
