"""What the checker and ctd-lint say of a program that is being edited, each with the part of the text that it is about."""
from __future__ import annotations

import os
import subprocess
import tempfile
from collections.abc import Callable, Sequence
from dataclasses import dataclass
from enum import IntEnum
from pathlib import Path

from ctd_companion import FITS, REJECTED, Answer, Checker, printable, text_of
from ctd_document import Document, Earlier
from ctd_findings import LINTER, Finding, find_linter, findings_in
from ctd_refusals import expected_words, words_of_presets, words_of_refusal
from ctd_processes import started
from ctd_symbols import head_end, open_part, preset_mentions, tokens_in
from ctd_text import Text

# How many findings an editor gets.
MOST_FINDINGS = 1000
# How often it is looked whether a result is still wanted, in seconds.
POLL = 0.05


class Severity(IntEnum):
    """How grave something is, by the numbers of the protocol."""

    ERROR = 1
    WARNING = 2
    INFORMATION = 3
    HINT = 4


SEVERITY_OF_RANK = {"error": Severity.ERROR, "warning": Severity.WARNING, "risk": Severity.INFORMATION, "note": Severity.HINT}


class NotWanted(Exception):
    """The text has changed since, so nobody wants to know what was found in it."""


@dataclass(frozen=True)
class Diagnostic:
    """What a tool says of a part of a text, between two offsets. A finding has a kind."""

    start: int
    end: int
    severity: Severity
    source: str
    message: str
    kind: str = ""


@dataclass(frozen=True)
class Tools:
    """The paths of the checker, and of ctd-lint where it is there."""

    checker: str
    linter: str | None

    @staticmethod
    def beside(checker: str) -> Tools:
        return Tools(checker, find_linter(checker))


def diagnostics(tools: Tools, document: Document, presets: str, is_wanted: Callable[[], bool]) -> list[Diagnostic]:
    """What is to be said of a program: why it is refused, or else what ctd-lint finds. The presets are those that it does not have itself.
    Raises NotWanted as soon as the result is not wanted any more."""
    with tempfile.TemporaryDirectory(prefix="ctd-language-server-") as folder:
        program = os.path.join(folder, "program.ctd")
        Path(program).write_bytes(document.text.data)
        define = define_option(document, presets)
        answer = load(tools.checker, program, define)
        if answer.in_data is None:
            return [refusal(tools.checker, program, document, presets, answer)]
        document.is_program = True
        if tools.linter is None:
            return []
        ran = run_while([tools.linter, "--json", *define, "--", program], is_wanted)
        if ran.returncode not in (FITS, REJECTED):
            errors = (one.text for one in findings_in(text_of(ran.stdout)) if one.rank == "error")
            told = text_of(ran.stderr).strip() or next(errors, f"ended with status {ran.returncode}")
            return [of_all(document.text, f"{LINTER} tells nothing: {printable(told)}")]
        return diagnostics_of(document, findings_in(text_of(ran.stdout)))


def define_option(document: Document | Earlier, others: str) -> list[str]:
    """The option that gives a program its own presets and others. The own come last, since of two for a variable the last counts."""
    return option_of([others, *(text_of(preset.text) for preset in document.presets)])


def option_of(presets: Sequence[str]) -> list[str]:
    given = [preset for preset in presets if preset]
    return [f"--define={','.join(given)}"] if given else []


def load(checker: str, program: str, define: Sequence[str]) -> Answer:
    """The answer of the checker where no step may be taken: it has a place in the data just where the program is not refused."""
    with open(os.devnull, "rb") as data:
        return Checker(checker, program, ["--max-steps=0", *define]).check_file(data)[0]


def run_while(words: Sequence[str], is_wanted: Callable[[], bool]) -> subprocess.CompletedProcess[bytes]:
    """Runs a command as long as its result is wanted. Raises NotWanted where it ends before."""
    with started(words, stdin=subprocess.DEVNULL, stdout=subprocess.PIPE, stderr=subprocess.PIPE) as process:
        while True:
            try:
                out, err = process.communicate(timeout=POLL)
                return subprocess.CompletedProcess(words, process.returncode, out, err)
            except subprocess.TimeoutExpired:
                if not is_wanted():
                    raise NotWanted from None


def refusal(checker: str, program: str, document: Document, presets: str, answer: Answer) -> Diagnostic:
    """Why a program is refused, at the token to which the answer points; a comment with presets that are wrong is marked."""
    text, message, told = document.text, answer.message, ""
    start, end = 0, text.line_end(0)
    if message == "bad preset":
        wrong = next((one for one in document.presets if load(checker, program, option_of([text_of(one.text)])).message == message), None)
        if wrong:
            start, end, told = wrong.offset, wrong.end, words_of_presets(wrong.text)
        else:
            message = f"bad preset in the settings: {printable(presets)}"
            told = words_of_presets(presets.encode("utf-8", "surrogatepass"))
    elif answer.in_program:
        start = text.offset_at(answer.in_program)
        end = token_end(text, start)
        # (of a long program only what is open decides what could stand there)
        is_syntax = message == "syntax error"
        told = expected_words(open_part(text.data[:start])[0] + text.data[start:end]) if is_syntax else words_of_refusal(message, text.data, start)
    return Diagnostic(start, end, Severity.ERROR, "checktestdata", f"{message}: {told}" if told else message)


def token_end(text: Text, start: int) -> int:
    """The offset behind the token that begins at an offset: a string that is not closed goes to the end of its line."""
    kind, _, offset, end = next(tokens_in(text.data, start))
    if offset != start:
        return start
    if kind == "unfinished":
        return text.line_end(start)
    return text.character_end(start) if kind == "unexpected" else end


def diagnostics_of(document: Document, found: list[Finding]) -> list[Diagnostic]:
    """What ctd-lint found in a program; where that is too much, the gravest."""
    shown = found
    if len(found) > MOST_FINDINGS:
        shown = sorted(found, key=severity_of)[:MOST_FINDINGS]
    told = [diagnostic(document, one) for one in shown]
    if len(found) > len(shown):
        told.append(of_all(document.text, f"{len(found) - len(shown)} more findings are not shown"))
    return told


def of_all(text: Text, message: str) -> Diagnostic:
    """What is said of a whole program, at its first line."""
    return Diagnostic(0, text.line_end(0), Severity.INFORMATION, LINTER, message)


def severity_of(finding: Finding) -> Severity:
    return SEVERITY_OF_RANK.get(finding.rank, Severity.INFORMATION)


def diagnostic(document: Document, finding: Finding) -> Diagnostic:
    """A finding. It marks the name that it is about, or else the head of the command."""
    text, name = document.text, finding.about.encode("utf-8", "surrogateescape")
    if finding.place is None:
        return of_all(text, finding.message)
    start = text.offset_at(finding.place)
    end = head_end(text.data, start) if token_end(text, start) > start else text.line_end(start)
    if finding.kind == "unknown-preset":
        given = [one for preset in document.presets for one in preset_mentions(preset) if one.name == name]
        start, end = (given[0].offset, given[0].end) if given else (0, text.line_end(0))
    named = next((token for token in tokens_in(text.data[start:end]) if token.kind == "name" and token.text == name), None)
    start, end = (start + named.offset, start + named.end) if named else (start, end)
    return Diagnostic(start, end, severity_of(finding), LINTER, finding.message, finding.kind)
