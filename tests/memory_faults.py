#!/usr/bin/env python3
"""Looks for code that answers `out of memory` of its own accord, which no contract can refuse: a contract excepts that answer.

Such an answer may be written where the code hands on what an allocation answered: in an arm whose pattern has it, or in a conversion from
`AllocError` or `AllocFailed`. Each other place stands in ELSEWHERE with the reason why it comes after a failed allocation alone. The last line counts the
answers that stand where they may, as passed, and the others, with the entries of the list that no code has."""
import re
import sys
from collections.abc import Iterator
from dataclasses import dataclass
from itertools import chain

from results import TOP, print_results

sys.path.insert(0, str(TOP / "scripts"))
from spec_reader import blanked, closing

# An answer that memory ran out, or that a pattern is too large to be built, as code writes it; and what says so in a list that is collected.
ANSWER = re.compile(r"\b\w+::(?:Memory|OutOfMemory|TooLarge)\b(?!::)|(?:\(|=>\s*|\|\s*|\breturn\s+|=\s*)AllocError\b(?!::|>)|\.fail\(\)")
HANDED_ON = re.compile(r"Memory|AllocError|CompiledTooBig|_memory")
# Only the calls of ctd_findings and of what it stands on are collected so, and their one error is that memory ran out.
FAILED_CALL = re.compile(r"Err\(_\)\s*$")
FUNCTION = re.compile(r"\bfn (\w+)")
CONVERSION = re.compile(r"\bimpl(?:<T: Drop>)? From<Alloc(?:Error|Failed<T>)> for \w+")

# The function, by its file, and why its answer comes after a failed allocation alone.
ELSEWHERE = {
    ("ctd_arguments/src/words.rt", "texts_of"): "a push failed",
    ("ctd_command/src/regex.rt", "pass_match_anew"): "loading built a pattern of the same literal, so only memory can prevent it",
    ("ctd_in_memory/src/run.rt", "run_in_memory"): "the words could not be split, which only memory can prevent",
    ("ctd_lint_tool/src/command_line.rt", "copies_of"): "a push failed",
    ("ctd_lint_tool/src/command_line.rt", "kinds_named"): "a push failed",
    ("ctd_process/src/buffered.rt", "buffered_source"): "no buffer could be made",
    ("ctd_report/src/report.rt", "write_load_fault"): "the fault of the program is that no memory was left, as the contract says",
    ("ctd_tool/src/files.rt", "run_on"): "no buffer could be made",
    ("ctd_tool/src/host.rt", "answer_args"): "the words could not be copied, which only memory can prevent",
    ("ctd_traps/src/collector.rt", "finish"): "a push failed before",
}


@dataclass(frozen=True)
class Written:
    """An answer that the code of a function writes, and whether it hands on one that it got."""

    file: str
    line: int
    function: str
    text: str
    is_handed_on: bool

    def faults(self) -> list[str]:
        if self.is_handed_on or (self.file, self.function) in ELSEWHERE:
            return []
        return [f"{self.function} answers {self.text} of its own accord"]


def pattern_before(code: str, at: int) -> str | None:
    """The pattern of the arm that begins with the answer at `at`, alone or in what it builds; none where a statement stands before it."""
    depth = 0
    for index in range(at - 1, 0, -1):
        if code[index] in "})":
            depth += 1
        elif code[index] in "{(":
            depth -= 1
        elif code[index] == ";" and depth <= 0:
            return None
        elif code.startswith("=>", index) and depth <= 0:
            return code[code.rfind("\n", 0, index) + 1 : index]
    return None


def is_pattern(code: str, end: int) -> bool:
    """Whether what ends at `end` is matched and not answered."""
    line = code[end : code.find("\n", end)]
    return re.match(r"(?:, _)?[)\w\s|:.(_]*?(?: if [^=]*)?=>", line) is not None or re.match(r"\)* = ", line) is not None


def answers_in(place: str, text: str) -> Iterator[Written]:
    """The answers that the code of a file writes."""
    code = blanked(text)
    conversions = [(found.start(), closing(code, code.index("{", found.end()))) for found in CONVERSION.finditer(code)]
    functions = [(found.start(), found[1]) for found in FUNCTION.finditer(code)]
    for found in ANSWER.finditer(code):
        before = code[code.rfind("\n", 0, found.start()) + 1 : found.start()]
        is_compared = re.search(r"[=!]= *$", before) or re.search(r"\b(use|ensures|requires|ghost)\b", before)
        if is_pattern(code, found.end()) or is_compared:
            continue
        function = next((name for start, name in reversed(functions) if start < found.start()), "no function")
        pattern = pattern_before(code, found.start())
        is_converted = any(start < found.start() < end for start, end in conversions)
        fault = FAILED_CALL if found[0] == ".fail()" else HANDED_ON
        is_handed_on = is_converted or (pattern is not None and fault.search(pattern) is not None)
        yield Written(place, code.count("\n", 0, found.start()) + 1, function, found[0].strip("(=>| "), is_handed_on)


# Code by itself, and whether each of its answers hands on one that it got.
EXAMPLES = [
    ("fn f() { match g() { Ok(x) => Ok(x), Err(ToolFault::Memory) => Err(UsageFault::Memory) } }", [True]),
    ("fn f() { match g() { Err(Halt::Memory) => Err(AllocError), Ok(x) => Ok(x) } }", [True]),
    ("fn f() { if n > 9 { return Err(LoadFault { kind: LoadKind::Memory, place: None }); } g() }", [False]),
    ("fn f() { match g() { Ok(x) if x > 9 => Err(AllocError), other => other } }", [False]),
    ("fn f() { match g() { Err(E::Memory) => { let _x = 1; return Err(AllocError); } Ok(x) => Ok(x) } }", [False]),
    ("fn f() { g().map_err(|_| AllocError) }", [False]),
    ("fn f() { match g() { Ok(x) => found.add(x), Err(_) => found.fail(), } }", [True]),
    ("fn f() { if n > 9 { found.fail() } else { found.add(n) } }", [False]),
    ("fn f() { match g() { Ok(x) => found.fail(), Err(_) => found.fail(), } }", [False, True]),
    ("fn f() { if fault == LoadKind::Memory { g() } else { h() } }", []),
    ("impl From<AllocError> for X { fn from(_: AllocError) -> X { X::Memory } }", [True]),
    ('fn f() -> Result<u8, AllocError> { g("X::Memory") // X::Memory\n}', []),
]


def self_check() -> Iterator[tuple[str, list[str]]]:
    """What is found in the examples."""
    for text, wanted in EXAMPLES:
        found = [answer.is_handed_on for answer in answers_in("example", text)]
        yield text, [] if found == wanted else [f"found {found}, wanted {wanted}"]


def results() -> Iterator[tuple[str, list[str]]]:
    """Each answer with what is wrong with it, and each entry of the list that no code has."""
    used = set()
    for file in sorted(TOP.glob("crates/*/src/**/*.rt")):
        if "tests" in file.parts or file.relative_to(TOP / "crates").parts[0].startswith("test_"):
            continue
        for answer in answers_in(str(file.relative_to(TOP / "crates")), file.read_text()):
            used.add((answer.file, answer.function))
            yield f"{answer.file}:{answer.line}", answer.faults()
    for file, function in ELSEWHERE.keys() - used:
        yield file, [f"{function} answers no such thing: it leaves the list"]


if __name__ == "__main__":
    sys.exit(print_results("memory", chain(self_check(), results())))
