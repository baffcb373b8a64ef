"""Makes a case smaller that shows a difference."""

import re
from collections.abc import Callable
from dataclasses import replace

from .case import Case

PARTS = re.compile(rb'[A-Z]+|[a-z][a-z0-9]*|[0-9]+|"(?:[^"\\]|\\.)*"|#[^\n]*|.', re.DOTALL)

Differs = Callable[[Case], bool]


def shrink(case: Case, differs: Differs) -> Case:
    """A case that still differs, of which no word, no part of the program and no byte can be left out alone."""
    while True:
        smaller = shrink_once(case, differs)
        if smaller == case:
            return case
        case = smaller


def shrink_once(case: Case, differs: Differs) -> Case:
    words = shortest([*case.words], lambda words: differs(replace(case, words=tuple(words))))
    case = replace(case, words=tuple(words))
    if case.program is not None:
        parts = PARTS.findall(case.program)
        parts = shortest(parts, lambda parts: differs(replace(case, program=b"".join(parts))))
        bytes_alone = [bytes([byte]) for byte in b"".join(parts)]
        if len(bytes_alone) < 200:
            bytes_alone = shortest(bytes_alone, lambda parts: differs(replace(case, program=b"".join(parts))))
        case = replace(case, program=b"".join(bytes_alone))
    data = shortest([bytes([byte]) for byte in case.data], lambda parts: differs(replace(case, data=b"".join(parts))))
    return replace(case, data=b"".join(data))


def shortest(parts: list[bytes], differs: Callable[[list[bytes]], bool]) -> list[bytes]:
    """These parts, without those that can be left out: first halves, and at last one at a time."""
    size = max(len(parts) // 2, 1)
    while True:
        start = 0
        while start < len(parts):
            fewer = parts[:start] + parts[start + size :]
            if differs(fewer):
                parts = fewer
            else:
                start += size
        if size == 1:
            return parts
        size //= 2
