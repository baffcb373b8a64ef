"""The lines of ctd-lint --guarantees, as commands that are put at their places into a program."""

import json
import re
from collections import defaultdict
from collections.abc import Iterator
from typing import Any

# What matters of a program to find where a loop ends: comments, strings and words.
TOKEN = re.compile(r'#[^\n]*|"(?:[^"\\]|\\.)*"|[A-Z]+', re.DOTALL)
OPENING = {"REP", "REPI", "WHILE", "WHILEI", "IF"}
SIGNS = {"<=": "<=", "<": "<", "=": "==", "!=": "!="}
# A block of elements, of which at least one side is an interval, and its sides.
STRING = r'"(?:[^"\\]|\\.)*"'
BLOCK = re.compile(rf'\[((?:{STRING}|[^\[\]"])*\.\.(?:{STRING}|[^\[\]"])*)\]')
SIDE = re.compile(rf'(?:{STRING}|[^,"])+')
# A name that no program has.
COUNTER = "guaranteed"

# An object of a line.
Said = dict[str, Any]


def guarantees_in(output: str) -> list[Said]:
    """The objects of lines in what --json leaves."""
    objects: list[Said] = [json.loads(line) for line in output.splitlines()]
    return [said for said in objects if said["rank"] == "guarantee"]


def is_of_all(said: Said) -> bool:
    """Whether a line is so of all values of its names: no test of the language tells whether a name has a value, or goes through those that have one."""
    return "(" not in said["text"].replace("STRLEN(", "") and "[..]" not in said["text"]


def over_block(test: str) -> str:
    """A test as an assertion, for each element of a block of it, if there is one."""
    block = BLOCK.search(test)
    if not block:
        return f"ASSERT({test})"
    sides, loops = [], []
    for number, side in enumerate(SIDE.findall(block[1])):
        low, dots, high = (side, "", "") if side.startswith('"') else side.partition("..")
        sides.append(f"({low})+{COUNTER}{number}" if dots else side)
        if dots:
            loops.append(f"IF(({low})<=({high})) REPI({COUNTER}{number},({high})-({low})+1)")
    inner = over_block(test.replace(block[0], f"[{','.join(sides)}]"))
    return " ".join([*loops, inner, *["END END" for _ in loops]])


def commands_of(said: Said) -> Iterator[str]:
    """The commands that a line is."""
    for left, sign, right in said["relations"]:
        yield over_block(f"{left}{SIGNS[sign]}{right}")


def end_of_loop(text: str, line: int, column: int) -> int:
    """Where the END of the loop at a place begins."""
    start = sum(len(before) + 1 for before in text.split("\n")[: line - 1]) + column - 1
    depth = 0
    for token in TOKEN.finditer(text, start):
        depth += (token[0] in OPENING) - (token[0] == "END")
        if depth == 0:
            return token.start()
    raise ValueError(f"no loop at {line}:{column}")


def asserted(text: str, lines: list[Said]) -> str:
    """A program with the commands of these lines at their places."""
    put: dict[int, list[str]] = defaultdict(list)
    for said in lines:
        at = end_of_loop(text, said["line"], said["column"]) if "line" in said else len(text)
        put[at] += commands_of(said)
    for at in sorted(put, reverse=True):
        text = text[:at] + "\n" + "\n".join(put[at]) + "\n" + text[at:]
    return text
