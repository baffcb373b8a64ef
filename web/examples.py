#!/usr/bin/env python3
"""Prints the examples below a folder as JSON, for the page: a list of groups, each with its title, its program, and its data, of which each has
a name, a text and the answer to it.

An example is a folder with one program, `program.ctd` or `input_validators/*.ctd`, and data files `*.in` anywhere below it. The answer to data is
in the file `.txt` beside them; data without one fit the program. Its title is what README.md there says in the row of a table that begins with a
link to its program. The first programs come first, then the others in the order of README.md. usage: examples.py FOLDER"""
import json
import re
import sys
from pathlib import Path

# Longer data are left out of the page, in bytes.
LONGEST = 20_000
FITS = "testdata ok!\n"
ROW = re.compile(r"(?m)^\| \[`(\w+)`\]\([^)]*\) \| ([^|]*) \|")
FIRST = re.compile(r"Five first programs, .*?: ((?:`\w+`,?\s)*`\w+`)", re.S)


def titles(top: Path) -> dict[str, str]:
    """The folders in the order of the page, each with its title."""
    text = (top / "README.md").read_text()
    first = FIRST.search(text)
    names = re.findall(r"`(\w+)`", first[1]) if first else []
    return {name: name for name in names} | {name: f"{name}: {words}" for name, words in ROW.findall(text)}


def program_of(folder: Path) -> str:
    return next(path for path in [*folder.glob("program.ctd"), *folder.glob("input_validators/*.ctd")]).read_text()


def data_of(folder: Path) -> list[dict[str, str]]:
    """The data of an example, those first that fit."""
    found = []
    for path in sorted(folder.rglob("*.in")):
        if path.stat().st_size <= LONGEST:
            message = path.with_suffix(".txt")
            answer = message.read_text() if message.exists() else FITS
            words = "fits" if answer == FITS else "does not fit"
            found.append({"name": f"{folder.name}: {path.name}, {words}", "text": path.read_bytes().decode(), "answer": answer})
    return sorted(found, key=lambda data: data["answer"] != FITS)


def groups(top: Path) -> list[dict]:
    return [
        {"title": title, "program": program_of(top / name), "data": data_of(top / name)} for name, title in titles(top).items()
    ]


json.dump(groups(Path(sys.argv[1])), sys.stdout, indent=1)
