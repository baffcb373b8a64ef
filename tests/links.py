#!/usr/bin/env python3
"""Follows the links of all documents, and sees that docs/DESIGN.md says where a rule stands.

A link leads to a file or a folder, and with a `#` to a heading of it or to an `<a id="..">`. In docs/DESIGN.md, names that stand before "in" and a
link are words of the file that the link leads to, and each crate has what its row of the table of crates names. docs/LANGUAGE.md has a link to each row of
the table with an `<a id="..">`. What CONTRIBUTING.md and the README of a crate have between backticks, if it is the name of a file or a word of the code,
is there.

The last line counts the links and names that are right, as passed, and the others. usage: tests/links.py [FOLDER]
With FOLDER only the links of the documents below it are followed, such as those that are installed."""
import re
import subprocess
import sys
from collections.abc import Iterator
from functools import cache
from pathlib import Path

from markdown_blocks import anchors, lines_of_text, links

TOP = Path(__file__).resolve().parent.parent
CONTRIBUTING = TOP / "CONTRIBUTING.md"
DESIGN = TOP / "docs/DESIGN.md"
LANGUAGE = TOP / "docs/LANGUAGE.md"
MARK = re.compile(r'<a id="([^"]+)"></a>')
CRATE_ROW = re.compile(r"\| `(\w+)` \| ([^|]*) \|")
DECLARED = re.compile(r"\b(?:fn|struct|enum|trait|const|type|static) (\w+)")
NAMED = re.compile(r"((?:`\w+`(?:, |,? and )?)+)\sin\s\[`[^\]]*`\]\(([^)]+)\)")


def kept_files() -> list[str]:
    """The files that the repository keeps, without what is built."""
    listed = subprocess.run(["git", "ls-files"], cwd=TOP, capture_output=True, text=True, check=False)
    if listed.returncode == 0 and listed.stdout:
        return listed.stdout.splitlines()
    return sorted(str(path.relative_to(TOP)) for path in TOP.rglob("*") if path.is_file() and "out" not in path.parts)


def documents(folder: Path | None) -> list[Path]:
    """The documents below a folder, or those that the repository keeps."""
    if folder is not None:
        return sorted(folder.rglob("*.md"))
    return [TOP / name for name in kept_files() if name.endswith(".md")]


def marks(document: Path) -> set[str]:
    """What links may name of a document behind a `#`."""
    return anchors(document) | set(MARK.findall(document.read_text()))


def fault_of_link(document: Path, link: str) -> str | None:
    name, _, mark = link.partition("#")
    file = document.parent / name if name else document
    if not file.exists():
        return f"there is no {link}"
    return f"there is no {mark} in {name or 'this document'}" if mark and mark not in marks(file) else None


def fault_of_row(row: str) -> str | None:
    """Whether docs/LANGUAGE.md leads to a row."""
    mark = MARK.search(row)
    return None if mark is None or f"DESIGN.md#{mark[1]}" in LANGUAGE.read_text() else f"docs/LANGUAGE.md has no link to {mark[1]}"


def faults_of_names(text: str) -> Iterator[tuple[int, str | None]]:
    """For each name that stands before "in" and a link the number of its line, and what is wrong with it."""
    for found in NAMED.finditer(text):
        file = DESIGN.parent / found[2]
        words = set(re.findall(r"\w+", file.read_text())) if file.is_file() else set()
        for name in re.findall(r"`(\w+)`", found[1]):
            yield text[: found.start()].count("\n") + 1, None if name in words else f"there is no {name} in {found[2]}"


def faults_of_crate(row: str) -> Iterator[str | None]:
    """For each name that a row of the table of crates has of its crate, what is wrong with it."""
    found = CRATE_ROW.match(row)
    if found is None or not (TOP / "crates" / found[1]).is_dir():
        return
    declared = {name for file in (TOP / "crates" / found[1] / "src").glob("*.rt") for name in DECLARED.findall(file.read_text())}
    for name in re.findall(r"`(\w+)`", found[2]):
        yield None if name in declared else f"{found[1]} has no {name}"


@cache
def places_and_words() -> tuple[set[str], set[str]]:
    """The names of all files and folders, and of parts of them, and the words of the code."""
    places: set[str] = set()
    words: set[str] = set()
    for file in kept_files():
        parts = file.split("/")
        places |= {"/".join(parts[first:last]) for first in range(len(parts)) for last in range(first + 1, len(parts) + 1)}
        words |= {parts[-1].split(".")[0]}
        if file.endswith((".rt", ".antt", ".py", ".mk", ".txt")) or file == "Makefile":
            words |= set(re.findall(r"\w+", (TOP / file).read_text(errors="replace")))
    return places, words


def faults_of_code(document: Path) -> Iterator[tuple[int, str | None]]:
    """For each file and each name that a document has between backticks the number of its line, and what is wrong with it."""
    places, words = places_and_words()
    text = re.sub(r"^```.*?^```", lambda block: "\n" * block[0].count("\n"), document.read_text(), flags=re.MULTILINE | re.DOTALL)
    for number, line in enumerate(text.split("\n"), 1):
        for code in re.findall(r"`([\w./+-]+)`", line):
            if "NAME" in code or code == "/" or code.endswith("_"):
                continue
            if "/" in code or re.fullmatch(r"\w+\.(?:rt|antt|py|toml|sh|md)", code):
                yield number, None if code.strip("/") in places else f"there is no {code}"
            elif re.fullmatch(r"\w+", code) and code.upper() != code:
                yield number, None if code in words else f"nothing here is called {code}"


def results(folder: Path | None) -> Iterator[tuple[Path, int, str | None]]:
    """For each link, row and name of the documents the number of its line, and what is wrong with it."""
    for document in documents(folder):
        for number, link in links(document):
            yield document, number, fault_of_link(document, link)
    if folder is not None:
        return
    for number, line in lines_of_text(DESIGN):
        if MARK.search(line):
            yield DESIGN, number, fault_of_row(line)
        for fault in faults_of_crate(line):
            yield DESIGN, number, fault
    for number, fault in faults_of_names(DESIGN.read_text()):
        yield DESIGN, number, fault
    for document in [CONTRIBUTING, *sorted(TOP.glob("crates/*/README.md"))]:
        for number, fault in faults_of_code(document):
            yield document, number, fault


def main() -> int:
    folder = Path(sys.argv[1]).resolve() if len(sys.argv) > 1 else None
    passed = failed = 0
    for document, number, fault in results(folder):
        passed, failed = passed + (fault is None), failed + (fault is not None)
        if fault is not None:
            print(f"links: {document.relative_to(folder or TOP)}, line {number}: {fault}")
    print(f"{passed} passed, {failed} failed")
    return int(failed > 0)


if __name__ == "__main__":
    sys.exit(main())
