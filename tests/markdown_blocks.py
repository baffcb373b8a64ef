"""What a document in Markdown holds: its blocks of code, with what the lines before them say, its links and its headings.

    Write `one.ctd`:              a line that ends with a name and a colon says that the block is this file
    <!-- needs: parallel -->      a comment says which program the block needs
    <!-- not run: why -->         a comment says that the block is not run, and why

A block of the kind `console` is a session: a line with `$ ` in front is a command, lines with `> ` go on with it, and the lines up to the
next command are what it writes. So is an indented block that begins with `$ `."""
import re
from collections.abc import Iterator
from dataclasses import dataclass, field
from pathlib import Path

FENCE = "```"
INDENT = "    "
INDENTED = "indented"
FILE_NAME = re.compile(r"`([\w./-]+)`:$")
COMMENT = re.compile(r"<!-- (needs|not run): (.*) -->$")
CODE = re.compile(r"`[^`]*`")
LINK = re.compile(r"\]\(([^()\s]+)\)")


@dataclass
class Block:
    """A block of code: its kind (the word behind the fence), the number of its first line, and its lines."""

    kind: str
    number: int
    lines: list[str] = field(default_factory=list)
    file: str | None = None
    needs: str | None = None
    not_run: str | None = None

    def text(self) -> str:
        return "".join(line + "\n" for line in self.lines)


@dataclass
class Command:
    """A command line of a session, what it writes, and the number of its line."""

    text: str
    written: str
    number: int


def read_words_before(block: Block, before: list[str]) -> None:
    """Notes in a block what the last two lines of text before it say."""
    for line in before[-2:]:
        if comment := COMMENT.match(line):
            if comment[1] == "needs":
                block.needs = comment[2]
            else:
                block.not_run = comment[2]
    text = [line for line in before if not COMMENT.match(line)]
    if text and (name := FILE_NAME.search(text[-1])):
        block.file = name[1]


def opened_block(line: str, number: int, before: list[str]) -> Block | None:
    """The block that a line of text opens, if it opens one."""
    if line.startswith(FENCE):
        block = Block(line[len(FENCE) :], number + 1)
    elif line.startswith(INDENT + "$ "):
        block = Block(INDENTED, number, [line[len(INDENT) :]])
    else:
        return None
    read_words_before(block, before)
    return block


def blocks(document: Path) -> Iterator[Block]:
    """The fenced blocks of a document, and its indented ones that are sessions."""
    before: list[str] = []
    block: Block | None = None
    for number, line in enumerate(document.read_text().splitlines(), 1):
        if block is not None and block.kind == INDENTED:
            if line.startswith(INDENT):
                block.lines.append(line[len(INDENT) :])
                continue
            yield block
            block = None
        if block is None:
            block = opened_block(line, number, before)
            if block is not None:
                before = []
            elif line:
                before.append(line)
        elif line == FENCE:
            yield block
            block = None
        else:
            block.lines.append(line)
    if block is not None:
        yield block


def commands(block: Block) -> Iterator[Command]:
    """The command lines of a session."""
    command: Command | None = None
    for number, line in enumerate(block.lines, block.number):
        if line.startswith("$ "):
            if command is not None:
                yield command
            command = Command(line[2:], "", number)
        elif command is None:
            raise ValueError(f"line {number}: a session begins with a command")
        elif line.startswith("> ") and not command.written:
            command.text += "\n" + line[2:]
        else:
            command.written += line + "\n"
    if command is not None:
        yield command


def lines_of_text(document: Path) -> Iterator[tuple[int, str]]:
    """The lines of a document outside of fenced blocks, with their numbers."""
    is_text = True
    for number, line in enumerate(document.read_text().splitlines(), 1):
        if line.startswith(FENCE):
            is_text = not is_text
        elif is_text:
            yield number, line


def anchors(document: Path) -> set[str]:
    """The names by which links reach the headings of a document."""
    headings = [line.lstrip("#").strip().lower() for _, line in lines_of_text(document) if line.startswith("#")]
    return {re.sub(r"[^\w\- ]", "", heading).replace(" ", "-") for heading in headings}


def links(document: Path) -> Iterator[tuple[int, str]]:
    """The links of a document to other files and to headings, with the numbers of their lines."""
    for number, line in lines_of_text(document):
        for link in LINK.finditer(CODE.sub("", line)):
            if "://" not in link[1]:
                yield number, link[1]
