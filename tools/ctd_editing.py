"""What an editor shows of a program and does with it, in the values of the Language Server Protocol: hovers, places of names, completions,
the outline, folds."""
from __future__ import annotations

import re
from collections.abc import Iterator, Sequence

from ctd_asked import Linter
from ctd_companion import printable
from ctd_diagnostics import define_option
from ctd_document import Document, Earlier
from ctd_manual import COMMANDS, Entry, manual
from ctd_program import NAME, Command, Token
from ctd_questions import fresh_name
from ctd_ranges import Measured, Operand, Range
from ctd_symbols import Block, Use, names_of_presets, next_tokens
from ctd_text import Json
from ctd_trees import all_commands

# Numbers of the protocol: kinds of completions, that one is a snippet, and kinds of symbols, of which an array stands for a loop and a boolean
# for a branch.
FUNCTION, VARIABLE, KEYWORD = 3, 6, 14
SNIPPET = 2
BOOLEAN, ARRAY = 17, 18

NAME_FORM = re.compile("[a-z][a-z0-9]*")
# A word or a name that may still be typed, at the end of a text.
TYPED = re.compile(rb"(?:[A-Z]+|[a-z][a-z0-9]*)?\Z")
# What stands in the form of a command for something else.
PLACEHOLDER = re.compile("[a-z]+")
# How many of the commands that set a name are shown.
MOST_COMMANDS = 8
# A bound from here on only says that a number grows with the turns of a loop.
UNTOLD = 2**63
# How deep the outline goes: no program nests deeper.
MOST_DEPTH = 200


class CannotRename(Exception):
    """A name cannot have another name: a line that says why."""


def hover(document: Document, position: Json, presets: str, linter: str | None) -> Json | None:
    """What the word at a position does, or what is known of the name there; of its values what ctd-lint knows, where that is there."""
    source = document.read_at(position)
    if mention := source.mention_at(position):
        return shown("\n\n".join(told_of_name(source, mention.name, presets, linter)), source.range_of(mention))
    word = source.word_at(position)
    if word is None:
        return None
    block = source.symbols.block_of.get(word.offset)
    entry = manual().get("IF" if word.text == b"ELSE" else word.text.decode())
    if entry:
        return shown(entry.markdown, source.span(word.offset, word.end))
    if block:
        return shown(f"the end of {in_line(source, block.offset)}", source.span(word.offset, word.end))
    return None


def shown(markdown: str, span: Json) -> Json:
    return {"contents": {"kind": "markdown", "value": markdown}, "range": span}


def in_line(document: Document | Earlier, offset: int) -> str:
    """The head of a command in the font of programs, and its line."""
    return f"`` {document.head(offset)} `` in line {document.line(offset)}"


def told_of_name(document: Document | Earlier, name: bytes, presets: str, linter: str | None) -> Iterator[str]:
    """What is known of a name: its values, and which commands set it."""
    mentions = document.mentions_of(name)
    yield f"`{name.decode()}`{known_values(document, name, presets, linter)}"
    given = [f"preset in line {document.line(one.offset)}" for one in mentions if one.use is Use.PRESET]
    given += ["preset in the settings"] if name in names_of_presets(presets) else []
    commands = dict.fromkeys(one.command for one in mentions if one.use is Use.SET)
    given += [f"set by {in_line(document, command)}" for command in commands]
    yield from given[:MOST_COMMANDS]
    if len(given) > MOST_COMMANDS:
        yield f"and {len(given) - MOST_COMMANDS} more"
    if not given:
        yield "nothing gives it a value"


def known_values(document: Document | Earlier, name: bytes, presets: str, linter: str | None) -> str:
    """What is known of the values of a variable that one command sets, and no other and no preset, to be written behind its name."""
    mentions = document.mentions_of(name)
    setting = {one.command for one in mentions if one.use is Use.SET}
    if len(setting) != 1 or name in names_of_presets(presets) or any(one.use is Use.PRESET for one in mentions):
        return ""
    command = next((one for one in all_commands(document.commands) if one.offset in setting), None)
    if command is None:
        return ""
    text, define = document.symbols.text, define_option(document, presets)
    known = range_set_by(command, Measured(text, document.commands, fresh_name(text, define), Linter(linter, define)))
    if known.least is None or known.greatest is None or known.least > known.greatest or max(-known.least, known.greatest) >= UNTOLD:
        return ""
    return f": {known.least}" if known.only is not None else f": {known.least} to {known.greatest}"


def range_set_by(command: Command, measured: Measured) -> Range:
    """The range of the one variable without indices that a command sets. (What SET reads may be what it sets before.)"""
    arguments = command.arguments
    if command.word == "INT" and isinstance(arguments[2], Token):
        low, high = measured.ranges([Operand(command, tree) for tree in arguments[:2]]).values()
        return Range(low.least, high.greatest)
    if command.word == "SET" and len(arguments) == 2 and isinstance(arguments[0], Token):
        return measured.ranges([Operand(command, arguments[1])])[arguments[1].offset]
    return Range()


def definitions(document: Document, position: Json) -> list[Json]:
    """The places where the name at a position gets a value."""
    source = document.read_at(position)
    mention = source.mention_at(position)
    mentions = source.mentions_of(mention.name) if mention else []
    return [{"uri": document.uri, "range": source.range_of(one)} for one in mentions if one.use in (Use.SET, Use.PRESET)]


def references(document: Document, position: Json, with_definitions: bool) -> list[Json]:
    """The places where the name at a position stands."""
    mention = document.mention_at(position)
    mentions = document.mentions_of(mention.name) if mention else []
    return [{"uri": document.uri, "range": document.range_of(one)} for one in mentions if with_definitions or one.use not in (Use.SET, Use.PRESET)]


def renamed_range(document: Document, position: Json) -> Json | None:
    """The range of the name at a position, if there is one."""
    mention = document.mention_at(position)
    return document.range_of(mention) if mention else None


def rename(document: Document, position: Json, new: str, presets: str) -> list[Json]:
    """The edits that give the name at a position another one everywhere. Raises CannotRename where it would then be another variable's too,
    or where not all of its places are known."""
    mention = document.mention_at(position)
    if mention is None:
        raise CannotRename("there is no variable here")
    old, others = mention.name, document.symbols.names() | names_of_presets(presets)
    if not NAME_FORM.fullmatch(new):
        raise CannotRename(f"{printable(new)} is no name: a name is a small letter, and then small letters and digits")
    if new.encode() != old and new.encode() in others:
        raise CannotRename(f"{new} is the name of another variable")
    if old in names_of_presets(presets):
        raise CannotRename(f"{old.decode()} has a preset in the settings, which would stay as it is")
    if document.symbols.is_cut_short:
        raise CannotRename("the program has a string without its end, so not all places are known")
    return [{"range": document.range_of(one), "newText": new} for one in document.mentions_of(old)]


def completions(document: Document, position: Json, with_snippets: bool) -> list[Json]:
    """The words and names that can stand at a position; all of them, where the text before it is no beginning of a program."""
    data, offset = document.text.data, document.text.offset(position)
    line_start = document.text.offset({"line": position["line"], "character": 0})
    typed = TYPED.search(data, line_start, offset)
    start = typed.start() if typed else offset
    tokens = next_tokens(data[:start])
    words = [entry for word, entry in manual().items() if tokens is None or word in tokens]
    items = [item for entry in words for item in word_items(entry, with_snippets)]
    items += [{"label": word, "kind": KEYWORD} for word in ("ELSE", "END") if tokens is None or word in tokens]
    if tokens is None or NAME in tokens:
        names = {mention.name for mention in document.symbols.mentions if mention.offset != start}
        items += [{"label": name.decode(), "kind": VARIABLE} for name in sorted(names)]
    return items


def word_items(entry: Entry, with_snippets: bool) -> Iterator[Json]:
    """The completions of a word: alone, or with each of its forms to fill in."""
    kind = KEYWORD if f"`{entry.word}" in COMMANDS else FUNCTION
    shared = {"kind": kind, "documentation": entry.meaning}
    if not with_snippets:
        yield {**shared, "label": entry.word, "detail": ", ".join(entry.forms)}
        return
    for form in entry.forms:
        yield {**shared, "label": form, "filterText": entry.word, "insertText": snippet(form), "insertTextFormat": SNIPPET}


def snippet(form: str) -> str:
    """The form of a command as a text with places to fill in."""
    head, _, rest = form.replace(",..", "").partition(" .. ")
    parts = PLACEHOLDER.split(head)
    names = PLACEHOLDER.findall(head)
    filled = "".join(f"{part}${{{number}:{name}}}" for number, (part, name) in enumerate(zip(parts, names), 1)) + parts[-1]
    lists = "".join(f"\n\t${number}\n{word}" for number, word in zip((len(names) + 1, 0), rest.split(" .. "))) if rest else ""
    return filled + lists


def outline(document: Document) -> list[Json]:
    """The loops and branches of a program, each with those in it."""

    def symbols(blocks: Sequence[Block], depth: int) -> list[Json]:
        return [symbol(block, depth) for block in blocks] if depth < MOST_DEPTH else []

    def symbol(block: Block, depth: int) -> Json:
        return {
            "name": document.head(block.offset),
            "kind": BOOLEAN if block.word in ("IF", "ELSE") else ARRAY,
            "range": document.text.span(block.offset, max(block.end, block.head_end)),
            "selectionRange": document.text.span(block.offset, block.head_end),
            "children": symbols(block.inner, depth + 1),
        }

    return symbols(document.symbols.blocks, 0)


def folds(document: Document) -> list[Json]:
    """The lines that can be folded: those of a block up to the word that ends it, and of comments that stand alone below one another."""
    found = []
    for block in set(document.symbols.block_of.values()):
        otherwise = next((one for one in block.inner if one.word == "ELSE"), None)
        end = otherwise.offset if otherwise else block.end
        found.append({"startLine": document.line(block.offset) - 1, "endLine": document.line(end) - 2})
    found += comment_folds(document)
    return sorted((fold for fold in found if fold["startLine"] < fold["endLine"]), key=lambda fold: int(fold["startLine"]))


def comment_folds(document: Document) -> Iterator[Json]:
    """The lines of comments that stand alone below one another."""
    first = last = -2
    for comment in document.symbols.comments:
        line = document.line(comment.offset) - 1
        if document.text.data[document.text.starts[line] : comment.offset].strip():
            continue
        if line != last + 1:
            yield {"startLine": first, "endLine": last, "kind": "comment"}
            first = line
        last = line
    yield {"startLine": first, "endLine": last, "kind": "comment"}
