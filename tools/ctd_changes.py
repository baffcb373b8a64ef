"""The changes that ctd-mutate makes in files of test data: what kinds there are, and at which places of a file they can be made."""
from __future__ import annotations

import re
from collections.abc import Callable, Iterable, Iterator
from dataclasses import dataclass
from itertools import chain, islice
from typing import Optional

from ctd_edits import BLOCK, CONTEXT, Blocks, Edit, Match, Place, Source
from ctd_lists import LETTER, Counted, Form

GOLDEN_RATIO = (5**0.5 - 1) / 2
HUGE = b"9" * 40
SEPARATORS = b" \t,;:"

# A number that stands for itself: not a part of a word, of a longer number or of a fraction. Of longer ones than 1,000 digits nothing is made.
NUMBER = rb"(?<![\w.+-])(-?)([0-9]{1,1000})(?![\w.])"
PAIR = rb"(?=(?<![\w.+-])(-?[0-9]{1,1000})\s{1,1000}(-?[0-9]{1,1000})(?![\w.]))"
LATER_NUMBER = rb"(?<=[0-9][ \t,;:])-?[0-9]{1,1000}(?![\w.])"
LINE_START = rb"(?:\A|(?<=\n))(?!\Z)"
# Words and numbers of a line.
WORD = rb"[^\s,;:]{1,1000}"
WORD_START = rb"(?<![^\s,;:])"
TWO_WORDS = rb"(?=" + WORD_START + rb"(" + WORD + rb")([ \t,;:]{1,9})(" + WORD + rb")(?![^\s,;:]))"
# Where text can stand at the end: behind the last digit, at the end of the last line, and behind it.
END = rb"(?<=[0-9])(?=[^0-9]{0,1000}\Z)|\n\Z|(?<=[\s\S])\Z"
# How many bytes of a line are looked at before a word.
NEAR = 1000

EditAt = Callable[[Place], Optional[Edit]]
EditsAt = Callable[[Place], Iterable[Edit]]


def edit_of(start: int, end: int, new: bytes) -> Edit:
    """A change to a few bytes."""
    return Edit(start, end, lambda: [new])


def replaced(new: Callable[[Match], bytes]) -> EditAt:
    """The change of a whole match."""
    return lambda place: edit_of(place.start, place.end, new(place.match))


def neighbour(changed: int, other: int, step: int) -> EditAt:
    """The change of one number of a pair to the other and a step."""

    def edit(place: Place) -> Edit:
        found = place.match
        return edit_of(place.offset + found.start(changed), place.offset + found.end(changed), b"%d" % (int(found[other]) + step))

    return edit


def as_first(place: Place) -> Edit | None:
    """The change of a number to the first of its line, where another number stands between them."""
    start = place.line_start()
    first = re.search(NUMBER, place.source.read(start, start + CONTEXT))
    if first is None or re.search(NUMBER, place.source.read(start + first.end(), min(place.start, start + CONTEXT))) is None:
        return None
    return edit_of(place.start, place.end, first[0])


def dropped_number(place: Place) -> Edit:
    """The change that takes a number away, with a separator at its side."""
    before, after = (one and one in SEPARATORS for one in (place.byte(place.start - 1), place.byte(place.end)))
    return edit_of(place.start - bool(before), place.end + bool(after and not before), b"")


def extra_number(place: Place) -> Edit:
    """The change that writes a number twice, with the separator that it has at a side, or else a space."""
    sides = [one for one in (place.byte(place.start - 1), place.byte(place.end)) if one and one in SEPARATORS]
    return edit_of(place.end, place.end, (sides or [b" "])[0] + place.match[0])


def dropped_line(place: Place) -> Edit:
    return edit_of(place.start, place.source.line_end(place.start), b"")


def doubled_line(place: Place) -> Edit:
    """The change that writes a line twice; where it has no line feed, the first time gets one."""
    source, start, feed = place.source, place.start, place.source.line_feed(place.start)

    def line() -> Iterator[bytes]:
        yield from source.blocks(start, source.size if feed is None else feed)
        yield b"\n"

    return Edit(start, start, line)


def exchanged_lines(place: Place) -> Edit | None:
    """The change of two lines, each of which has its line feed outside."""
    source, start, feed = place.source, place.start, place.source.line_feed(place.start)
    if feed is None or feed + 1 == source.size:
        return None
    next_feed = source.line_feed(feed + 1)
    end = source.size if next_feed is None else next_feed

    def lines() -> Iterator[bytes]:
        yield from source.blocks(feed + 1, end)
        yield b"\n"
        yield from source.blocks(start, feed)

    return Edit(start, end, lines)


def words_of(text: bytes) -> list[bytes]:
    return re.findall(WORD, text)


def line_above(place: Place) -> tuple[bytes, bytes]:
    """The line above one that begins at a place, and the line; empty ones where there is none, or the lines are long."""
    text, start = place.match.string, place.match.start()
    above, feed = text.rfind(b"\n", 0, max(start - 1, 0)) + 1, text.find(b"\n", start)
    is_cut = (above == 0 and place.offset > 0) or (feed < 0 and place.offset + len(text) < place.source.size)
    return (b"", b"") if start == 0 or is_cut else (text[above : start - 1], text[start : feed if feed >= 0 else None])


def as_line_above(new: Callable[[bytes], bytes], least: int = 1) -> EditAt:
    """The change of a line to what is made of the one above it, where both have as many words, and at least so many."""

    def edit(place: Place) -> Edit | None:
        above, line = line_above(place)
        is_alike = above != line and least <= len(words_of(above)) == len(words_of(line))
        return edit_of(place.start, place.start + len(line), new(above)) if is_alike else None

    return edit


def reversed_words(line: bytes) -> bytes:
    """The words of a line in reverse order; what parts them stays."""
    words = iter(words_of(line)[::-1])
    return re.sub(WORD, lambda _: next(words), line)


def as_above(place: Place) -> Edit | None:
    """The change of a word or number to the one above it, near the start of a line."""
    text, start = place.match.string, place.match.start()
    line = text.rfind(b"\n", max(0, start - NEAR), start) + 1
    above = text.rfind(b"\n", max(0, line - 1 - NEAR), max(0, line - 1)) + 1
    if not line or not (above or place.offset == 0):
        return None
    column, words = len(words_of(text[line:start])), words_of(text[above : line - 1])
    return edit_of(place.start, place.end, words[column]) if column < len(words) else None


def other_letter(place: Place) -> Edit | None:
    """The change of a letter to another one of those that the data have, at other places to others."""
    letters = sorted(place.source.form.letters - {place.match[0]})
    return edit_of(place.start, place.end, letters[place.start % len(letters)]) if letters else None


def exchanged_letters(place: Place) -> Edit:
    return edit_of(place.start, place.start + 2, place.match[2] + place.match[1])


def exchanged_words(place: Place) -> Edit:
    first, between, second = place.match.groups()
    return edit_of(place.start, place.offset + place.match.end(3), second + between + first)


def trailing_text(place: Place) -> Edit:
    """The change that puts text to a place at the end: a letter right behind a number, a word on the last line, or a line more."""
    before = place.byte(place.start - 1)
    text = b"x" if place.match[0] == b"" and before.isdigit() else b"x\n" if before == b"\n" else b" x"
    return edit_of(place.start, place.start, text)


def beyond(extremes: Callable[[Form], set[int]], step: int) -> EditAt:
    """The change of a number that is the greatest or least of its column, by a step."""

    def edit(place: Place) -> Edit | None:
        return edit_of(place.start, place.end, b"%d" % (int(place.match[0]) + step)) if place.start in extremes(place.source.form) else None

    return edit


def longer_word(place: Place) -> Edit | None:
    """The change of the longest word of a column, which gets its last letter twice."""
    source, start = place.source, place.start
    if start not in source.form.longest:
        return None
    for at in range(start, source.size, BLOCK):
        if blank := re.search(rb"\s", source.read(at, at + BLOCK)):
            end = at + blank.start()
            break
    else:
        end = source.size
    return edit_of(end, end, source.read(end - 1, end))


def recounted(source: Source, counted: Counted, items: int, start: int, end: int, new: Callable[[], Blocks] = tuple) -> Edit:
    """The change of a list to so many items more, or fewer, where its bytes from `start` up to `end` give way to others."""

    def blocks() -> Iterator[bytes]:
        yield b"%d" % (counted.number + items)
        yield from source.blocks(counted.count_end, start)
        yield from new()

    return Edit(counted.count_start, end, blocks)


ListEdits = Callable[[Source, Counted], Iterator[Edit]]


def of_lists(edits: ListEdits) -> EditsAt:
    """The changes of the lists that a number counts."""
    return lambda place: (edit for counted in place.source.form.lists.get(place.start, []) for edit in edits(place.source, counted))


def emptied(source: Source, counted: Counted) -> Iterator[Edit]:
    items = counted.items or counted.number
    for start in [counted.start, counted.before] if counted.has_line else [counted.before]:
        yield recounted(source, counted, -items, start, counted.end)


def single(source: Source, counted: Counted) -> Iterator[Edit]:
    if counted.items > 2:
        yield recounted(source, counted, 1 - counted.items, counted.first_end, counted.end)


def shorter(source: Source, counted: Counted) -> Iterator[Edit]:
    if counted.items > 1:
        yield recounted(source, counted, -1, counted.last_but_one_end, counted.end)


def longer(source: Source, counted: Counted) -> Iterator[Edit]:
    start, end = counted.longest
    if counted.items:
        yield recounted(source, counted, 1, end, end, lambda: chain([counted.separator], source.blocks(start, end)))


def doubled(source: Source, counted: Counted) -> Iterator[Edit]:
    start, end = counted.start, counted.end
    yield recounted(source, counted, counted.items or counted.number, end, end, lambda: chain([counted.separator], source.blocks(start, end)))


def returns_everywhere(place: Place) -> Edit:
    """The change that gives each line feed a carriage return, where it has none."""
    source = place.source

    def lines() -> Iterator[bytes]:
        held = b""
        for block in source.blocks(0, source.size):
            text = held + block
            # (a line feed may be the first byte of the next block)
            held = b"\r" if text.endswith(b"\r") else b""
            yield text.removesuffix(held).replace(b"\r\n", b"\n").replace(b"\n", b"\r\n")
        yield held

    return Edit(0, source.size, lines)


@dataclass(frozen=True)
class Kind:
    """A kind of change: its name, what it does, where in a file it can be made, the changes at such a place, and what a program sees that rejects
    the changed file."""

    name: str
    title: str
    place: re.Pattern[bytes]
    edits_at: EditsAt
    sees: str
    # Whether the changed file may well be another one that fits; and whether it is one of blanks that may differ with -w.
    may_fit: bool = False
    is_blank: bool = False

    @property
    def question(self) -> str:
        """What a jury has to ask where a program lets the changed file through."""
        return f"does the program see {self.sees}?"

    def edits(self, source: Source, most: int) -> list[Edit]:
        """Changes of this kind, at most so many, at places that are spread over the data."""
        first = list(islice(self.edits_from(source, 0), most + 1))
        if len(first) <= most:
            return first
        chosen: dict[int, Edit] = {}
        for number in range(most):
            # (not in equal steps, which would take the same column of each line)
            offset = source.offset_at((number + number * GOLDEN_RATIO % 1) / most)
            edit = next(self.edits_from(source, offset), None)
            if edit is None:
                break
            chosen[edit.start] = edit
        for edit in first:
            if len(chosen) < most:
                chosen.setdefault(edit.start, edit)
        return [chosen[start] for start in sorted(chosen)]

    def edits_from(self, source: Source, offset: int) -> Iterator[Edit]:
        """All changes of this kind from an offset on, in order; none that changes nothing."""
        for place in source.places(self.place, offset):
            yield from (edit for edit in self.edits_at(place) if not edit.changes_nothing(source))


def wrong(name: str, title: str, place: bytes, edit: EditAt, sees: str = "", is_blank: bool = False) -> Kind:
    """A kind of files that should not fit."""
    return Kind(name, title, re.compile(place), at_most_one(edit), sees or title, is_blank=is_blank)


def other(name: str, title: str, place: bytes, edit: EditAt, sees: str) -> Kind:
    """A kind of files that may fit."""
    return Kind(name, title, re.compile(place), at_most_one(edit), sees, may_fit=True)


def other_list(name: str, title: str, edits: ListEdits, sees: str) -> Kind:
    """A kind of files in which a list has another number of items, and its count too."""
    return Kind(name, title, re.compile(NUMBER), of_lists(edits), sees, may_fit=True)


def at_most_one(edit: EditAt) -> EditsAt:
    """The change at a place, if there is one."""
    return lambda place: (one for one in [edit(place)] if one is not None)


KINDS = [
    wrong("trailing-space", "a space at the end of a line", rb"\n|(?<=[^\n])\Z", replaced(lambda found: b" " + found[0]), is_blank=True),
    wrong("no-last-newline", "no line feed at the end of the file", rb"\n\Z", replaced(lambda found: b""), sees="that the last line feed is missing"),
    wrong("crlf", "a carriage return at the end of a line", rb"(?<!\r)\n", replaced(lambda found: b"\r\n"), is_blank=True),
    wrong("crlf-everywhere", "a carriage return at the end of each line", rb"\A", returns_everywhere, is_blank=True),
    wrong("tab", "a tab in place of a space", rb" ", replaced(lambda found: b"\t"), is_blank=True),
    wrong("doubled-separator", "a separator twice", rb"(?<=[^\s,;:])[ \t,;:](?=[^\s,;:])", replaced(lambda found: found[0] * 2), is_blank=True),
    wrong("blank-line", "an extra blank line", rb"\A|(?<=\n)", replaced(lambda found: b"\n")),
    wrong("byte-order-mark", "a byte order mark", rb"\A", replaced(lambda found: b"\xef\xbb\xbf")),
    wrong("leading-zero", "a number with a leading zero", NUMBER, replaced(lambda found: found[1] + b"0" + found[2])),
    wrong("minus-zero", "-0 in place of 0", rb"(?<![\w.+-])0(?![\w.])", replaced(lambda found: b"-0")),
    wrong("plus", "a number with a plus", rb"(?<![\w.+-])[0-9]{1,1000}(?![\w.])", replaced(lambda found: b"+" + found[0])),
    wrong("huge", "a number of 40 digits", NUMBER, replaced(lambda found: HUGE)),
    other("zero", "0 in place of a number", NUMBER, replaced(lambda found: b"0"), "a number that may not be 0"),
    other("minus-one", "-1 in place of a number", NUMBER, replaced(lambda found: b"-1"), "a number that may not be below 0"),
    other("as-next", "a number equal to the one after it", PAIR, neighbour(1, 2, 0), "two neighbours that may not be equal"),
    other("as-previous", "a number equal to the one before it", PAIR, neighbour(2, 1, 0), "two neighbours that may not be equal"),
    other("as-first", "a number equal to the first of its line", LATER_NUMBER, as_first, "a number that may not come again in its line"),
    other("above-next", "a number one more than the one after it", PAIR, neighbour(1, 2, 1), "a number that may not be above the one after it"),
    other("above-previous", "a number one more than the one before it", PAIR, neighbour(2, 1, 1), "a number that may not be above the one before it"),
    other("below-next", "a number one less than the one after it", PAIR, neighbour(1, 2, -1), "a number that may not be below the one after it"),
    other("below-previous", "a number one less than the one before it", PAIR, neighbour(2, 1, -1), "a number that may not be below the one before it"),
    other("above-all", "a number one more than all of its column", NUMBER, beyond(lambda form: form.greatest, 1), "a number that is too large by one"),
    other("below-all", "a number one less than all of its column", NUMBER, beyond(lambda form: form.least, -1), "a number that is too small by one"),
    other("dropped-number", "a number dropped", NUMBER, dropped_number, "that a number is missing"),
    other("extra-number", "a number too many", NUMBER, extra_number, "a number too many"),
    other("as-above", "a word or number equal to the one above it", WORD_START + WORD, as_above, "a name or number that may come only once"),
    other("exchanged-words", "two neighbouring words or numbers exchanged", TWO_WORDS, exchanged_words, "words, or the ends of an edge, in the wrong order"),
    other("dropped-line", "a line dropped", LINE_START, dropped_line, "that a line is missing"),
    other("doubled-line", "a line twice", LINE_START, doubled_line, "a line too many"),
    other("exchanged-lines", "two lines exchanged", LINE_START, exchanged_lines, "lines in the wrong order"),
    other("as-line-above", "a line equal to the one above it", LINE_START, as_line_above(bytes), "a double edge, or another line that may come only once"),
    other("reversed-line", "a line equal to the one above it in reverse", LINE_START + rb"(?=[^\n]{0,1000}[ \t,;:])", as_line_above(reversed_words, 2), "a double edge with its ends exchanged"),
    other("letter-case", "a letter of the other case", rb"[A-Za-z]", replaced(lambda found: found[0].swapcase()), "a letter of the wrong case"),
    other("other-letter", "another letter or sign of the file", LETTER, other_letter, "a letter that may not be there, or too many of it"),
    other("dropped-letter", "a letter or sign dropped", LETTER, replaced(lambda found: b""), "a word that is too short"),
    other("doubled-letter", "a letter or sign twice", LETTER, replaced(lambda found: found[0] * 2), "a word that is too long, or a letter that comes twice"),
    other("exchanged-letters", "two neighbouring letters or cells exchanged", rb"(?=(\S)(?!\1)(\S))", exchanged_letters, "letters or cells in the wrong order"),
    other("longer-word", "a letter more than all words of its column", rb"(?<!\S)\S", longer_word, "a word that is too long by one letter"),
    other("text-at-end", "text behind the last number or line", END, trailing_text, "text that nothing asks for"),
    other_list("empty-list", "a list emptied, and its count 0", emptied, "a list that may not be empty"),
    other_list("single-list", "a list with its first item alone, and its count 1", single, "a list that has to have two items"),
    other_list("shorter-list", "a list without its last item, and its count one less", shorter, "a count that is too small, or odd where it has to be even"),
    other_list("longer-list", "an item of a list or a test case twice, and their count one more", longer, "a list that is too long, or has an item twice"),
    other_list("doubled-list", "all items of a list or test cases twice, and their count too", doubled, "a sum that grows past its limit"),
    other("empty-file", "an empty file", rb"\A", lambda place: edit_of(0, place.source.size, b""), "that there are no data"),
]
