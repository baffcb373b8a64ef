"""How tokens are written: literals with escapes, and the blanks and comments between tokens.

Texts are of Latin-1: each character stands for the byte of its number."""

import re
from collections.abc import Sequence
from random import Random

ESCAPES = {'"': '\\"', "\\": "\\\\", "\n": "\\n", "\t": "\\t", "\r": "\\r", "\b": "\\b"}
BLANKS = ["\n", "\n", "  ", "\t", "\r\n", " # a comment\n", "#\"END(\n", " \n "]
JOINS = re.compile(r"[A-Za-z0-9]\Z")
# What stands in a pattern and has another meaning in a literal.
NEEDS_BACKSLASH = re.compile(r'\\(?=[\\ntrb0-7\n"]|\Z)|"')
JOINED = re.compile(r"[A-Za-z0-9]")


def literal(random: Random, text: str) -> str:
    """A string literal that stands for a text."""
    if text.isalnum() and random.random() < 0.95:
        return f'"{text}"'
    plain = random.random() < 0.8
    return '"' + "".join(escape(random, text, index, plain) for index in range(len(text))) + '"'


def escape(random: Random, text: str, index: int, plain: bool) -> str:
    """A character of a literal: by its shortest escape if it needs one, or by any way to write it."""
    character = text[index]
    if plain or random.random() < 0.5:
        return ESCAPES[character] if character in '"\\' or (character in ESCAPES and random.random() < 0.7) else character
    behind = text[index + 1 : index + 2]
    if random.random() < 0.2:
        return "\\\n" + ESCAPES.get(character, character)
    return f"\\{ord(character):03o}" if behind.isdigit() or random.random() < 0.5 else f"\\{ord(character):o}"


def pattern_literal(random: Random, pattern: str) -> str:
    """A literal of a pattern, in which a backslash is often written once where that means the same."""
    if random.random() < 0.7:
        return '"' + NEEDS_BACKSLASH.sub(r"\\\g<0>", pattern) + '"'
    return literal(random, pattern)


def text_of(random: Random, tokens: Sequence[str]) -> bytes:
    """A text of these tokens, with blanks between them."""
    style = random.random()
    if style < 0.4:
        text = " ".join(tokens)
    else:
        text = "".join(with_blanks(random, tokens, 0.05 if style < 0.8 else 0.5))
    if random.random() < 0.1:
        text += random.choice(BLANKS)
    return text.encode("latin-1")


def with_blanks(random: Random, tokens: Sequence[str], share: float) -> list[str]:
    """These tokens, and blanks: where they would be one token else, and elsewhere for this share of them."""
    parts: list[str] = []
    joins = False
    for token in tokens:
        if random.random() < share:
            parts.append(random.choice(BLANKS))
        elif joins and JOINED.match(token):
            parts.append(" ")
        parts.append(token)
        joins = JOINS.search(token) is not None
    return parts
