"""The words of the command line (README.md, How to call it)."""

from collections.abc import Sequence
from dataclasses import dataclass, field

from . import limits
from .faults import Misused
from .presets import Presets, read_presets

FLAGS = {"g": "generate", "q": "quiet", "w": "whitespace-ok", "h": "help", "V": "version"}
OPTIONS_WITH_VALUE = {"D": "define", "max-steps": "max-steps"}
LONG_NAMES = {name: name for name in [*FLAGS.values(), "define", "max-steps"]}


class BadArguments(Misused):
    def __init__(self) -> None:
        super().__init__("bad arguments\nTry 'checktestdata --help'.")


class Asked(Exception):
    """Help or version was asked for."""

    def __init__(self, option: str) -> None:
        super().__init__(option)
        self.option = option


@dataclass
class Words:
    """What was given: the options by their long names, flags with an empty text; and the files."""

    options: dict[str, str] = field(default_factory=dict)
    files: list[str] = field(default_factory=list)

    def add_option(self, name: str, value: str = "") -> None:
        if name in ("help", "version"):
            raise Asked(name)
        if name in self.options:
            raise BadArguments
        self.options[name] = value

    def add_file(self, name: str) -> None:
        self.files.append(name)
        if len(self.files) > 2:
            raise BadArguments


@dataclass(frozen=True)
class Settings:
    """What the words ask for."""

    program: str
    data: str | None
    presets: Presets
    whitespace_ok: bool
    quiet: bool
    steps: int


def sort_words(texts: Sequence[str]) -> Words:
    """Takes the words from left to right. Raises BadArguments or Asked at the first word that says so."""
    words = Words()
    waiting = list(reversed(texts))
    while waiting:
        text = waiting.pop()
        if text == "--":
            while waiting:
                words.add_file(waiting.pop())
        elif text.startswith("--"):
            take_long(words, text[2:], waiting)
        elif text.startswith("-") and text != "-":
            take_short(words, text[1:], waiting)
        else:
            words.add_file(text)
    if not words.files:
        raise BadArguments
    return words


def take_long(words: Words, text: str, waiting: list[str]) -> None:
    """Takes an option by its long name, which stood behind two minuses."""
    name, equals, value = text.partition("=")
    if name not in LONG_NAMES:
        raise BadArguments
    if name in FLAGS.values():
        if equals:
            raise BadArguments
        words.add_option(name)
    else:
        words.add_option(name, value if equals else next_value(waiting))


def take_short(words: Words, letters: str, waiting: list[str]) -> None:
    """Takes the options of a word with one minus."""
    for index, letter in enumerate(letters):
        if letter == "D":
            rest = letters[index + 1 :].removeprefix("=")
            words.add_option("define", rest if letters[index + 1 :] else next_value(waiting))
            return
        if letter not in FLAGS:
            raise BadArguments
        words.add_option(FLAGS[letter])


def next_value(waiting: list[str]) -> str:
    """The value of an option in the next word, which may not look like an option."""
    if not waiting or (waiting[-1].startswith("-") and waiting[-1] != "-"):
        raise BadArguments
    return waiting.pop()


def settings(words: Sequence[bytes]) -> Settings:
    """What the words ask for. Raises Misused or Asked."""
    try:
        given = sort_words([word.decode("utf-8") for word in words])
    except UnicodeDecodeError as fault:
        raise BadArguments from fault
    if "generate" in given.options:
        raise Misused("generating test data is not supported")
    define = given.options.get("define")
    presets = {} if define is None else read_presets(define.encode("utf-8"))
    return Settings(
        program=given.files[0],
        data=given.files[1] if len(given.files) > 1 else None,
        presets=presets,
        whitespace_ok="whitespace-ok" in given.options,
        quiet="quiet" in given.options,
        steps=step_limit(given.options.get("max-steps")),
    )


def step_limit(text: str | None) -> int:
    if text is None:
        return limits.STEPS
    if not (text.isascii() and text.isdigit()) or len(text.lstrip("0")) > 20 or int(text[-20:]) > limits.GREATEST_COUNT:
        raise Misused("bad step limit")
    return int(text[-20:])
