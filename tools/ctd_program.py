"""Programs of checktestdata as trees: the tokens of a text, and what the grammar makes of them, each part with its place in the text.

The tables of the parser are made from the grammar's text as docs/LANGUAGE.md prints it (SLR(1): Aho, Sethi and Ullman, Compilers,
section 4.7). `tables` fails for a grammar that this method cannot decide, so there is one way to read each program. An LR parser never
takes a token with which no program goes on: so the token at which it stops is the place of the syntax error, and nobody has to think of it.
"""
from __future__ import annotations

import re
from dataclasses import dataclass, field
from functools import lru_cache
from itertools import chain
from typing import List, NamedTuple, Tuple, Union

# What the grammar calls the tokens that are not given by their own text.
NAME = "NAME"
NUMERAL = "NUMERAL"
TEXT = "TEXT"
END = "the end of the text"

GREATEST = 2**127 - 1
LEFT_OUT_WORDS = frozenset({"FLOAT", "FLOATP", "FIXED", "SCIENTIFIC"})

# The grammar of docs/LANGUAGE.md.
GRAMMAR = r"""
program    = {command}
command    = "SPACE" | "NEWLINE" | "EOF"
           | "INT" "(" expr "," expr ["," variable] ")"
           | "STRING" "(" expr ")"
           | "REGEX" "(" TEXT ["," variable] ")"
           | "ASSERT" "(" test ")"
           | "SET" "(" variable "=" expr {"," variable "=" expr} ")"
           | "UNSET" "(" NAME {"," NAME} ")"
           | "REP" "(" expr ["," command] ")" {command} "END"
           | "REPI" "(" variable "," expr ["," command] ")" {command} "END"
           | "WHILE" "(" test ["," command] ")" {command} "END"
           | "WHILEI" "(" variable "," test ["," command] ")" {command} "END"
           | "IF" "(" test ")" {command} ["ELSE" {command}] "END"
variable   = NAME ["[" expr {"," expr} "]"]

expr       = product | expr "+" product | expr "-" product
product    = signed | product "*" signed | product "/" signed | product "%" signed
signed     = power | "-" signed
power      = atom ["^" exponent]
exponent   = power | "-" exponent
atom       = NUMERAL | TEXT | variable | "STRLEN" "(" expr ")" | "(" expr ")"

test       = both | test "||" both
both       = negation | both "&&" negation
negation   = plain | "!" negation
plain      = expr comparison expr | "MATCH" "(" expr ")" | "ISEOF"
           | "UNIQUE" "(" NAME {"," NAME} ")" | "INARRAY" "(" expr "," NAME ")"
           | "(" test ")"
comparison = "<" | ">" | "<=" | ">=" | "==" | "!="
"""

# A token, with the blanks and comments before it. A backslash and the byte behind it are never the closing quote of a literal.
PIECE = re.compile(
    rb"""
    (?: [ \t\r\n]+ | \#[^\n]* )*
    (?: (?P<mark> <= | >= | == | != | && | \|\| | [()\[\],=+\-*/%^!<>] )
    | (?P<word> [A-Z]+ )
    | (?P<name> [a-z][a-z0-9]* )
    | (?P<numeral> [0-9]+ )
    | (?P<literal> " [^"\\]* (?: \\. [^"\\]* )* " )
    | (?P<end> \Z )
    | (?P<unfinished> " )
    | (?P<unexpected> . ) )
    """,
    re.VERBOSE | re.DOTALL,
)
ESCAPE = re.compile(rb'\\(?: ([0-7]{1,3}) | ([ntrb"\\]) | \n )', re.VERBOSE)
SIMPLE_ESCAPES = {b"n": b"\n", b"t": b"\t", b"r": b"\r", b"b": b"\b", b'"': b'"', b"\\": b"\\"}


class Refused(Exception):
    """A text that is no program: the message, the offset to which it points, and for a syntax error the tokens that could stand there."""

    def __init__(self, message: str, offset: int | None = None, expected: tuple[str, ...] = ()) -> None:
        super().__init__(message)
        self.message = message
        self.offset = offset
        self.expected = expected


class Token(NamedTuple):
    """A token: its symbol in the grammar, what it stands for, and the offsets of its first byte and behind its last."""

    symbol: str
    value: Union[bytes, int]
    offset: int
    end: int


def cut(text: bytes) -> list[Token]:
    """The tokens of a program, with one for its end. Raises Refused for the first wrong token."""
    tokens: list[Token] = []
    for piece in PIECE.finditer(text):
        kind = piece.lastgroup or ""
        spelling, (offset, end) = piece[kind], piece.span(kind)
        if kind == "end":
            return [*tokens, Token(END, b"", offset, end)]
        if kind == "unfinished":
            raise Refused("unfinished string", offset)
        if kind == "unexpected":
            raise Refused("unexpected byte", offset)
        tokens.append(token_of(text, kind, spelling, offset, end))
    raise AssertionError("each text has an end")


def token_of(text: bytes, kind: str, spelling: bytes, offset: int, end: int) -> Token:
    """The token of a spelling. Raises Refused where it has a wrong form."""
    if kind == "name":
        return Token(NAME, spelling, offset, end)
    if kind == "numeral":
        return Token(NUMERAL, numeral(text, offset, end), offset, end)
    if kind == "literal":
        return Token(TEXT, literal(spelling, offset), offset, end)
    symbol = spelling.decode()
    if symbol in LEFT_OUT_WORDS:
        raise Refused("not in this profile", offset)
    return Token(symbol, spelling, offset, end)


def numeral(text: bytes, offset: int, end: int) -> int:
    """The number of the digits from an offset to an end."""
    if text[end : end + 1] in (b".", b"e", b"E") or (text[offset : offset + 1] == b"0" and end - offset > 1):
        raise Refused("not in this profile", offset)
    # no number of more than 39 digits is small enough
    number = int(text[offset : min(end, offset + 40)])
    if number > GREATEST:
        raise Refused("number too large", offset)
    return number


def literal(spelling: bytes, offset: int) -> bytes:
    """The bytes that a literal stands for; the offset is that of its opening quote."""

    def byte_of(escape: re.Match[bytes]) -> bytes:
        digits, simple = escape.groups()
        if digits is None:
            return SIMPLE_ESCAPES[simple] if simple else b""
        if int(digits, 8) > 255:
            raise Refused("octal escape above 255", offset + escape.start())
        return bytes([int(digits, 8)])

    between = spelling[1:-1]
    return ESCAPE.sub(byte_of, spelling)[1:-1] if b"\\" in between else between


RULE = re.compile(r"^([a-z]+) += ((?:.|\n +)*)$", re.MULTILINE)
SYMBOL = re.compile(r'"([^"]+)"|([A-Za-z]+)|([{}\[\]|])')
START = "start"

# The symbols that spell another, in order.
Spelling = Tuple[str, ...]


@dataclass(frozen=True)
class Production:
    """One way to spell a symbol. What stands in braces is spelled by a symbol of its own, which begins with a brace."""

    symbol: str
    parts: tuple[str, ...]

    @property
    def length(self) -> int:
        return len(self.parts)

    @property
    def is_repetition(self) -> bool:
        """Whether this spells what stands in braces, which belongs to the production around it."""
        return self.symbol.startswith("{")


@dataclass
class Grammar:
    """The productions of each symbol that has some."""

    productions: dict[str, list[Production]] = field(default_factory=dict)

    def add(self, symbol: str, spellings: list[Spelling]) -> None:
        self.productions.setdefault(symbol, []).extend(Production(symbol, parts) for parts in spellings)

    def add_rules(self, text: str) -> None:
        """Adds the rules of a text in the notation of docs/LANGUAGE.md."""
        for rule in RULE.finditer(text):
            marks: list[tuple[str, str, str]] = SYMBOL.findall(rule[2])
            marks.reverse()
            self.add(rule[1], self.alternatives(marks, ""))

    def alternatives(self, marks: list[tuple[str, str, str]], closing: str) -> list[Spelling]:
        """All spellings up to a closing brace or bracket, or to the end of the rule; takes them off the end of the list."""
        found: list[Spelling] = []
        spellings: list[Spelling] = [()]
        while marks:
            quoted, name, mark = marks.pop()
            if quoted or name:
                spellings = [(*spelling, quoted or name) for spelling in spellings]
            elif mark == "[":
                inner = self.alternatives(marks, "]")
                spellings = [spelling + once for spelling in spellings for once in ((), *inner)]
            elif mark == "{":
                symbol = f"{{{len(self.productions)}"
                self.add(symbol, [()])
                self.add(symbol, [(symbol, *once) for once in self.alternatives(marks, "}")])
                spellings = [(*spelling, symbol) for spelling in spellings]
            else:
                found += spellings
                if mark == closing:
                    return found
                spellings = [()]
        assert not closing, f"{closing} is missing"
        return found + spellings

    def check_names(self) -> None:
        """Fails where a name of the grammar has no rule; those of tokens are written in capitals, and all others are quoted marks."""
        for production in chain.from_iterable(self.productions.values()):
            for part in production.parts:
                assert part in self.productions or not re.fullmatch("[a-z]+", part), f"no rule for {part}"

    def first(self) -> dict[str, set[str]]:
        """The tokens with which each symbol can begin, and "" where it can be empty."""
        first: dict[str, set[str]] = {symbol: set() for symbol in self.productions}
        grown = True
        while grown:
            grown = False
            for symbol, productions in self.productions.items():
                for production in productions:
                    new = first_of(production.parts, first) - first[symbol]
                    first[symbol] |= new
                    grown = grown or bool(new)
        return first

    def follow(self) -> dict[str, set[str]]:
        """The tokens that can stand behind each symbol."""
        first = self.first()
        follow: dict[str, set[str]] = {symbol: set() for symbol in self.productions}
        grown = True
        while grown:
            grown = False
            for productions in self.productions.values():
                for production in productions:
                    for index, part in enumerate(production.parts):
                        if part in follow:
                            behind = first_of(production.parts[index + 1 :], first)
                            new = behind - {""} | (follow[production.symbol] if "" in behind else set())
                            grown = grown or not new <= follow[part]
                            follow[part] |= new
        return follow


def first_of(parts: tuple[str, ...], first: dict[str, set[str]]) -> set[str]:
    """The tokens with which these parts can begin, and "" where they can be empty."""
    found: set[str] = set()
    for part in parts:
        begins = first.get(part, {part})
        found |= begins - {""}
        if "" not in begins:
            return found
    return found | {""}


# A production, and how many of its parts were read.
Item = Tuple[Production, int]


@dataclass
class State:
    """What an LR parser does for each next token: it goes to another state, or has read a production; and where a read symbol leads."""

    shifts: dict[str, int] = field(default_factory=dict)
    reductions: dict[str, Production] = field(default_factory=dict)


def tables(grammar: Grammar, start: str) -> list[State]:
    """The states of the parser for programs that are a start symbol and END; the first state is that of the start."""
    grammar.add(START, [(start, END)])
    grammar.check_names()
    follow = grammar.follow()
    kernels: dict[frozenset[Item], int] = {frozenset({(grammar.productions[START][0], 0)}): 0}
    waiting = list(kernels)
    states: list[State] = []
    while len(states) < len(waiting):
        items = closure(grammar, waiting[len(states)])
        state = State()
        states.append(state)
        kernel_of: dict[str, set[Item]] = {}
        for production, read in items:
            if read == len(production.parts):
                for token in follow[production.symbol]:
                    assert token not in state.reductions, f"{production} and {state.reductions[token]} before {token}"
                    state.reductions[token] = production
            else:
                kernel_of.setdefault(production.parts[read], set()).add((production, read + 1))
        for part, kernel in kernel_of.items():
            assert part not in state.reductions, f"{state.reductions[part]} or more before {part}"
            frozen = frozenset(kernel)
            if frozen not in kernels:
                kernels[frozen] = len(kernels)
                waiting.append(frozen)
            state.shifts[part] = kernels[frozen]
    return states


def closure(grammar: Grammar, kernel: frozenset[Item]) -> list[Item]:
    """These items, and those with which the symbols that they wait for can begin."""
    items = list(kernel)
    seen: set[str] = set()
    for production, read in items:
        if read < len(production.parts):
            part = production.parts[read]
            if part in grammar.productions and part not in seen:
                seen.add(part)
                items.extend((begun, 0) for begun in grammar.productions[part])
    return items


@lru_cache(maxsize=None)
def states() -> list[State]:
    """The tables of the language of programs."""
    grammar = Grammar()
    grammar.add_rules(GRAMMAR)
    return tables(grammar, "program")


@dataclass
class Node:
    """A symbol of the grammar, and what it is spelled by: several parts. A symbol that is spelled by one part is that part."""

    symbol: str
    parts: list[Tree]

    def __post_init__(self) -> None:
        self.offset: int = self.parts[0].offset
        self.end: int = self.parts[-1].end


Tree = Union[Node, Token]
# What stands on the parser's stack: a tree, or the trees of what stands in braces.
Entry = Union[Tree, List[Tree]]


def parse(tokens: list[Token], table: list[State] | None = None) -> list[Tree]:
    """The commands of a program, of which the last token is its end. Raises Refused at the first token with which no program goes on."""
    table = states() if table is None else table
    # the states that led here, and what was read between each two of them
    path = [0]
    entries: list[Entry] = []
    for index, token in enumerate(tokens):
        symbol = token.symbol
        state = table[path[-1]]
        while symbol not in state.shifts:
            production = state.reductions.get(symbol)
            if production is None:
                raise Refused("syntax error", token.offset, expected(table, tokens[:index]))
            length = len(production.parts)
            if length == 1:
                path.pop()
            else:
                start = len(entries) - length
                entries[start:] = [entry_of(production, entries[start:])]
                del path[start + 1 :]
            path.append(table[path[-1]].shifts[production.symbol])
            state = table[path[-1]]
        path.append(state.shifts[symbol])
        entries.append(token)
    return program_of(entries)


def expected(table: list[State], tokens: list[Token]) -> tuple[str, ...]:
    """The tokens with which some program goes on, behind others with which one does."""
    path = [0]
    for token in tokens:
        goes_on(table, path, token.symbol)
    state = table[path[-1]]
    choices = [symbol for symbol in state.shifts.keys() | state.reductions.keys() if is_token(symbol)]
    return tuple(sorted(choice for choice in choices if goes_on(table, [*path], choice)))


def is_token(symbol: str) -> bool:
    """Whether a symbol of the grammar is a token: all others are written in small letters, or stand for what is in braces."""
    return symbol == END or not (symbol.islower() or symbol.startswith("{"))


def goes_on(table: list[State], path: list[int], symbol: str) -> bool:
    """Whether a parser that went through these states takes a token; it then goes on."""
    while symbol not in table[path[-1]].shifts:
        production = table[path[-1]].reductions.get(symbol)
        if production is None:
            return False
        del path[len(path) - len(production.parts) :]
        path.append(table[path[-1]].shifts[production.symbol])
    path.append(table[path[-1]].shifts[symbol])
    return True


def entry_of(production: Production, parts: list[Entry]) -> Entry:
    """What a production of several parts, or of none, is."""
    trees = trees_of(parts)
    return trees if production.is_repetition else Node(production.symbol, trees)


def trees_of(entries: list[Entry]) -> list[Tree]:
    """The trees of entries, in order. A list at the front goes on; it is not copied."""
    trees: list[Tree] = []
    for index, entry in enumerate(entries):
        if not isinstance(entry, list):
            trees.append(entry)
        elif index == 0:
            trees = entry
        else:
            trees.extend(entry)
    return trees


def program_of(entries: list[Entry]) -> list[Tree]:
    """The commands of a program, which stands before its end."""
    commands, end = entries
    assert isinstance(commands, list) and isinstance(end, Token) and end.symbol == END
    return commands


BLOCKS = ("REP", "REPI", "WHILE", "WHILEI", "IF")


@dataclass(frozen=True, eq=False)
class Command:
    """A command of a program: its word, the trees in its parentheses without the commas, and where it stands. A loop has a body and may
    have a separator; IF has a body, and where it has an ELSE other commands."""

    word: str
    offset: int
    end: int
    arguments: list[Tree]
    # the offset behind the parenthesis that closes the arguments, or behind the word
    head_end: int
    separator: Command | None = None
    body: list[Command] = field(default_factory=list)
    otherwise: list[Command] | None = None
    # the offset behind ELSE
    else_end: int = 0


def command_of(tree: Tree) -> Command:
    """The command that a tree of the grammar is."""
    if isinstance(tree, Token):
        return Command(tree.symbol, tree.offset, tree.end, [], tree.end)
    word = tree.parts[0].symbol
    closing = next(index for index, part in enumerate(tree.parts) if part.symbol == ")")
    arguments = [part for part in tree.parts[2:closing] if part.symbol not in (",", "=")]
    behind = tree.parts[closing + 1 : -1] if word in BLOCKS else []
    split = next((index for index, part in enumerate(behind) if part.symbol == "ELSE"), None)
    body = [command_of(part) for part in behind[:split]]
    otherwise = None if split is None else [command_of(part) for part in behind[split + 1 :]]
    else_end = 0 if split is None else behind[split].end
    separator = None
    if word in BLOCKS and len(arguments) > (2 if word in ("REPI", "WHILEI") else 1):
        separator = command_of(arguments.pop())
    return Command(word, tree.offset, tree.end, arguments, tree.parts[closing].end, separator, body, otherwise, else_end)


def commands_of(text: bytes) -> list[Command]:
    """The commands of a program. Raises Refused for a text that is none; patterns and the depth are left to the checker."""
    return [command_of(tree) for tree in parse(cut(text))]
