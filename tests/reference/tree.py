"""The commands of a program, from what was parsed. Each rule of the grammar has a function, whose names are those of the grammar."""

from collections.abc import Callable, Sequence

from ctd_program import NAME, Token

from .commands import Assert, Command, Eof, If, Int, Newline, Regex, Set, Space, String, Unset
from .conditions import And, Comparison, Condition, InArray, IsEof, Match, Not, Or, Unique
from .expressions import Expression, Length, Literal, Negation, Operation, Variable
from .faults import Refused
from .loops import Rep, While
from .patterns import BadPattern, read_pattern
from .syntax import Tree


def commands(trees: Sequence[Tree]) -> list[Command]:
    return [command(tree) for tree in trees]


def command(tree: Tree) -> Command:
    parts: Sequence[Tree] = [tree] if isinstance(tree, Token) else tree.parts
    return COMMANDS[symbol(parts[0])](token(parts[0]).offset, parts)


def symbol(tree: Tree) -> str:
    """What the grammar calls a token or a node."""
    return tree.symbol


def token(tree: Tree) -> Token:
    """A tree that is a token."""
    assert isinstance(tree, Token)
    return tree


def name(tree: Tree) -> bytes:
    """The spelling of a name."""
    spelling = token(tree).value
    assert isinstance(spelling, bytes)
    return spelling


def names(parts: Sequence[Tree]) -> tuple[bytes, ...]:
    """All names among these parts."""
    return tuple(name(part) for part in parts if symbol(part) == NAME)


def variable(tree: Tree) -> Variable:
    if isinstance(tree, Token):
        return Variable(name(tree))
    # NAME "[" expr "," expr .. "]"
    return Variable(name(tree.parts[0]), tuple(expression(part) for part in tree.parts[2::2]))


def expression(tree: Tree) -> Expression:
    if isinstance(tree, Token):
        return Variable(name(tree)) if tree.symbol == NAME else Literal(tree.value)
    match tree.symbol, [symbol(part) for part in tree.parts]:
        case "variable", _:
            return variable(tree)
        case "atom", ["STRLEN", "(", _, ")"]:
            return Length(expression(tree.parts[2]))
        case "atom", ["(", _, ")"]:
            return expression(tree.parts[1])
        case ("signed" | "exponent"), ["-", _]:
            return Negation(expression(tree.parts[1]))
        case ("expr" | "product" | "power"), [_, operator, _]:
            return Operation(operator, expression(tree.parts[0]), expression(tree.parts[2]))
    raise AssertionError(tree)


def condition(tree: Tree) -> Condition:
    if isinstance(tree, Token):
        return IsEof()
    parts = tree.parts
    match tree.symbol, [symbol(part) for part in parts]:
        case "test", [_, "||", _]:
            return Or(condition(parts[0]), condition(parts[2]))
        case "both", [_, "&&", _]:
            return And(condition(parts[0]), condition(parts[2]))
        case "negation", ["!", _]:
            return Not(condition(parts[1]))
        case "plain", ["MATCH", "(", _, ")"]:
            return Match(expression(parts[2]))
        case "plain", ["UNIQUE", *_]:
            return Unique(names(parts))
        case "plain", ["INARRAY", *_]:
            return InArray(expression(parts[2]), name(parts[4]))
        case "plain", ["(", _, ")"]:
            return condition(parts[1])
        case "plain", [_, comparison, _]:
            return Comparison(comparison, expression(parts[0]), expression(parts[2]))
    raise AssertionError(tree)


def integer(place: int, parts: Sequence[Tree]) -> Command:
    return Int(place, expression(parts[2]), expression(parts[4]), variable(parts[6]) if len(parts) > 6 else None)


def regex(place: int, parts: Sequence[Tree]) -> Command:
    literal = token(parts[2])
    assert isinstance(literal.value, bytes)
    try:
        pattern = read_pattern(literal.value)
    except BadPattern as bad:
        raise Refused("bad pattern", literal.offset) from bad
    return Regex(place, pattern, variable(parts[4]) if len(parts) > 4 else None)


def assignments(place: int, parts: Sequence[Tree]) -> Command:
    # "SET" "(" variable "=" expr "," variable "=" expr .. ")"
    pairs = zip(parts[2::4], parts[4::4])
    return Set(place, [(variable(target), expression(value)) for target, value in pairs])


def closing(parts: Sequence[Tree]) -> int:
    """The index of the parenthesis that closes what stands behind the word of a block."""
    return next(index for index, part in enumerate(parts) if symbol(part) == ")")


def loop(place: int, parts: Sequence[Tree]) -> Command:
    """A loop, whose word ends in I where it has a counter."""
    word = symbol(parts[0])
    head = list(parts[2 : closing(parts) : 2])
    body = parts[closing(parts) + 1 : -1]
    counter = variable(head.pop(0)) if word in ("REPI", "WHILEI") else None
    guard = head.pop(0)
    separator = command(head.pop(0)) if head else None
    if word in ("REP", "REPI"):
        return Rep(place, counter, separator, commands(body), expression(guard))
    return While(place, counter, separator, commands(body), condition(guard))


def choice(place: int, parts: Sequence[Tree]) -> Command:
    # "IF" "(" test ")" command .. "ELSE" command .. "END"
    body = parts[4:-1]
    split = next((index for index, part in enumerate(body) if symbol(part) == "ELSE"), len(body))
    return If(place, condition(parts[2]), commands(body[:split]), commands(body[split + 1 :]))


COMMANDS: dict[str, Callable[[int, Sequence[Tree]], Command]] = {
    "SPACE": lambda place, parts: Space(place),
    "NEWLINE": lambda place, parts: Newline(place),
    "EOF": lambda place, parts: Eof(place),
    "INT": integer,
    "STRING": lambda place, parts: String(place, expression(parts[2])),
    "REGEX": regex,
    "ASSERT": lambda place, parts: Assert(place, condition(parts[2])),
    "SET": assignments,
    "UNSET": lambda place, parts: Unset(place, names(parts)),
    "REP": loop,
    "REPI": loop,
    "WHILE": loop,
    "WHILEI": loop,
    "IF": choice,
}
