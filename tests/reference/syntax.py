"""How tokens are parsed: by the parser of tools/ctd_program.py, over the tables of the grammar as it stands in docs/LANGUAGE.md."""

import re
from functools import cache
from pathlib import Path

import ctd_program
from ctd_program import Grammar, Node, State, Token, Tree, tables

LANGUAGE = Path(__file__).resolve().parents[2] / "docs" / "LANGUAGE.md"

__all__ = ["Node", "Tree", "parse"]


def printed_grammar() -> str:
    """The grammar as docs/LANGUAGE.md prints it."""
    rules = re.search(r"^## Grammar\n.*?^```\n(.*?)^```$", LANGUAGE.read_text(encoding="utf-8"), re.MULTILINE | re.DOTALL)
    assert rules, "no grammar in docs/LANGUAGE.md"
    return rules[1]


@cache
def states() -> list[State]:
    grammar = Grammar()
    grammar.add_rules(printed_grammar())
    return tables(grammar, "program")


def parse(tokens: list[Token]) -> list[Tree]:
    """The commands of a program, of which the last token is its end. Raises Refused at the first token with which no program goes on."""
    return ctd_program.parse(tokens, states())
