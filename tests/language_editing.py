"""Tests of what ctd-language-server does with names, words and blocks; tests/language_server.py runs them."""
from __future__ import annotations

import unittest
from collections.abc import Iterator
from typing import Any

from language_client import NO_LIBRARY, PYTHON, Client, Json, JsonRpcException, ServerTest, span
from language_client import tearDownModule  # noqa: F401
from results import TOP

from ctd_program import cut, expected, states
from ctd_symbols import next_tokens
from ctd_text import Text

PROGRAM = """# preset: maxn=9,k="n"
INT(1,maxn,n) NEWLINE STRING("😀") REPI(i,n,IF(i==1) SPACE ELSE NEWLINE END)
    # n is no name here
    INT(0,n, a[i])   # 😀
    IF(a[i] > 3)
        SET(n=n-1, b=STRLEN("n"))
    ELSE
        UNSET(b)
        SPACE
    END
END
"""


@unittest.skipUnless(PYTHON, NO_LIBRARY)
class Names(ServerTest):
    """Where names stand, and what is done with them."""

    # n: set by INT and SET, and read three times
    SET = [span(1, 11, 12), span(5, 12, 13)]
    READ = [span(1, 42, 43), span(3, 10, 11), span(5, 14, 15)]

    def opened(self, text: str = PROGRAM, **initialize: Any) -> Client:
        client = self.client(**initialize)
        client.open(text)
        return client

    def ranges(self, places: list[Json]) -> list[Json]:
        return [place["range"] for place in places]

    def test_definitions(self) -> None:
        client = self.opened()
        for line, character in [(1, 11), (1, 12), (1, 42), (3, 10), (5, 14)]:
            self.assertEqual(self.ranges(client.ask("definition", line, character)), self.SET)
        self.assertEqual(self.ranges(client.ask("definition", 1, 6)), [span(0, 10, 14)])
        # no name: a word, a comment, a string
        for line, character in [(1, 1), (2, 6), (5, 29)]:
            self.assertEqual(client.ask("definition", line, character), [])

    def test_references(self) -> None:
        client = self.opened()
        everywhere = sorted(self.SET + self.READ, key=lambda one: (one["start"]["line"], one["start"]["character"]))
        self.assertEqual(self.ranges(client.ask("references", 3, 10, context={"includeDeclaration": True})), everywhere)
        self.assertEqual(self.ranges(client.ask("references", 3, 10, context={"includeDeclaration": False})), self.READ)
        self.assertEqual(self.ranges(client.ask("references", 7, 14, context={"includeDeclaration": True})), [span(5, 19, 20), span(7, 14, 15)])

    def renamed(self, client: Client, line: int, character: int, new: str, text: str = PROGRAM) -> str:
        """The program with the edits of a rename."""
        edits = client.ask("rename", line, character, newName=new)["changes"][client.uri]
        changed = Text.of(text)
        for edit in sorted(edits, key=lambda one: (one["range"]["start"]["line"], one["range"]["start"]["character"]), reverse=True):
            changed = changed.changed({"range": edit["range"], "text": edit["newText"]})
        return changed.data.decode()

    def test_a_rename(self) -> None:
        client = self.opened()
        wanted = PROGRAM.replace("maxn,n)", "maxn,count)").replace("i,n,", "i,count,").replace("0,n,", "0,count,").replace("n=n-1", "count=count-1")
        self.assertEqual(self.renamed(client, 5, 12, "count"), wanted)
        self.assertEqual(self.renamed(client, 1, 8, "top"), PROGRAM.replace("maxn", "top"))
        self.assertEqual(client.ask("prepareRename", 1, 12), span(1, 11, 12))
        self.assertIsNone(client.ask("prepareRename", 1, 1))

    def test_a_rename_of_one_version(self) -> None:
        client = self.client(capabilities={"workspace": {"workspaceEdit": {"documentChanges": True}}})
        client.open("INT(1,9,n)")
        edits = [{"range": span(0, 8, 9), "newText": "m"}]
        wanted = {"documentChanges": [{"textDocument": {"uri": client.uri, "version": 1}, "edits": edits}]}
        self.assertEqual(client.ask("rename", 0, 8, newName="m"), wanted)

    def test_a_rename_of_a_program_that_is_refused(self) -> None:
        text = "INT(1,9,n) NEWLINE REP(n\n SET(m=n) $ END"
        self.assertEqual(self.renamed(self.opened(text), 0, 23, "k", text), "INT(1,9,k) NEWLINE REP(k\n SET(m=k) $ END")

    def test_renames_that_are_refused(self) -> None:
        client = self.opened(initializationOptions={"presets": "j=1,b=2"})
        for line, character, new, message in [
            (1, 11, "a", "a is the name of another variable"),
            (1, 11, "k", "k is the name of another variable"),
            (1, 11, "j", "j is the name of another variable"),
            (1, 11, "N", "N is no name: a name is a small letter, and then small letters and digits"),
            (1, 11, "n1\n", "n1\\n is no name: a name is a small letter, and then small letters and digits"),
            (1, 1, "m", "there is no variable here"),
            (7, 14, "m", "b has a preset in the settings, which would stay as it is"),
        ]:
            with self.subTest(new), self.assertRaises(JsonRpcException) as caught:
                client.ask("rename", line, character, newName=new)
            self.assertEqual((caught.exception.code, caught.exception.message), (-32803, message))
        client.change(2, {"text": 'INT(1,9,n) STRING("a) NEWLINE REP(n) END'})
        with self.assertRaises(JsonRpcException) as caught:
            client.ask("rename", 0, 8, newName="m")
        self.assertEqual(caught.exception.message, "the program has a string without its end, so not all places are known")

    def told(self, client: Client, line: int, character: int) -> str:
        """What a hover says."""
        answer = client.ask("hover", line, character)
        self.assertEqual(answer["contents"]["kind"], "markdown")
        return str(answer["contents"]["value"])

    def test_hovers(self) -> None:
        client = self.opened()
        self.assertEqual(self.told(client, 1, 2), "`INT(min,max)`, `INT(min,max,var)`: takes an integer from min to max, and stores it in a variable if one is given")
        self.assertEqual(self.told(client, 9, 5), "the end of `` IF(a[i] > 3) `` in line 5")
        self.assertEqual(self.told(client, 10, 0), "the end of `` REPI(i,n,IF(i==1) SPACE ELSE NEWLINE END) `` in line 2")
        self.assertEqual(self.told(client, 6, 4), "`IF(test) .. END`, `IF(test) .. ELSE .. END`: runs the first list where the test is true, otherwise the second")
        self.assertEqual(self.told(client, 3, 10), "`n`\n\nset by `` INT(1,maxn,n) `` in line 2\n\nset by `` SET(n=n-1, b=STRLEN(\"n\")) `` in line 6")
        self.assertEqual(self.told(client, 1, 8), "`maxn`\n\npreset in line 1")
        self.assertIsNone(client.ask("hover", 2, 6))

    def test_what_is_known_of_a_variable(self) -> None:
        client = self.opened("SET(maxn=9)\nINT(-2,maxn+1,n) STRING(x)", initializationOptions={"presets": "y=1"})
        self.assertEqual(self.told(client, 1, 14), "`n`: -2 to 10\n\nset by `` INT(-2,maxn+1,n) `` in line 2")
        self.assertEqual(self.told(client, 1, 7), "`maxn`: 9\n\nset by `` SET(maxn=9) `` in line 1")
        self.assertEqual(self.told(client, 1, 24), "`x`\n\nnothing gives it a value")
        client.notify("workspace/didChangeConfiguration", settings={"checktestdata": {"presets": "maxn=3"}})
        self.assertEqual(self.told(client, 1, 7), "`maxn`\n\npreset in the settings\n\nset by `` SET(maxn=9) `` in line 1")


@unittest.skipUnless(PYTHON, NO_LIBRARY)
class Broken(ServerTest):
    """Hovers and definitions while a program is being changed, and is none for the moment: what the last one knew, at the places of now."""

    PROGRAM = "INT(-2,9,n) NEWLINE\nREP(5)\n    INT(0,n,k) SPACE\nEND\nASSERT(k<n)\n"

    def opened(self) -> Client:
        """A client with the program, which the checker has taken."""
        client = self.client()
        client.open(self.PROGRAM)
        self.assertEqual([one for one in client.diagnostics(1) if one["severity"] == 1], [])
        return client

    def insert(self, client: Client, version: int, line: int, character: int, text: str, removed: int = 0) -> None:
        client.change(version, {"range": span(line, character, character + removed), "text": text})

    def definitions(self, client: Client, line: int, character: int) -> list[Json]:
        return [one["range"] for one in client.ask("definition", line, character)]

    def told(self, client: Client, line: int, character: int) -> str:
        return str(client.ask("hover", line, character)["contents"]["value"])

    def test_a_quote_that_is_not_closed(self) -> None:
        client = self.opened()
        self.insert(client, 2, 1, 0, 'STRING("\n')
        self.assertEqual(self.definitions(client, 3, 10), [span(0, 9, 10)])
        self.assertEqual(self.definitions(client, 5, 7), [span(3, 12, 13)])
        self.assertEqual(self.told(client, 5, 7), "`k`: 0 to 9\n\nset by `` INT(0,n,k) `` in line 4")
        self.assertEqual(client.ask("hover", 5, 7)["range"], span(5, 7, 8))
        self.assertEqual(self.told(client, 4, 1), "the end of `` REP(5) `` in line 3")
        # one edit after the other
        for version, key in enumerate("abc", 3):
            self.insert(client, version, 1, 5 + version, key)
        self.insert(client, 6, 0, 0, "\n\n")
        self.assertEqual(self.definitions(client, 7, 7), [span(5, 12, 13)])
        self.assertEqual(self.told(client, 7, 9), "`n`: -2 to 9\n\nset by `` INT(-2,9,n) `` in line 3")

    def test_a_parenthesis_that_is_not_closed(self) -> None:
        client = self.opened()
        self.insert(client, 2, 1, 5, "", removed=1)
        self.assertEqual(self.told(client, 2, 10), "`n`: -2 to 9\n\nset by `` INT(-2,9,n) `` in line 1")

    def test_a_loop_that_is_not_closed(self) -> None:
        client = self.opened()
        self.insert(client, 2, 2, 0, "    REP(2)\n")
        self.assertEqual(self.told(client, 4, 0), "the end of `` REP(5) `` in line 2")

    def test_new_text_is_read_as_it_is(self) -> None:
        client = self.opened()
        self.insert(client, 2, 4, 0, "INT(1,3,m) SET(x=m+n \n")
        self.assertEqual(self.definitions(client, 4, 17), [span(4, 8, 9)])
        # a name that has become another one is not the old one any more
        self.insert(client, 3, 4, 20, "1")
        self.assertEqual(self.definitions(client, 4, 20), [])
        self.insert(client, 4, 5, 10, "1")
        self.assertEqual(self.definitions(client, 5, 9), [])
        self.assertEqual(self.definitions(client, 5, 7), [span(2, 12, 13)])

    def test_what_is_gone_is_not_told(self) -> None:
        client = self.opened()
        client.change(2, {"range": span(0, 0, 0, end_line=1), "text": ""}, {"range": span(0, 0, 0), "text": "INT(3,4,n NEWLINE\n"})
        self.assertEqual(self.definitions(client, 2, 10), [span(0, 8, 9)])
        self.assertEqual(self.definitions(client, 4, 7), [span(2, 12, 13)])

    def test_a_program_that_is_one_again(self) -> None:
        client = self.opened()
        self.insert(client, 2, 0, 7, "8 ")
        self.assertEqual(self.told(client, 4, 9), "`n`: -2 to 9\n\nset by `` INT(-2,9,n) `` in line 1")
        self.insert(client, 3, 0, 9, "", removed=1)
        client.diagnostics(3)
        self.assertEqual(self.told(client, 4, 9), "`n`: -2 to 8\n\nset by `` INT(-2,8 ,n) `` in line 1")


@unittest.skipUnless(PYTHON, NO_LIBRARY)
class Shape(ServerTest):
    """Outlines and folds."""

    def test_an_outline(self) -> None:
        client = self.client()
        client.open(PROGRAM)

        def lines(symbols: list[Json]) -> Iterator[Any]:
            for one in symbols:
                yield one["name"], one["range"], one["selectionRange"], list(lines(one["children"]))

        branch = ("ELSE", span(6, 4, 4, 9), span(6, 4, 8), [])
        separator = ("IF(i==1)", span(1, 44, 75), span(1, 44, 52), [("ELSE", span(1, 59, 72), span(1, 59, 63), [])])
        inner = ("IF(a[i] > 3)", span(4, 4, 7, 9), span(4, 4, 16), [branch])
        outer = ("REPI(i,n,IF(i==1) SPACE ELSE NEWLINE END)", span(1, 35, 3, 10), span(1, 35, 76), [separator, inner])
        found = list(lines(client.ask_all("documentSymbol")))
        self.assertEqual(found, [outer])

    def folds(self, text: str) -> list[tuple[int, int, str]]:
        client = self.client()
        client.open(text)
        found = client.ask_all("foldingRange")
        return [(one["startLine"], one["endLine"], one.get("kind", "")) for one in found]

    def test_folds(self) -> None:
        self.assertEqual(self.folds(PROGRAM), [(1, 9, ""), (4, 5, ""), (6, 8, "")])
        self.assertEqual(self.folds("# a\n# b\n\n# c\nSPACE # d\n  # e\n# f\n# g"), [(0, 1, "comment"), (5, 7, "comment")])
        self.assertEqual(self.folds("REP(2)\nSPACE\n\nREP(\n\n2\n)\nIF(ISEOF)\nEOF\n"), [(0, 8, ""), (3, 8, ""), (7, 8, "")])

    def test_a_text_that_nests_without_end(self) -> None:
        client = self.client()
        client.open("REP(1)\n" * 20_000)
        self.assertEqual(len(client.ask_all("documentSymbol")), 1)
        self.assertGreater(len(client.ask_all("foldingRange")), 19_000)


@unittest.skipUnless(PYTHON, NO_LIBRARY)
class Completions(ServerTest):
    """What can stand at a place."""

    COMMANDS = {"SPACE", "NEWLINE", "EOF", "INT", "STRING", "REGEX", "ASSERT", "SET", "UNSET", "REP", "REPI", "WHILE", "WHILEI", "IF"}
    TESTS = {"MATCH", "ISEOF", "UNIQUE", "INARRAY", "STRLEN"}

    def labels(self, before: str, behind: str = "") -> set[str]:
        """The completions behind a text in one line, with another text behind that."""
        client = self.client()
        client.open(before + behind)
        lines = before.split("\n")
        return {one["label"] for one in client.ask("completion", len(lines) - 1, len(lines[-1].encode("utf-16-le")) // 2)}

    def test_what_the_grammar_allows(self) -> None:
        for before, wanted in [
            ("", self.COMMANDS),
            ("SP", self.COMMANDS),
            ('STRING("😀") ', self.COMMANDS),
            ("REP(2) ", self.COMMANDS | {"END"}),
            ("IF(ISEOF) SPACE\n", self.COMMANDS | {"END", "ELSE"}),
            ("INT(1,9,maxn) INT(1,", {"STRLEN", "maxn"}),
            ("INT(1,9,maxn) ASSERT(", self.TESTS | {"maxn"}),
            ("INT(1,9,maxn) ASSERT(ma", self.TESTS | {"maxn"}),
            ("INT(1,9,maxn) UNSET(", {"maxn"}),
            ("INT(1,9", set()),
            ("# SP", set()),
            ('STRING("SP', set()),
        ]:
            with self.subTest(before):
                self.assertEqual(self.labels(before), wanted)

    def test_what_follows_is_what_the_parser_wants(self) -> None:
        """The part of a text that is still open goes on as all of it does, behind each token of each example."""
        for program in sorted((TOP / "examples").rglob("*.ctd")):
            text = program.read_bytes()
            tokens = cut(text)[:-1]
            for index, token in enumerate(tokens, 1):
                self.assertEqual(next_tokens(text[: token.end]), set(expected(states(), tokens[:index])), text[: token.end])

    def test_names_stand_anywhere_in_the_text(self) -> None:
        self.assertEqual(self.labels("# preset: top=3\nINT(1,", ",x)\nREPI(i,n) a END # y"), {"STRLEN", "a", "i", "n", "top", "x"})

    def test_behind_a_fault_there_may_be_anything(self) -> None:
        self.assertEqual(self.labels("INT)\nSPACE(x) I"), self.COMMANDS | self.TESTS | {"ELSE", "END", "x"})

    def test_forms_to_fill_in(self) -> None:
        client = self.client(capabilities={"textDocument": {"completion": {"completionItem": {"snippetSupport": True}}}})
        client.open("\n")
        items = {one["label"]: one for one in client.ask("completion", 1, 0)}
        for label, text in [
            ("SPACE", "SPACE"),
            ("INT(min,max,var)", "INT(${1:min},${2:max},${3:var})"),
            ('REGEX("pattern")', 'REGEX("${1:pattern}")'),
            ("SET(var=e,..)", "SET(${1:var}=${2:e})"),
            ("REP(count) .. END", "REP(${1:count})\n\t$2\nEND"),
            ("IF(test) .. ELSE .. END", "IF(${1:test})\n\t$2\nELSE\n\t$0\nEND"),
        ]:
            self.assertEqual((items[label]["insertText"], items[label]["insertTextFormat"]), (text, 2))
