#!/usr/bin/env python3
"""Speaks with ctd-language-server as editors do: by the client of its own library, and by Neovim without a screen.

What was worked out by hand is compared: ranges in UTF-16 units, beside the columns in bytes that the checker counts. What needs Neovim, Node or the
library (in Debian neovim, nodejs and python3-pylsp-jsonrpc) is left out where that is missing, and said. Tests of what it does with names and words
are in language_editing.py, those with editors in language_editors.py. The last line counts what passed and failed.
usage: tests/language_server.py [PROGRAM]"""
from __future__ import annotations

import json
import os
import random
import re
import subprocess
import sys
import tempfile
import time
import unittest
from pathlib import Path
from typing import Any

from language_client import CHECKER, LIBRARY, NO_LIBRARY, OUT_OF_TIME, PYTHON, SERVER, Client, Json, JsonRpcException, ServerTest, position, span
from language_client import tearDownModule  # noqa: F401
from language_editing import Broken, Completions, Names, Shape  # noqa: F401
from language_editors import Neovim, VisualStudioCode  # noqa: F401
from results import BUILT_LINTER, TOP, run_unit_tests

from ctd_companion import Place
from ctd_manual import COMMANDS, FUNCTIONS, TESTS, manual
from ctd_refusals import PRESETS
from ctd_text import Text

if PYTHON:
    from pylsp_jsonrpc.streams import JsonRpcStreamWriter


class Start(unittest.TestCase):
    """What stands in the way of a start is told in one line."""

    def run_server(self, *words: str, **more: Any) -> tuple[int, str, str]:
        ran = subprocess.run([sys.executable, str(SERVER), *words], stdin=subprocess.DEVNULL, capture_output=True, text=True, timeout=OUT_OF_TIME, check=False, **more)
        return ran.returncode, ran.stdout, ran.stderr

    def test_without_the_library(self) -> None:
        with tempfile.TemporaryDirectory() as folder:
            (Path(folder) / f"{LIBRARY}.py").write_text(f"raise ModuleNotFoundError(name={LIBRARY!r})")
            told = self.run_server("--checker", str(CHECKER), env={**os.environ, "PYTHONPATH": folder})
        self.assertEqual(told, (2, "", f"ctd-language-server: {sys.executable} lacks the package python-lsp-jsonrpc (in Debian: python3-pylsp-jsonrpc)\n"))

    @unittest.skipUnless(PYTHON == "/usr/bin/python3", "the Python of the system has no library")
    def test_the_python_of_the_system_has_the_library(self) -> None:
        with tempfile.TemporaryDirectory() as folder:
            first = Path(folder) / "python3"
            first.symlink_to(PYTHON)
            # a module that is there for the Python of the system alone
            script = f"import sys\nif sys.executable == {str(first)!r}: raise ModuleNotFoundError(name={LIBRARY!r})\n"
            script += f"sys.path.remove({folder!r})\ndel sys.modules[{LIBRARY!r}]\nimport {LIBRARY}\n"
            (Path(folder) / f"{LIBRARY}.py").write_text(script)
            call = [str(first), str(SERVER), "--checker", str(CHECKER)]
            environment = {**os.environ, "PYTHONPATH": folder}
            ran = subprocess.run(call, env=environment, stdin=subprocess.DEVNULL, capture_output=True, text=True, timeout=OUT_OF_TIME, check=False)
        # (a client that went away)
        self.assertEqual((ran.returncode, ran.stdout, ran.stderr), (1, "", ""))

    def test_without_the_checker(self) -> None:
        status, out, err = self.run_server("--checker", "/none")
        self.assertEqual((status, out, err.splitlines()[-1]), (2, "", "ctd-language-server: error: the checker is not found; say where it is by --checker"))

    def test_words(self) -> None:
        self.assertEqual(self.run_server("--version"), (0, "ctd-language-server 1.0\n", ""))
        self.assertTrue(self.run_server("--help")[1].startswith("usage: ctd-language-server [-h] [-V] [--checker PATH]\n"))
        self.assertEqual(self.run_server("--none")[0], 2)

    @unittest.skipUnless(PYTHON, NO_LIBRARY)
    def test_what_is_no_protocol(self) -> None:
        for sent, told in [
            ("hello\n", "standard input has no messages of the Language Server Protocol"),
            ("Content-Length: x\r\n\r\n", "standard input has no messages of the Language Server Protocol"),
            ("Content-Length: 1\r\n\r\n5", "a message of standard input is no object of JSON"),
        ]:
            call = [sys.executable, str(SERVER), "--checker", str(CHECKER)]
            ran = subprocess.run(call, input=sent, capture_output=True, text=True, timeout=OUT_OF_TIME, check=False)
            self.assertEqual((ran.returncode, ran.stdout, ran.stderr), (2, "", f"ctd-language-server: {told}\n"))

    @unittest.skipUnless(PYTHON, NO_LIBRARY)
    def test_on_a_terminal(self) -> None:
        ours, theirs = os.openpty()
        ran = subprocess.run([sys.executable, str(SERVER), "--checker", str(CHECKER)], stdin=theirs, capture_output=True, timeout=OUT_OF_TIME, check=False)
        os.close(ours)
        os.close(theirs)
        told = b"ctd-language-server: an editor has to start this program, and to speak on its standard input\n"
        self.assertEqual((ran.returncode, ran.stdout, ran.stderr), (2, b"", told))


class Positions(unittest.TestCase):
    """Bytes, and lines and UTF-16 units: u with an umlaut is two bytes and one unit, the euro sign three and one, a smiley four and two."""

    TEXT = "aü€😀b\r\n\r😀\n\nx"

    def test_by_hand(self) -> None:
        text = Text.of(self.TEXT)
        # a ü € 😀 b CR LF | CR | 😀 LF | LF | x
        for offset, line, character in [(0, 0, 0), (1, 0, 1), (3, 0, 2), (6, 0, 3), (10, 0, 5), (11, 0, 6), (13, 1, 0), (14, 2, 0), (18, 2, 2), (19, 3, 0), (20, 4, 0), (21, 4, 1)]:
            with self.subTest(offset):
                self.assertEqual(text.position(offset), position(line, character))
                self.assertEqual(text.offset(position(line, character)), offset)

    def test_within_a_character(self) -> None:
        text = Text.of(self.TEXT)
        for offset, start in [(2, 1), (4, 3), (5, 3), (7, 6), (8, 6), (9, 6)]:
            self.assertEqual(text.position(offset), text.position(start))
        # the second half of a pair
        self.assertEqual(text.offset(position(0, 4)), 6)

    def test_behind_the_end(self) -> None:
        text = Text.of(self.TEXT)
        self.assertEqual([text.offset(position(*where)) for where in [(0, 7), (0, 99), (1, 1), (4, 2), (5, 0), (9, 9)]], [11, 11, 13, 21, 21, 21])
        self.assertEqual(text.position(99), position(4, 1))

    def test_places_of_the_checker(self) -> None:
        # its lines end with line feeds alone, and its columns are bytes
        text = Text.of(self.TEXT)
        for line, column, offset in [(1, 1, 0), (1, 4, 3), (2, 1, 13), (2, 2, 14), (4, 1, 20), (4, 2, 21), (5, 1, 21), (1, 999, 21)]:
            self.assertEqual(text.offset_at(Place(line, column)), offset)

    def test_bytes_that_are_no_characters(self) -> None:
        # as in Latin-1: each is shown as one character; and half a pair alone, which is three bytes
        self.assertEqual(Text(b"\xe9\xfc x").position(3), position(0, 3))
        self.assertEqual(Text.of("\ud83d x").position(4), position(0, 2))

    def test_against_python(self) -> None:
        """Random texts and changes, compared with what Python's own UTF-16 has."""
        chance = random.Random(1)
        for _ in range(300):
            text = "".join(chance.choices("aü€😀\n\r", k=chance.randrange(12)))
            new = "".join(chance.choices("bß😀\n", k=chance.randrange(4)))
            start, end = sorted(chance.choices(range(len(text) + 1), k=2))
            # (no editor has a place between the two bytes of a line end)
            if any(text[at - 1 : at + 1] == "\r\n" for at in (start, end)):
                continue
            change = {"range": {"start": python_position(text[:start]), "end": python_position(text[:end])}, "text": new}
            with self.subTest(text=text, change=change):
                self.assertEqual(Text.of(text).changed(change).data.decode(), text[:start] + new + text[end:])
                self.assertEqual(Text.of(text).position(len(text[:end].encode())), change["range"]["end"])

    def test_the_whole_text(self) -> None:
        self.assertEqual(Text.of("SPACE").changed({"text": "NEWLINE 😀"}), Text("NEWLINE 😀".encode()))


def python_position(before: str) -> Json:
    """The position behind a text, by Python's own lines and UTF-16."""
    lines = re.split("\r\n|\r|\n", before)
    return position(len(lines) - 1, len(lines[-1].encode("utf-16-le")) // 2)


class Manual(unittest.TestCase):
    def test_it_is_that_of_the_language(self) -> None:
        language = (TOP / "docs/LANGUAGE.md").read_text()
        for row in (COMMANDS + TESTS).split("\n"):
            self.assertTrue(f"\n{row}\n" in language, row)
        word, meaning = re.findall("`(.*)` \\| (.*) \\|", FUNCTIONS)[0]
        self.assertIn(f"`{word}` is {meaning}.", language)

    def test_the_grammar_of_presets_is_that_of_the_language(self) -> None:
        self.assertIn(f"```{PRESETS}```", (TOP / "docs/LANGUAGE.md").read_text())

    def test_it_has_each_word(self) -> None:
        grammar = (TOP / "docs/LANGUAGE.md").read_text().partition("## Grammar")[2]
        self.assertEqual({*manual(), "ELSE", "END"}, set(re.findall(r'"([A-Z]{2,})"', grammar)))


@unittest.skipUnless(PYTHON, NO_LIBRARY)
class Protocol(ServerTest):
    """From `initialize` to `exit`."""

    def test_a_whole_connection(self) -> None:
        client = Client()
        answer = client.request("initialize", processId=None, rootUri=None, capabilities={})
        self.assertEqual(answer["serverInfo"], {"name": "ctd-language-server", "version": "1.0"})
        self.assertEqual(answer["capabilities"]["textDocumentSync"], {"openClose": True, "change": 2})
        client.notify("initialized")
        client.open("INT(1,9,n) NEWLINE")
        self.assertEqual(client.ask("hover", 0, 1)["range"], span(0, 0, 3))
        for method in ("$/setTrace", "textDocument/didSave", "workspace/other"):
            client.notify(method, value="off")
        client.notify("textDocument/didClose", textDocument={"uri": client.uri})
        self.assertEqual(client.close(), (0, b""))

    def assert_refused(self, code: int, client: Client, method: str, **parameters: Any) -> None:
        with self.assertRaises(JsonRpcException) as caught:
            client.request(method, **parameters)
        self.assertEqual(caught.exception.code, code)

    def test_requests_out_of_turn(self) -> None:
        client = Client()
        self.assert_refused(-32002, client, "shutdown")
        client.open("INT(")
        client.request("initialize", capabilities={})
        self.assert_refused(-32602, client, "textDocument/hover", textDocument={"uri": client.uri}, position=position(0, 0))
        self.assert_refused(-32600, client, "initialize", capabilities={})
        self.assert_refused(-32601, client, "textDocument/formatting")
        client.request("shutdown")
        self.assert_refused(-32600, client, "shutdown")
        client.notify("exit")
        self.assertEqual(client.process.wait(OUT_OF_TIME), 0)

    def test_an_exit_without_a_shutdown(self) -> None:
        for ends in (lambda client: client.notify("exit"), lambda client: client.process.stdin.close()):
            client = Client(capabilities={})
            ends(client)
            self.assertEqual(client.process.wait(OUT_OF_TIME), 1)

    def test_a_client_that_went_away(self) -> None:
        call = [PYTHON or "", str(SERVER), "--checker", str(CHECKER)]
        with subprocess.Popen(call, stdin=subprocess.PIPE, stdout=subprocess.PIPE, stderr=subprocess.PIPE) as process:
            assert process.stdin and process.stdout and process.stderr
            process.stdout.close()
            writer = JsonRpcStreamWriter(process.stdin)
            writer.write({"jsonrpc": "2.0", "id": 1, "method": "initialize", "params": {"capabilities": {}}})
            process.stdin.close()
            self.assertEqual((process.stderr.read(), process.wait(OUT_OF_TIME)), (b"", 1))

    def test_a_document_that_is_closed_has_no_diagnostics(self) -> None:
        client = self.client()
        client.open("INT(")
        self.assertEqual(len(client.diagnostics()), 1)
        client.notify("textDocument/didClose", textDocument={"uri": client.uri})
        self.assertEqual(client.diagnostics(), [])


@unittest.skipUnless(PYTHON, NO_LIBRARY)
class Refusals(ServerTest):
    """Why a program is refused, and where."""

    def refusal(self, text: str, **initialize: Any) -> tuple[str, Json]:
        """The message and the range of the one diagnostic of a text."""
        client = self.client(**initialize)
        client.open(text)
        told = client.diagnostics(1)
        self.assertEqual([(one["severity"], one["source"]) for one in told], [(1, "checktestdata")])
        return told[0]["message"], told[0]["range"]

    def test_each_kind(self) -> None:
        for text, message, where in [
            ("INT(1,10 NEWLINE", "syntax error: expected , or ) or an operator", span(0, 9, 16)),
            ("INT(1,10", "syntax error: expected , or ) or an operator", span(0, 8, 8)),
            ("SPACE $ SPACE", "unexpected byte", span(0, 6, 7)),
            ("SPACE é", "unexpected byte", span(0, 6, 7)),
            ("SPACE 😀😀", "unexpected byte", span(0, 6, 8)),
            ('SPACE\n STRING("a b\nNEWLINE', "unfinished string", span(1, 8, 12)),
            ('STRING("ü\\400")', "octal escape above 255", span(0, 9, 10)),
            ("INT(0,170141183460469231731687303715884105728)", "number too large", span(0, 6, 45)),
            ("FLOAT(0,1)", "not in this profile: numbers are whole here; REGEX reads others", span(0, 0, 5)),
            ("INT(0.5,1)", "not in this profile: 0.5 has a fraction, and numbers are whole here", span(0, 4, 5)),
            ("INT(0,1e9)", "not in this profile: 1e9 has an exponent: write 10^9", span(0, 6, 7)),
            ("INT(0,20E3)", "not in this profile: 20E3 has an exponent: write 20*10^3", span(0, 6, 8)),
            ("INT(0,007)", "not in this profile: 007 has a leading zero: write 7", span(0, 6, 9)),
            ("# 😀 ü\nINT(1, 2) # é\nREGEX(\"[\")", "bad pattern: unterminated character set at byte 1 of the pattern", span(2, 6, 9)),
            ('STRING("😀ü") REGEX("(")', "bad pattern: missing ), unterminated subpattern at byte 1 of the pattern", span(0, 20, 23)),
            ("ASSERT(n)", "syntax error: expected [ or a comparison or an operator", span(0, 8, 9)),
            # (a command that is open is told where an END could stand, and at its own place)
            ("SPACE\n\nREP(3) SPACE\nIF(ISEOF)", "syntax error: expected a command or ELSE or END (IF of line 4 column 1 is open)", span(3, 9, 9)),
            ("SPACE\nREP(3", "syntax error: expected , or ) or an operator", span(1, 5, 5)),
            ("REP(1) " * 200 + "END " * 200, "nested too deeply", span(0, 7 * 199 + 3, 7 * 199 + 4)),
            ("SPACE " * 200_000, "program too long", span(0, 0, 1_200_000)),
        ]:
            with self.subTest(text[:40]):
                self.assertEqual(self.refusal(text), (message, where))

    def test_after_characters_of_several_bytes(self) -> None:
        # 17 bytes stand before the last token of the second line, of which ü has 2 and 😀 has 4
        self.assertEqual(self.refusal('# 😀😀\nSTRING("ü😀") )'), ("syntax error: expected a command or the end of the program", span(1, 14, 15)))

    def test_lines_of_other_systems(self) -> None:
        self.assertEqual(self.refusal("SPACE\r\n# ü\r\nSPACE )\r\n")[1], span(2, 6, 7))
        self.assertEqual(self.refusal("SPACE\rSPACE )\n")[1], span(1, 6, 7))

    def test_a_program_that_runs_for_long_is_not_run(self) -> None:
        client = self.client()
        client.open("WHILE(1==1) END")
        started = time.monotonic()
        client.diagnostics(1)
        self.assertLess(time.monotonic() - started, 5)

    def test_presets(self) -> None:
        for presets, told in [
            ("n=ü,m=3", "unexpected byte behind n="),
            ("n=yes", "expected a number or a string or - behind n="),
            ("a[1=5", "expected , or ] behind a[1"),
            ("n=1 ,m=2", "there is a blank or a comment behind n=1"),
            ("n=1,", "expected a name behind n=1,"),
            ("n=1;", "unexpected byte behind n=1"),
            ("5", "expected a name at the start"),
            ("n=05", "05 has a leading zero: write 5"),
            ("n=5 5", "there is a blank or a comment behind n=5"),
            (f"{'n' * 40}=", f"expected a number or a string or - behind …{'n' * 29}="),
        ]:
            with self.subTest(presets):
                text = f"# preset: n=5\n# ü preset: x\n# preset: {presets}\nINT(1,n) NEWLINE"
                self.assertEqual(self.refusal(text), (f"bad preset: {told}", span(2, 10, 10 + len(presets))))
        told = "bad preset in the settings: n=: expected a number or a string or - behind n="
        self.assertEqual(self.refusal("\nSPACE", initializationOptions={"presets": "n="}), (told, span(0, 0, 0)))

    def test_presets_that_no_command_line_can_have(self) -> None:
        client = self.client(initializationOptions={"presets": "n=5\0"})
        client.open("SPACE")
        self.assertEqual(client.next_told("window/showMessage"), {"type": 1, "message": "cannot check: embedded null byte"})

    def test_settings_that_are_wrong(self) -> None:
        client = self.client(initializationOptions={"presets": 5})
        self.assertEqual(client.next_told("window/showMessage"), {"type": 1, "message": "the setting presets is no text, such as n=5"})


@unittest.skipUnless(PYTHON, NO_LIBRARY)
class Findings(ServerTest):
    """What ctd-lint says, whatever it says, at the part of the text that it is about."""

    def findings(self, script: str, text: str, **initialize: Any) -> list[tuple[int, str, str, Json]]:
        client = self.client(self.checker_beside(script), **initialize)
        client.open(text)
        told = client.diagnostics(1)
        self.assertEqual({one["source"] for one in told} - {"ctd-lint"}, set())
        return [(one["severity"], one["message"], one.get("code", ""), one["range"]) for one in told]

    def test_ranks_and_ranges(self) -> None:
        script = """cat <<END
{"file":"p.ctd","line":2,"column":1,"rank":"warning","kind":"empty-string","text":"the string is empty"}
{"file":"p.ctd","line":2,"column":12,"rank":"note","kind":"unread","text":"nothing reads this variable","name":"n","other":["a new key"]}
{"file":"p.ctd","line":2,"column":24,"rank":"risk","kind":"overflow","text":"may overflow","reason":"x is only known to be at least 0"}
{"file":"p.ctd","line":3,"column":1,"rank":"risk","kind":"no-value-here","text":"may be without a value here","reason":"n"}
{"file":"p.ctd","line":3,"column":1,"rank":"never","kind":"begins"}
{"file":"p.ctd","line":3,"column":1,"rank":"other","what":"a new rank"}
{"file":"p.ctd","rank":"verdict","text":"every data file gets a verdict"}
END
exit 1"""
        text = '# 😀\nSTRING("") INT(1, 9,n) SET(y=x*x)\nREP(n, SPACE) SPACE END\n'
        self.assertEqual(
            self.findings(script, text),
            [
                (2, "the string is empty", "empty-string", span(1, 0, 10)),
                (4, "nothing reads this variable: n", "unread", span(1, 20, 21)),
                (3, "may overflow: x is only known to be at least 0", "overflow", span(1, 23, 33)),
                (3, "may be without a value here: n", "no-value-here", span(2, 4, 5)),
            ],
        )

    def test_after_characters_of_several_bytes(self) -> None:
        # "😀ü": STRING(..) has 16 bytes and 13 units
        script = self.finding(1, 18, "note", "nothing reads this variable", kind="unread", name="n")
        self.assertEqual(self.findings(script, 'STRING("😀üx") INT(1,9,n)'), [(4, "nothing reads this variable: n", "unread", span(0, 23, 24))])

    def test_presets_reach_it(self) -> None:
        script = """told=$(echo "$2" | sed 's/"/\\\\"/g')\n""" + self.finding(1, 1, "note", "$told")
        text = '# preset: n=5\n# ü preset: no\n#preset:  m="a,b" \nSTRING("# preset: q=1")'
        found = self.findings(script, text, initializationOptions={"presets": "k=1"})
        self.assertEqual(found, [(4, '--define=k=1,n=5,m="a,b"', "", span(0, 0, 13))])

    def test_a_preset_that_the_program_does_not_mention(self) -> None:
        script = self.finding(1, 1, "warning", "the program does not mention", kind="unknown-preset", name="x")
        text = "# preset: ax=1,x=2\nINT(1,ax) NEWLINE"
        self.assertEqual(self.findings(script, text), [(2, "the program does not mention: x", "unknown-preset", span(0, 15, 16))])

    def test_of_the_verdict_nothing_is_shown(self) -> None:
        script = """echo '{"file":"p.ctd","rank":"verdict","text":"every data file gets a verdict"}'"""
        self.assertEqual(self.findings(script, "SPACE\nSPACE"), [])

    def test_a_note_without_a_kind(self) -> None:
        script = """echo '{"file":"p.ctd","line":2,"column":1,"rank":"note","text":"less is known from here on"}'"""
        self.assertEqual(self.findings(script, "SPACE\nSPACE"), [(4, "less is known from here on", "", span(1, 0, 5))])

    def test_a_linter_that_fails(self) -> None:
        for script, told in [("echo out of memory >&2; exit 2", "out of memory"), ("exit 139", "ended with status 139")]:
            self.assertEqual(self.findings(script, "SPACE"), [(3, f"ctd-lint tells nothing: {told}", "", span(0, 0, 5))])

    def test_too_many(self) -> None:
        note = '{"file":"p.ctd","line":1,"column":1,"rank":"note","kind":"unread","text":"&"}'
        script = f"seq 1500 | sed 's/.*/{note}/'\n{self.finding(1, 1, 'warning', 'bad', kind='x')}"
        found = self.findings(script, "SPACE")
        self.assertEqual((len(found), found[0][1], found[-1][:2]), (1001, "bad", (3, "501 more findings are not shown")))

    def test_new_settings(self) -> None:
        client = self.client(self.checker_beside(self.finding(1, 1, "note", "$2")))
        client.open("SPACE")
        self.assertEqual(client.diagnostics()[0]["message"], "--")
        client.notify("workspace/didChangeConfiguration", settings={"checktestdata": {"presets": "n=5"}})
        self.assertEqual(client.diagnostics()[0]["message"], "--define=n=5")
        client.notify("workspace/didChangeConfiguration", settings=None)
        client.notify("workspace/didChangeConfiguration", settings={"checktestdata": {"presets": ""}})
        self.assertEqual(client.diagnostics()[0]["message"], "--")

    def test_only_the_last_text_is_told_of(self) -> None:
        client = self.client(self.checker_beside("sleep 0.5\n" + self.finding(1, 1, "note", "$(cat $program)")))
        client.open("SPACE")
        time.sleep(0.4)
        client.change(2, {"text": "EOF"})
        told = client.next_told("textDocument/publishDiagnostics")
        self.assertEqual((told["version"], [one["message"] for one in told["diagnostics"]]), (2, ["EOF"]))

    @unittest.skipUnless(BUILT_LINTER.is_file(), "ctd-lint is not there")
    def test_the_real_one(self) -> None:
        client = self.client()
        client.open('# 😀\nINT(1,9,n) NEWLINE STRING("ü") REP(m) SPACE END\n')
        told = {(one["code"], json.dumps(one["range"])) for one in client.diagnostics(1)}
        self.assertIn(("unread", json.dumps(span(1, 8, 9))), told)
        self.assertIn(("no-value", json.dumps(span(1, 35, 36))), told)


@unittest.skipUnless(PYTHON, NO_LIBRARY)
class Data(ServerTest):
    """The data beside a program, checked by one command."""

    def check(self, client: Client, path: Path) -> tuple[str, dict[str, list[Json]]]:
        """Runs the command for a program. Gives what the user is told, and the diagnostics of each file of data, by its name."""
        uri = path.as_uri()
        client.open(path.read_bytes().decode(), uri)
        client.diagnostics(1)
        actions = client.request("textDocument/codeAction", textDocument={"uri": uri}, range=span(0, 0, 0), context={"diagnostics": []})
        self.assertEqual([one["title"] for one in actions], ["Check all data"])
        client.request("workspace/executeCommand", command=actions[0]["command"]["command"], arguments=actions[0]["command"]["arguments"])
        found: dict[str, list[Json]] = {}
        while True:
            method, given = client.told.get(timeout=OUT_OF_TIME)
            if method == "window/showMessage":
                return given["message"], found
            if given["uri"].startswith(self.folder.as_uri()):
                found[given["uri"].rpartition("/")[2]] = given["diagnostics"]

    def test_a_package(self) -> None:
        program = self.write("p/input_validators/n.ctd", 'REGEX("[ü😀]*") SPACE INT(1,9) NEWLINE')
        self.write("p/data/sample/1.in", "ü 5\n")
        self.write("p/data/secret/2.in", "ü😀 77\n")
        self.write("p/data/invalid_inputs/3.in", "ü 6\n")
        told, found = self.check(self.client(), program)
        self.assertEqual(told, "3 checked, 1 as they have to be, 2 not")
        self.assertEqual(set(found), {"2.in", "3.in"})
        command = {"uri": program.as_uri(), "range": span(0, 22, 30)}
        wanted = {"range": span(0, 4, 6), "severity": 1, "source": "checktestdata", "message": "value out of range"}
        self.assertEqual(found["2.in"], [{**wanted, "relatedInformation": [{"location": command, "message": "the command that failed"}]}])
        self.assertEqual([(one["message"], one["range"]) for one in found["3.in"]], [("has to be rejected, and fits", span(0, 0, 0))])

    def test_each_file_of_a_package_is_checked_once(self) -> None:
        checker = self.checker_beside("true")
        checker.write_text(f'#!/bin/sh\necho "$*" >>{self.folder}/runs\nexec {CHECKER} "$@"\n')
        program = self.write("p/input_validators/n.ctd", "INT(1,9,n) NEWLINE IF(n>5) SPACE END")
        for number in range(1, 6):
            self.write(f"p/data/secret/{number}.in", f"{number}\n")
        told, _ = self.check(self.client(checker), program)
        runs = (self.folder / "runs").read_text().splitlines()
        of_data = [run for run in runs if "--max-steps=0" not in run]
        self.assertEqual((told, len(of_data)), ("5 checked, 5 as they have to be, 0 not", 5))

    def test_a_folder(self) -> None:
        program = self.write("n.ctd", "# preset: maxn=5\nINT(1,maxn) NEWLINE")
        self.write("right.in", "5\n")
        wrong = self.write("below/a wrong ü.in", "6\n")
        client = self.client()
        told, found = self.check(client, program)
        self.assertEqual((told, set(found)), ("1 file does not fit", {wrong.as_uri().rpartition("/")[2]}))
        self.assertEqual([(one["message"], one["range"]) for one in found.popitem()[1]], [("value out of range", span(0, 0, 1))])
        # what is right at the next check has no diagnostics any more
        wrong.write_text("4\n")
        client.request("workspace/executeCommand", command="ctd.checkData", arguments=[program.as_uri()])
        self.assertEqual(client.next_told("textDocument/publishDiagnostics", wrong.as_uri())["diagnostics"], [])
        self.assertEqual(client.next_told("window/showMessage"), {"type": 3, "message": "all data fit"})

    def test_what_cannot_be_checked(self) -> None:
        program = self.write("n.ctd", "SPACE")
        self.assertEqual(self.check(self.client(), program), (f"{self.folder}: error: no files *.in in this folder", {}))
        client = self.client()
        client.open("NEWLINE", program.as_uri())
        client.request("workspace/executeCommand", command="ctd.checkData", arguments=[program.as_uri()])
        self.assertEqual(client.next_told("window/showMessage"), {"type": 1, "message": "save the program first: the data are checked with its file"})
        self.write("right.in", " ")
        self.write("n.ctd", "INT(")
        client.change(2, {"text": "INT("})
        client.request("workspace/executeCommand", command="ctd.checkData", arguments=[program.as_uri()])
        self.assertEqual(client.next_told("window/showMessage"), {"type": 1, "message": f"{program}:1:5: error: syntax error"})
        with self.assertRaises(JsonRpcException):
            client.request("workspace/executeCommand", command="ctd.other", arguments=[])

    def test_a_package_that_is_none(self) -> None:
        program = self.write("p/input_validators/n.ctd", "SPACE")
        told, found = self.check(self.client(), program)
        self.assertEqual((told, found), (f"ctd-package: {self.folder}/p: no files *.in in data/sample or data/secret", {}))


LINES = "REPI(i,n,SPACE)\n    INT(0,1000000000,a[i])  # ü\nEND\nASSERT(UNIQUE(a) && n+1<=maxn)\nNEWLINE SET(left=left-n)\n"


@unittest.skipUnless(PYTHON, NO_LIBRARY)
class Speed(ServerTest):
    """A program of a megabyte is answered within two seconds of the last key, and no key waits. (Of three tries one has to be so fast, since the
    machine may have other work.)"""

    TRIES = 3

    def setUp(self) -> None:
        super().setUp()
        start = "SET(maxn=9,left=9) INT(1,10,n) NEWLINE\n"
        self.text = start + LINES * ((1_000_000 - len(start)) // len(LINES.encode()))
        self.last = self.text.count("\n")
        self.large = self.client(capabilities={})
        self.large.open(self.text)
        self.version = 1

    def type(self, character: int, text: str) -> None:
        """Types a text into the last line."""
        self.version += 1
        where = position(self.last, character)
        self.large.change(self.version, {"range": {"start": where, "end": where}, "text": text})

    def seconds_to_answer(self) -> tuple[float, list[Json]]:
        """How long it takes until the last version has its diagnostics, and these."""
        started = time.monotonic()
        told = self.large.diagnostics(self.version)
        return time.monotonic() - started, told

    def test_findings(self) -> None:
        times = []
        for _ in range(self.TRIES):
            for number, key in enumerate("SPACE "):
                self.type(number, key)
                time.sleep(0.05)
            times.append(self.seconds_to_answer()[0])
        self.assertLess(min(times), 2)

    def test_a_syntax_error_at_the_end(self) -> None:
        # what could stand there follows from all that stands before it
        times = []
        for number in range(self.TRIES):
            self.type(0, "(")
            seconds, told = self.seconds_to_answer()
            self.assertEqual([(one["range"], one["message"]) for one in told], [(span(self.last, 0, 1), "syntax error: expected a command or the end of the program")])
            times.append(seconds)
        self.assertLess(min(times), 2)

    def test_keys_while_it_is_at_work(self) -> None:
        document = {"uri": self.large.uri}
        times = []
        for _ in range(self.TRIES):
            waiting = [self.large.endpoint.request(f"textDocument/{what}", {"textDocument": document}) for what in ("documentSymbol", "foldingRange")]
            started = time.monotonic()
            for _ in range(10):
                self.type(0, " ")
            # (messages are taken in order, so this comes after the keys)
            self.large.request("textDocument/codeAction", textDocument=document, range=span(0, 0, 0), context={"diagnostics": []})
            times.append((time.monotonic() - started) / 10)
            for one in waiting:
                one.result(OUT_OF_TIME)
        self.assertLess(min(times), 0.2)


if __name__ == "__main__":
    sys.exit(run_unit_tests("language_server"))
