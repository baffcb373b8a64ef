#!/usr/bin/env python3
"""Speaks with ctd-language-server as no editor does: headers in any order and case, sizes that are none, messages that are none, parameters of other kinds.
The server answers, or ends with status 2 and one line.

The last line counts what passed and failed. usage: tests/hostile/server.py [PROGRAM]"""
from __future__ import annotations

import json
import subprocess
import sys
import unittest
from pathlib import Path
from typing import Any

sys.path.insert(0, str(Path(__file__).resolve().parent.parent))
from language_client import CHECKER, NO_LIBRARY, PYTHON, SERVER  # noqa: E402
from results import run_unit_tests  # noqa: E402

SOON = 60
NO_PROTOCOL = "standard input has no messages of the Language Server Protocol"
INITIALIZE = {"id": 1, "method": "initialize", "params": {"capabilities": {}}}
SHUT_DOWN, EXIT = {"id": 9, "method": "shutdown"}, {"method": "exit"}


def body(message: Any) -> bytes:
    return json.dumps({"jsonrpc": "2.0", **message} if isinstance(message, dict) else message).encode()


def sent(*messages: Any) -> bytes:
    """Messages as they are sent; bytes are sent as they are."""
    return b"".join(one if isinstance(one, bytes) else b"Content-Length: %d\r\n\r\n%b" % (len(body(one)), body(one)) for one in messages)


@unittest.skipUnless(PYTHON, NO_LIBRARY)
class Hostile(unittest.TestCase):
    def run_server(self, text: bytes) -> tuple[int, list[Any], str]:
        """The status, the answers, and what is written on standard error."""
        call = [str(PYTHON), str(SERVER), "--checker", str(CHECKER)]
        ran = subprocess.run(call, input=text, capture_output=True, timeout=SOON, check=False)
        answers, rest = [], ran.stdout
        while rest:
            head, _, rest = rest.partition(b"\r\n\r\n")
            length = int(head.partition(b"Content-Length: ")[2].split(b"\r\n")[0])
            answers.append(json.loads(rest[:length]))
            rest = rest[length:]
        return ran.returncode, answers, ran.stderr.decode()

    def test_headers_in_any_order_and_case(self) -> None:
        content = body(INITIALIZE)
        size = b"%d" % len(content)
        kind = b"application/vscode-jsonrpc; charset=utf-8"
        for head in (
            b"content-length:" + size + b"\r\n\r\n",
            b"Content-Type: " + kind + b"\r\nContent-Length: " + size + b"\r\n\r\n",
            b"CONTENT-LENGTH :   " + size + b"  \r\nX-Other: a:b\r\n\r\n",
            b"Content-Length: " + size + b"\n\n",
        ):
            with self.subTest(head):
                status, answers, err = self.run_server(head + content + sent(SHUT_DOWN, EXIT))
                self.assertEqual((status, [one["id"] for one in answers], err), (0, [1, 9], ""))

    def test_what_ends_it(self) -> None:
        for text, told in [
            (b"Content-Length: -5\r\n\r\n", NO_PROTOCOL),
            (b"Content-Length: 5.0\r\n\r\n", NO_PROTOCOL),
            (b"Content-Length: \r\n\r\n", NO_PROTOCOL),
            (b"Content-Type: x\r\n\r\n{}", NO_PROTOCOL),
            (b"\r\n", NO_PROTOCOL),
            (b"a: b\r\n" * 100, NO_PROTOCOL),
            (b"Content-Length: " + b" " * 5_000 + b"5\r\n\r\n", NO_PROTOCOL),
            (b"GET / HTTP/1.1\r\nHost: x\r\n\r\n", NO_PROTOCOL),
            (b"\xff\xfe\x00", NO_PROTOCOL),
            (b"Content-Length: 99999999999\r\n\r\n", "a message has more than 67108864 bytes"),
            (b"Content-Length: " + b"9" * 900 + b"\r\n\r\n", "a message has more than 67108864 bytes"),
            (sent([INITIALIZE]), "a message of standard input is no object of JSON"),
            (sent({"method": "$/cancelRequest"}), "$/cancelRequest names no request"),
            (sent({"method": "$/cancelRequest", "params": {}}), "$/cancelRequest names no request"),
            (sent({"method": "$/cancelRequest", "params": {"id": [1]}}), "$/cancelRequest names no request"),
            (sent({"method": "$/cancelRequest", "params": [1]}), "$/cancelRequest names no request"),
            (sent({}), "a message has neither an id nor a method"),
            (sent({"method": ["x"]}), "a message has an id or a method that is none"),
            (sent({"id": {"a": 1}, "method": "x"}), "a message has an id or a method that is none"),
            (sent({"id": [1]}), "a message has an id or a method that is none"),
            (sent({"method": "x", "params": 7}), "a message has parameters that are none"),
        ]:
            with self.subTest(text[:60]):
                self.assertEqual(self.run_server(text), (2, [], f"ctd-language-server: {told}\n"))

    def test_what_is_no_json(self) -> None:
        texts = [b"", b"{", b"nul", b"\xff", b"[" * 100_000, b'{"id": ' + b"9" * 5_000 + b"}", b'{"a":' * 50_000]
        wrong = [b"Content-Length: %d\r\n\r\n%b" % (len(text), text) for text in texts]
        status, answers, err = self.run_server(sent(*wrong, INITIALIZE, SHUT_DOWN, EXIT))
        refused = {"jsonrpc": "2.0", "id": None, "error": {"code": -32700, "message": "a message is no JSON"}}
        self.assertEqual((status, answers[: len(texts)], [one["id"] for one in answers[len(texts) :]], err), (0, [refused] * len(texts), [1, 9], ""))

    def test_parameters_that_are_none(self) -> None:
        uri = "file:///n.ctd"
        document = {"uri": uri, "languageId": "checktestdata", "version": 1, "text": "INT(1,2)"}
        opened = {"method": "textDocument/didOpen", "params": {"textDocument": document}}
        wrong: list[Any] = [None, [], [1], {}, {"textDocument": 7}, {"textDocument": {}}, {"textDocument": {"uri": [1]}}, {"textDocument": {"uri": uri}, "position": 1}]
        wrong += [{"textDocument": {"uri": uri}, "position": {"line": "x", "character": None}}, {"textDocument": {"uri": uri}, "contentChanges": [1]}]
        methods = ["hover", "definition", "references", "completion", "prepareRename", "rename", "documentSymbol", "foldingRange", "codeAction"]
        requests = [{"id": f"{method}{number}", "method": f"textDocument/{method}", "params": given} for method in methods for number, given in enumerate(wrong)]
        requests += [{"id": f"execute{number}", "method": "workspace/executeCommand", "params": given} for number, given in enumerate(wrong)]
        noises = [{"method": f"textDocument/{method}", "params": given} for method in ("didOpen", "didChange", "didClose") for given in wrong]
        noises += [{"method": "workspace/didChangeConfiguration", "params": given} for given in [*wrong, {"settings": 7}, {"settings": {"checktestdata": {"presets": "\0"}}}]]
        noises += [{"id": 5, "result": None}, {"id": "x", "error": 7}, {"method": "no/such"}]
        status, answers, err = self.run_server(sent(INITIALIZE, opened, *noises, *requests, {"id": 3, "method": "no/such"}, SHUT_DOWN, EXIT))
        self.assertEqual((status, err), (0, ""))
        given = {one["id"]: one for one in answers if "id" in one}
        self.assertEqual(set(given), {1, 3, 9, *(one["id"] for one in requests)})
        self.assertEqual(given[3]["error"]["code"], -32601)
        for method in ("hover", "rename", "definition"):
            for number in range(len(wrong)):
                self.assertEqual(given[f"{method}{number}"].get("error", {}).get("code"), -32602, (method, wrong[number]))


if __name__ == "__main__":
    sys.exit(run_unit_tests("server"))
