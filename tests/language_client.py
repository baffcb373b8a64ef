"""A client of ctd-language-server, over the client of its own library, and what the tests with it share.

The library may be there for the Python of the system alone, as in Debian: then the test starts again with that."""
from __future__ import annotations

import itertools
import json
import os
import queue
import shutil
import subprocess
import sys
import tempfile
import threading
import time
import unittest
from functools import lru_cache
from pathlib import Path
from typing import Any

from results import TOP, checker_to_test

TOOLS = TOP / "tools"
SERVER = TOOLS / "ctd-language-server"
CHECKER = checker_to_test()
LIBRARY = "pylsp_jsonrpc"
OUT_OF_TIME = 30
NO_LIBRARY = f"{LIBRARY} is not there"

Json = dict[str, Any]


def python_with_library() -> str | None:
    """A Python that has the library: this one, or that of the system, for which Debian has it."""
    for python in (sys.executable, "/usr/bin/python3"):
        if shutil.which(python) and subprocess.run([python, "-c", f"import {LIBRARY}"], capture_output=True, check=False).returncode == 0:
            return python
    return None


PYTHON = python_with_library()
if PYTHON not in (None, sys.executable):
    # (the client of this test needs the library too)
    os.execv(str(PYTHON), [str(PYTHON), *sys.argv])
if PYTHON:
    from pylsp_jsonrpc.endpoint import Endpoint
    from pylsp_jsonrpc.exceptions import JsonRpcException
    from pylsp_jsonrpc.streams import JsonRpcStreamReader, JsonRpcStreamWriter
else:
    JsonRpcException = Exception

sys.dont_write_bytecode = True
sys.path.insert(0, str(TOOLS))


def position(line: int, character: int) -> Json:
    return {"line": line, "character": character}


def span(line: int, start: int, end: int, end_line: int | None = None) -> Json:
    return {"start": position(line, start), "end": position(line if end_line is None else end_line, end)}


class Client:
    """A client that has started a server, and what the server told it without being asked."""

    def __init__(self, checker: Path = CHECKER, **initialize: Any) -> None:
        call = [PYTHON or "", str(SERVER), "--checker", str(checker)]
        self.process = subprocess.Popen(call, stdin=subprocess.PIPE, stdout=subprocess.PIPE, stderr=subprocess.PIPE)
        assert self.process.stdin and self.process.stdout and self.process.stderr
        self.told: queue.Queue[tuple[str, Json]] = queue.Queue()
        self.numbers, self.uri = itertools.count(), ""
        takers = {method: self.taker(method) for method in ("textDocument/publishDiagnostics", "window/showMessage", "window/logMessage")}
        self.endpoint = Endpoint(takers, JsonRpcStreamWriter(self.process.stdin).write)
        self.listener = threading.Thread(target=JsonRpcStreamReader(self.process.stdout).listen, args=[self.endpoint.consume], daemon=True)
        self.listener.start()
        if initialize:
            self.request("initialize", **initialize)
            self.notify("initialized")

    def taker(self, method: str) -> Any:
        return lambda given: self.told.put((method, given))

    def request(self, method: str, **parameters: Any) -> Any:
        """The result of a request. Raises JsonRpcException for an error."""
        return self.endpoint.request(method, parameters).result(OUT_OF_TIME)

    def notify(self, method: str, **parameters: Any) -> None:
        self.endpoint.notify(method, parameters)

    def next_told(self, method: str, uri: str | None = None) -> Json:
        """What the server tells next by a method, of a document where one is named."""
        end = time.monotonic() + OUT_OF_TIME
        while True:
            name, given = self.told.get(timeout=max(0.0, end - time.monotonic()))
            if name == method and uri in (None, given.get("uri")):
                return given

    def open(self, text: str, uri: str | None = None) -> None:
        """Opens a text, which then is the one that all else is about; without a name it gets a new one."""
        self.uri = uri or f"file:///{next(self.numbers)}.ctd"
        document = {"uri": self.uri, "languageId": "checktestdata", "version": 1, "text": text}
        self.notify("textDocument/didOpen", textDocument=document)

    def change(self, version: int, *changes: Json) -> None:
        self.notify("textDocument/didChange", textDocument={"uri": self.uri, "version": version}, contentChanges=list(changes))

    def diagnostics(self, version: int | None = None) -> list[Json]:
        """The diagnostics that come next of the text; for a version, where one is given."""
        while True:
            given = self.next_told("textDocument/publishDiagnostics", self.uri)
            if version in (None, given.get("version")):
                return list(given["diagnostics"])

    def ask(self, what: str, line: int, character: int, **more: Any) -> Any:
        """The answer to a request about a position."""
        return self.request(f"textDocument/{what}", textDocument={"uri": self.uri}, position=position(line, character), **more)

    def ask_all(self, what: str) -> Any:
        """The answer to a request about the whole text."""
        return self.request(f"textDocument/{what}", textDocument={"uri": self.uri})

    def close(self) -> tuple[int, bytes]:
        """Ends the connection as the protocol says. Gives the status of the server, and what it wrote on standard error."""
        assert self.request("shutdown") is None
        self.notify("exit")
        with self.process:
            status, err = self.process.wait(OUT_OF_TIME), self.process.stderr.read()
            self.listener.join()
        return status, err


@lru_cache(maxsize=None)
def shared_client() -> Client:
    """A client for all tests that want no other, since a server takes a moment to start."""
    return Client(capabilities={})


def tearDownModule() -> None:
    """Ends the client that the tests of a module share; each of these modules imports this."""
    if shared_client.cache_info().currsize:
        assert shared_client().close() == (0, b"")
        shared_client.cache_clear()


class ServerTest(unittest.TestCase):
    """A folder, and clients whose servers end without a word."""

    def setUp(self) -> None:
        scratch = tempfile.TemporaryDirectory()
        self.addCleanup(scratch.cleanup)
        self.folder = Path(scratch.name)

    def client(self, checker: Path = CHECKER, **initialize: Any) -> Client:
        """A client that is connected: the shared one, or one of the test alone if something else than usual is wanted."""
        if checker is CHECKER and not initialize:
            return shared_client()
        client = Client(checker, **{"capabilities": {}, **initialize})
        self.addCleanup(lambda: self.assertEqual(client.close(), (0, b"")))
        return client

    def write(self, name: str, text: str) -> Path:
        path = self.folder / name
        path.parent.mkdir(parents=True, exist_ok=True)
        path.write_bytes(text.encode())
        return path

    @staticmethod
    def finding(line: int, column: int, rank: str, text: str, **others: str) -> str:
        """A script that writes an object of ctd-lint. The shell puts its variables into the text."""
        return f"cat <<END\n{json.dumps({'file': 'p.ctd', 'line': line, 'column': column, 'rank': rank, 'text': text, **others})}\nEND\n"

    def checker_beside(self, linter: str) -> Path:
        """A checker, and beside it a ctd-lint that does what a script of the shell says, with the file that it is given as $program."""
        self.write("bin/ctd-lint", f"#!/bin/sh\nfor program; do :; done\n{linter}\n").chmod(0o755)
        checker = self.write("bin/checktestdata", f'#!/bin/sh\nexec {CHECKER} "$@"\n')
        checker.chmod(0o755)
        return checker
