"""The Language Server Protocol for programs of checktestdata, over the streams and the dispatch of python-lsp-jsonrpc."""
from __future__ import annotations

import logging
import threading
from collections.abc import Callable
from enum import Enum
from functools import partial
from pathlib import Path
from typing import IO, Any
from urllib.parse import urlsplit
from urllib.request import url2pathname

from pylsp_jsonrpc.endpoint import Endpoint
from pylsp_jsonrpc.exceptions import JsonRpcException
from pylsp_jsonrpc.streams import JsonRpcStreamWriter

from ctd_companion import VERSION, tell_unforeseen
from ctd_data_faults import CannotCheck, DataFault, data_faults, range_in
from ctd_diagnostics import Diagnostic, NotWanted, Severity, Tools, define_option, diagnostics
from ctd_document import Document
from ctd_editing import CannotRename, completions, definitions, folds, hover, outline, references, rename, renamed_range
from ctd_messages import BadJson, messages_of
from ctd_text import Json, Text

NAME = "ctd-language-server"
CHECK_DATA = "ctd.checkData"
# How long after the last key a program is checked, in seconds.
DELAY = 0.2
# Codes of errors of the protocol.
PARSE_ERROR, INTERNAL_ERROR = -32700, -32603
INVALID_REQUEST, NOT_INITIALIZED, INVALID_PARAMETERS, REQUEST_FAILED = -32600, -32002, -32602, -32803
# How a client tells changes: by the range that each of them replaces.
INCREMENTAL = 2
CAPABILITIES = {
    "textDocumentSync": {"openClose": True, "change": INCREMENTAL},
    "completionProvider": {},
    "hoverProvider": True,
    "definitionProvider": True,
    "referencesProvider": True,
    "renameProvider": {"prepareProvider": True},
    "documentSymbolProvider": True,
    "foldingRangeProvider": True,
    "codeActionProvider": {"codeActionKinds": ["source"]},
    "executeCommandProvider": {"commands": [CHECK_DATA]},
}


class Phase(Enum):
    """How far a connection is: a client first asks to initialize, and at last to shut down."""

    NEW = "new"
    OPEN = "open"
    SHUT_DOWN = "shut down"


class Server:
    """A server for one client. Requests are answered by threads beside the one that reads, so that no key waits for them."""

    def __init__(self, tools: Tools, reading: IO[bytes], writing: IO[bytes]) -> None:
        self.tools = tools
        self.reading = reading
        self.write = JsonRpcStreamWriter(writing).write
        self.endpoint = Endpoint(self, self.write)
        self.phase, self.has_exited = Phase.NEW, False
        self.documents: dict[str, Document] = {}
        self.waiting: dict[str, threading.Timer] = {}
        self.presets = ""
        self.with_snippets = False
        self.with_versions = False
        # what was last told to be wrong with data, and a lock for one check of data at a time
        self.faulty: set[str] = set()
        self.checking_data = threading.Lock()
        self.publishing = threading.Lock()
        self.methods: dict[str, Callable[[Json], Any]] = {
            "initialize": self.initialize,
            "initialized": self.initialized,
            "shutdown": self.shut_down,
            "exit": self.exit,
            "workspace/didChangeConfiguration": lambda given: self.configure((given.get("settings") or {}).get("checktestdata")),
            "workspace/executeCommand": self.execute,
            "textDocument/didOpen": self.open,
            "textDocument/didChange": self.change,
            "textDocument/didClose": self.close,
            "textDocument/hover": lambda given: partial(hover, *self.place(given), self.presets, self.tools.linter),
            "textDocument/definition": lambda given: partial(definitions, *self.place(given)),
            "textDocument/references": lambda given: partial(references, *self.place(given), given["context"]["includeDeclaration"]),
            "textDocument/completion": lambda given: partial(completions, *self.place(given), self.with_snippets),
            "textDocument/prepareRename": lambda given: partial(renamed_range, *self.place(given)),
            "textDocument/rename": lambda given: partial(self.rename, *self.place(given), given["newName"]),
            "textDocument/documentSymbol": lambda given: partial(outline, self.document(given)),
            "textDocument/foldingRange": lambda given: partial(folds, self.document(given)),
            "textDocument/codeAction": self.actions,
        }

    def serve(self) -> int:
        """Answers until the client ends the connection. Gives the status of the protocol: 0 where it had asked to shut down. Raises BadStream."""
        try:
            for message in messages_of(self.reading):
                if isinstance(message, BadJson):
                    self.write({"jsonrpc": "2.0", "id": None, "error": {"code": PARSE_ERROR, "message": str(message)}})
                else:
                    self.endpoint.consume(message)
                if self.has_exited:
                    break
            return int(self.phase is not Phase.SHUT_DOWN)
        finally:
            # what is at work is not wanted any more, and ends
            self.phase = Phase.SHUT_DOWN
            for uri in list(self.documents):
                self.forget(uri)
            self.endpoint.shutdown()

    def __getitem__(self, method: str) -> Callable[[Json], Any]:
        """What handles a method, by the phase of the connection. Raises KeyError for one that there is not."""
        handler = self.methods[method]
        if method == "exit" or (self.phase is Phase.OPEN) == (method != "initialize") and self.phase is not Phase.SHUT_DOWN:
            return lambda given: answered(handler, given or {})
        return self.refuse

    def refuse(self, _: Json) -> None:
        if self.phase is Phase.NEW:
            raise JsonRpcException("the first request has to be initialize", NOT_INITIALIZED)
        raise JsonRpcException(f"the connection is {self.phase.value}", INVALID_REQUEST)

    def initialize(self, given: Json) -> Json:
        client = given.get("capabilities", {})
        self.with_snippets = is_set(client, "textDocument", "completion", "completionItem", "snippetSupport")
        self.with_versions = is_set(client, "workspace", "workspaceEdit", "documentChanges")
        self.phase = Phase.OPEN
        self.configure(given.get("initializationOptions"))
        return {"capabilities": CAPABILITIES, "serverInfo": {"name": NAME, "version": VERSION}}

    def initialized(self, _: Json) -> None:
        if self.tools.linter is None:
            self.endpoint.notify("window/logMessage", {"type": Severity.WARNING, "message": "ctd-lint is not there, so only refusals are told"})

    def shut_down(self, _: Json) -> None:
        self.phase = Phase.SHUT_DOWN

    def exit(self, _: Json) -> None:
        self.has_exited = True

    def configure(self, settings: Any) -> None:
        """Takes over the settings of a client: `presets`, as the checker's -D has them."""
        presets = settings.get("presets", self.presets) if isinstance(settings, dict) else self.presets
        if not isinstance(presets, str):
            self.tell("the setting presets is no text, such as n=5", Severity.ERROR)
        elif presets != self.presets:
            self.presets = presets
            for uri in list(self.documents):
                self.check_soon(uri)

    def tell(self, message: str, severity: Severity = Severity.INFORMATION) -> None:
        """Shows a line to the user."""
        self.endpoint.notify("window/showMessage", {"type": severity, "message": message})

    def document(self, given: Json) -> Document:
        """The document that a request names. Raises JsonRpcException where none is open by this name."""
        uri = given["textDocument"]["uri"]
        if uri not in self.documents:
            raise JsonRpcException(f"not open: {uri}", INVALID_PARAMETERS)
        return self.documents[uri]

    def place(self, given: Json) -> tuple[Document, Json]:
        """The document and the position that a request names."""
        return self.document(given), given["position"]

    def open(self, given: Json) -> None:
        opened = given["textDocument"]
        self.documents[opened["uri"]] = Document(opened["uri"], opened["version"], Text.of(opened["text"]))
        self.check_soon(opened["uri"])

    def change(self, given: Json) -> None:
        """Takes over changes of a text, one after the other."""
        document = self.document(given)
        self.documents[document.uri] = document.changed(given["textDocument"]["version"], given["contentChanges"])
        self.check_soon(document.uri)

    def close(self, given: Json) -> None:
        uri = self.document(given).uri
        with self.publishing:
            self.forget(uri)
            self.publish(uri, [])

    def forget(self, uri: str) -> None:
        """Drops a document, and what is still to be found in it."""
        del self.documents[uri]
        if timer := self.waiting.pop(uri, None):
            timer.cancel()

    def check_soon(self, uri: str) -> None:
        """Checks a program once no key has come for a moment."""
        if timer := self.waiting.pop(uri, None):
            timer.cancel()
        self.waiting[uri] = threading.Timer(DELAY, self.check, [self.documents[uri], self.presets])
        self.waiting[uri].start()

    def check(self, document: Document, presets: str) -> None:
        """Asks the tools what they say of a program, and tells it, if the program is still the same."""

        def is_wanted() -> bool:
            return self.documents.get(document.uri) is document and self.presets == presets

        try:
            found = diagnostics(self.tools, document, presets, is_wanted)
        except NotWanted:
            return
        except (OSError, ValueError) as error:
            # (no word of a command line can have a byte 0, as presets might)
            self.tell(f"cannot check: {error}", Severity.ERROR)
            return
        told = [diagnostic_value(document.text, one) for one in found]
        with self.publishing:
            if is_wanted():
                self.publish(document.uri, told, version=document.version)

    def publish(self, uri: str, told: list[Json], version: int | None = None) -> None:
        """Tells the diagnostics of a file, of one of its versions where it is open."""
        given: Json = {"uri": uri, "diagnostics": told}
        if version is not None:
            given["version"] = version
        self.endpoint.notify("textDocument/publishDiagnostics", given)

    def rename(self, document: Document, position: Json, new: str) -> Json:
        """The edits of all places of a name, of this version of the text alone if the client can tell. Raises JsonRpcException where it cannot
        have the other one."""
        try:
            edits = rename(document, position, new, self.presets)
        except CannotRename as fault:
            raise JsonRpcException(str(fault), REQUEST_FAILED) from fault
        if self.with_versions:
            return {"documentChanges": [{"textDocument": {"uri": document.uri, "version": document.version}, "edits": edits}]}
        return {"changes": {document.uri: edits}}

    def actions(self, given: Json) -> list[Json]:
        """What a user can have done: all data checked."""
        wanted = given.get("context", {}).get("only", ["source"])
        title, arguments = "Check all data", [self.document(given).uri]
        action = {"title": title, "kind": "source", "command": {"title": title, "command": CHECK_DATA, "arguments": arguments}}
        return [action] if "source" in wanted else []

    def execute(self, given: Json) -> Callable[[], None]:
        """Runs a command of a client; the one that there is has the program as its argument."""
        arguments = given.get("arguments") or []
        if given["command"] != CHECK_DATA or len(arguments) != 1:
            raise JsonRpcException(f"the one command is {CHECK_DATA}, with the program", INVALID_PARAMETERS)
        return partial(self.check_data, self.document({"textDocument": {"uri": arguments[0]}}))

    def check_data(self, document: Document) -> None:
        """Checks the data beside a program, and tells the faults in the files where they are."""
        with self.checking_data:
            try:
                program = saved_program(document)
                define = define_option(document, self.presets)
                faults, summary = data_faults(self.tools.checker, program, define, lambda: self.phase is Phase.OPEN)
            except NotWanted:
                return
            except CannotCheck as reason:
                self.tell(str(reason), Severity.ERROR)
                return
            told: dict[str, list[Json]] = {uri: [] for uri in self.faulty}
            for one in faults:
                told.setdefault(one.file.as_uri(), []).append(fault_value(one))
            for uri, values in told.items():
                self.publish(uri, values)
            self.faulty = {uri for uri, values in told.items() if values}
            self.tell(summary, Severity.WARNING if faults else Severity.INFORMATION)


def answered(work: Callable[..., Any], *given: Any) -> Any:
    """The result of a request, also where it is worked out later. Raises JsonRpcException: for parameters that are none, and for what nobody has foreseen,
    which is said on standard error too."""
    try:
        found = work(*given)
    except JsonRpcException:
        raise
    except (AttributeError, KeyError, TypeError) as fault:
        raise JsonRpcException("the parameters are none that this server can take", INVALID_PARAMETERS) from fault
    except Exception as fault:
        tell_unforeseen(fault)
        raise JsonRpcException(f"unforeseen fault: {type(fault).__name__}", INTERNAL_ERROR) from fault
    return partial(answered, found) if callable(found) else found


def is_set(client: Json, *names: str) -> bool:
    """Whether a client says that it can do something, by the names that lead there among its capabilities."""
    value: Any = client
    for name in names:
        value = value.get(name) if isinstance(value, dict) else None
    return bool(value)


def saved_program(document: Document) -> Path:
    """The file of a program. Raises CannotCheck where it does not have the text of the editor: the tools would check another program."""
    parts = urlsplit(document.uri)
    path = Path(url2pathname(parts.path))
    try:
        is_saved = parts.scheme == "file" and path.read_bytes() == document.text.data
    except OSError:
        is_saved = False
    if not is_saved:
        raise CannotCheck("save the program first: the data are checked with its file")
    return path


def diagnostic_value(text: Text, found: Diagnostic) -> Json:
    """A diagnostic in the values of the protocol."""
    code = {"code": found.kind} if found.kind else {}
    return {"range": text.span(found.start, found.end), "severity": found.severity, "source": found.source, "message": found.message, **code}


def fault_value(fault: DataFault) -> Json:
    """A fault of data as a diagnostic of the protocol, which leads to the command that failed."""
    command = {"location": {"uri": fault.program.as_uri(), "range": range_in(fault.program, fault.in_program)}, "message": "the command that failed"}
    related = {"relatedInformation": [command]} if fault.in_program else {}
    return {"range": range_in(fault.file, fault.in_data), "severity": Severity.ERROR, "source": "checktestdata", "message": fault.message, **related}


def keep_log_to_faults() -> None:
    """Has the library write nothing of messages that need no answer, of what a client is told anyway, and of a client that went away."""
    expected = (JsonRpcException, OSError)
    for name in ("endpoint", "streams"):
        logger = logging.getLogger(f"pylsp_jsonrpc.{name}")
        logger.setLevel(logging.ERROR)
        logger.addFilter(lambda record: not (record.exc_info and isinstance(record.exc_info[1], expected)))
