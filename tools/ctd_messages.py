"""The messages of the Language Server Protocol on standard input: headers and a body of JSON. The library's own reader takes one header in one form."""
from __future__ import annotations

import json
from collections.abc import Iterator
from typing import IO, Any

NO_PROTOCOL = "standard input has no messages of the Language Server Protocol"
CANCEL = "$/cancelRequest"
# The most bytes of a line of a header and of a body, and lines of a header.
MOST_OF_LINE, MOST_OF_BODY, MOST_LINES = 1024, 1 << 26, 16


class BadStream(Exception):
    """What comes is no message of the protocol: a line that says so."""


class BadJson(Exception):
    """The body of a message is no JSON."""


def messages_of(reading: IO[bytes]) -> Iterator[dict[str, Any] | BadJson]:
    """The messages of a client until it goes away, and in place of a body that is no JSON what is wrong with it. Raises BadStream."""
    while (length := body_length(reading)) is not None:
        body = reading.read(length)
        if len(body) < length:
            return
        try:
            message = json.loads(body.decode())
        except (ValueError, RecursionError):
            yield BadJson("a message is no JSON")
            continue
        yield checked(message)


def body_length(reading: IO[bytes]) -> int | None:
    """The number of bytes that the headers of a message announce; none where there is no message any more. Raises BadStream."""
    length = None
    for _ in range(MOST_LINES):
        line = reading.readline(MOST_OF_LINE)
        if not line:
            return None
        name, colon, value = line.strip().partition(b":")
        if not name and not colon:
            break
        if not colon or not line.endswith(b"\n"):
            raise BadStream(NO_PROTOCOL)
        if name.strip().lower() == b"content-length":
            length = value.strip()
    if length is None or not length.isdigit():
        raise BadStream(NO_PROTOCOL)
    if int(length) > MOST_OF_BODY:
        raise BadStream(f"a message has more than {MOST_OF_BODY} bytes")
    return int(length)


def checked(message: Any) -> dict[str, Any]:
    """A message whose parts are of the kinds that they have to be. Raises BadStream."""
    if not isinstance(message, dict):
        raise BadStream("a message of standard input is no object of JSON")
    identity, method = message.get("id"), message.get("method")
    if not isinstance(identity, (str, int, type(None))) or not isinstance(method, (str, type(None))):
        raise BadStream("a message has an id or a method that is none")
    if method is None and "id" not in message:
        raise BadStream("a message has neither an id nor a method")
    given = message.get("params")
    if not isinstance(given, (dict, list, type(None))):
        raise BadStream("a message has parameters that are none")
    if method == CANCEL and not (isinstance(given, dict) and isinstance(given.get("id"), (str, int))):
        raise BadStream(f"{CANCEL} names no request")
    return message
