"""Messages of the protocol: read from a stream, written to one, and what an error is."""

from __future__ import annotations

import json
import threading
from typing import Any, BinaryIO

MOST_BYTES = 32 << 20  # of one message
PARSE_ERROR, INVALID_REQUEST, METHOD_NOT_FOUND, INVALID_PARAMS = -32700, -32600, -32601, -32602
INTERNAL_ERROR, NOT_INITIALIZED, REQUEST_CANCELLED, CONTENT_MODIFIED = -32603, -32002, -32800, -32801

Json = Any  # what json.loads gives


class ProtocolError(Exception):
    """A request that is answered by an error."""

    def __init__(self, code: int, message: str) -> None:
        super().__init__(message)
        self.code, self.message = code, message


class Broken(Exception):
    """Bytes that are no message; where the next one begins is known where `goes_on`."""

    def __init__(self, message: str, goes_on: bool) -> None:
        super().__init__(message)
        self.goes_on = goes_on


def read_message(stream: BinaryIO) -> Json | None:
    """The next message, or none at the end of the stream."""
    length = None
    while True:
        line = stream.readline(4096)
        if not line:
            return None
        if line in (b"\r\n", b"\n"):
            break
        name, _, value = line.partition(b":")
        if name.strip().lower() == b"content-length":
            digits = value.strip()
            if not digits.isdigit() or len(digits) > 12:
                raise Broken("a length that is no number", False)
            length = int(digits)
    if length is None:
        raise Broken("a message without its length", True)
    if length > MOST_BYTES:
        skip(stream, length)
        raise Broken(f"a message of more than {MOST_BYTES} bytes", True)
    body = stream.read(length)
    if len(body) < length:
        return None
    try:
        message = json.loads(body.decode("utf-8"))
    except (UnicodeDecodeError, ValueError, RecursionError):
        raise Broken("a message that is no JSON", True) from None
    if not isinstance(message, dict):
        raise Broken("a message that is no object", True)
    return message


def skip(stream: BinaryIO, length: int) -> None:
    """Passes over so many bytes."""
    while length > 0:
        part = stream.read(min(length, 1 << 16))
        if not part:
            return
        length -= len(part)


class Writer:
    """Writes messages, one at a time, from any thread."""

    def __init__(self, stream: BinaryIO) -> None:
        self.stream = stream
        self.lock = threading.Lock()

    def write(self, message: dict[str, Json]) -> None:
        """One message."""
        body = json.dumps({"jsonrpc": "2.0", **message}, ensure_ascii=True, separators=(",", ":")).encode("ascii")
        with self.lock:
            self.stream.write(b"Content-Length: %d\r\n\r\n" % len(body) + body)
            self.stream.flush()

    def notify(self, method: str, params: Json) -> None:
        """A notification."""
        self.write({"method": method, "params": params})

    def answer(self, identity: Json, result: Json) -> None:
        """The answer to a request."""
        self.write({"id": identity, "result": result})

    def fail(self, identity: Json, code: int, message: str) -> None:
        """The error that answers a request."""
        self.write({"id": identity, "error": {"code": code, "message": message}})
