"""The server: takes messages in order, answers requests, and checks after 150 ms of quiet."""

from __future__ import annotations

import queue
import sys
import threading
import time
from collections.abc import Callable
from typing import Any, BinaryIO

from . import features
from .checking import Checker
from .documents import path_of, to_bytes
from .protocol import (CONTENT_MODIFIED, INTERNAL_ERROR, INVALID_PARAMS, INVALID_REQUEST, METHOD_NOT_FOUND,
                       NOT_INITIALIZED, PARSE_ERROR, REQUEST_CANCELLED, Broken, Json, ProtocolError, Writer, read_message)
from .settings import Settings
from .workspace import Workspace

QUIET = 0.15  # seconds after a change until the books are checked
# Requests whose answers are of no use once the document has changed.
OVERTAKEN = {"textDocument/semanticTokens/full", "textDocument/inlayHint", "textDocument/foldingRange",
             "textDocument/documentSymbol", "textDocument/completion", "textDocument/codeAction",
             "textDocument/documentHighlight"}


class Arrivals:
    """Reads messages in a thread of its own, and knows what was cancelled or overtaken meanwhile."""

    def __init__(self, stream: BinaryIO) -> None:
        self.stream = stream
        self.messages: queue.SimpleQueue[tuple[Json, int] | None] = queue.SimpleQueue()
        self.cancelled: set[Json] = set()
        self.changes: dict[str, int] = {}  # how many changes of a document have arrived
        threading.Thread(target=self.read, daemon=True).start()

    def read(self) -> None:
        """All messages, until the stream ends."""
        while True:
            try:
                message = read_message(self.stream)
            except Broken as broken:
                self.messages.put(({"broken": str(broken)}, 0))
                if broken.goes_on:
                    continue
                message = None
            except (OSError, ValueError):
                message = None
            if message is None:
                self.messages.put(None)
                return
            self.messages.put((message, self.count(message)))

    def count(self, message: Json) -> int:
        """Notes what a message cancels or changes; gives how many changes its document has had."""
        params = message.get("params")
        if message.get("method") == "$/cancelRequest" and isinstance(params, dict):
            identity = params.get("id")
            if isinstance(identity, (int, str)):
                self.cancelled.add(identity)
            return 0
        uri = uri_in(params)
        if message.get("method") == "textDocument/didChange":
            self.changes[uri] = self.changes.get(uri, 0) + 1
        return self.changes.get(uri, 0)

    def is_overtaken(self, params: Json, count: int) -> bool:
        """Whether a later change of the same document has arrived."""
        return self.changes.get(uri_in(params), 0) > count


def uri_in(params: Json) -> str:
    """The document that parameters speak of, or nothing."""
    document = params.get("textDocument") if isinstance(params, dict) else None
    uri = document.get("uri") if isinstance(document, dict) else None
    return uri if isinstance(uri, str) else ""


class Server:
    """A session with one client."""

    def __init__(self, source: BinaryIO, sink: BinaryIO) -> None:
        self.arrivals = Arrivals(source)
        self.writer = Writer(sink)
        self.workspace = Workspace()
        self.settings = Settings()
        self.checker = Checker(self.writer, self.settings)
        self.state = "new"
        self.due: float | None = None  # when the books are to be checked
        self.status = 1

    def serve(self) -> int:
        """The whole session; its exit status is 0 where it was shut down first."""
        try:
            while self.state != "ended":
                self.turn()
        except (BrokenPipeError, ConnectionError):
            pass
        return self.status

    def turn(self) -> None:
        """One message, or one check that is due."""
        wait = None if self.due is None else max(0.0, self.due - time.monotonic())
        try:
            arrival = self.arrivals.messages.get(timeout=wait)
        except queue.Empty:
            self.due = None
            self.checker.ask(self.workspace)
            return
        if arrival is None:
            self.state = "ended"
            return
        message, count = arrival
        if "broken" in message:
            self.writer.fail(None, PARSE_ERROR, str(message["broken"]))
        elif "method" in message:
            self.take(message, count)

    def take(self, message: dict[str, Json], count: int) -> None:
        """A request or a notification; an answer of the client is passed over."""
        method, params, identity = message["method"], message.get("params") or {}, message.get("id")
        is_request = "id" in message
        try:
            if not isinstance(method, str) or not isinstance(params, (dict, list)):
                raise ProtocolError(INVALID_REQUEST, "a method is a text, and parameters are an object")
            if is_request and identity in self.arrivals.cancelled:
                self.arrivals.cancelled.discard(identity)
                raise ProtocolError(REQUEST_CANCELLED, "cancelled")
            if method in OVERTAKEN and self.arrivals.is_overtaken(params, count):
                raise ProtocolError(CONTENT_MODIFIED, "the document has changed")
            result = self.result(method, params, is_request)
        except ProtocolError as error:
            if is_request:
                self.writer.fail(identity, error.code, error.message)
            return
        except (KeyError, TypeError, ValueError, AttributeError, IndexError) as error:
            if is_request:
                code = INVALID_PARAMS if isinstance(error, (KeyError, TypeError)) else INTERNAL_ERROR
                self.writer.fail(identity, code, f"{type(error).__name__}: {error}")
            else:
                print(f"euclid lsp: {method}: {type(error).__name__}: {error}", file=sys.stderr)
            return
        if is_request:
            self.writer.answer(identity, result)

    def result(self, method: str, params: Json, is_request: bool) -> Json:
        """What a request is answered, or nothing after a notification."""
        if method == "exit":
            self.state, self.status = "ended", 0 if self.state == "shut down" else 1
            return None
        if method == "initialize":
            return self.initialize(params)
        if self.state == "new" and is_request:
            raise ProtocolError(NOT_INITIALIZED, "`initialize` comes first")
        if self.state == "shut down" and is_request:
            raise ProtocolError(INVALID_REQUEST, "the server was shut down")
        own: Callable[[Json], Json] | None = getattr(self, method.replace("/", "_").replace("$", ""), None) \
            if method in NOTIFICATIONS or method == "shutdown" else None
        if own is not None:
            return own(params)
        feature: Callable[[features.Session, Json], Json] | None = features.FEATURES.get(method)
        if feature is None:
            if is_request:
                raise ProtocolError(METHOD_NOT_FOUND, f"no method {method[:60]}")
            return None
        return feature(features.Session(self.workspace, self.checker, self.settings), params)

    def initialize(self, params: Json) -> Json:
        """The handshake."""
        if self.state != "new":
            raise ProtocolError(INVALID_REQUEST, "`initialize` comes once")
        self.state = "open"
        self.settings.take(params.get("initializationOptions"))
        return {"capabilities": features.CAPABILITIES, "serverInfo": {"name": "euclid"}}

    def shutdown(self, params: Json) -> None:
        """The end of the session, but for `exit`."""
        self.state = "shut down"
        self.checker.stop()

    def changed(self) -> None:
        """A change: the books are checked once it has been quiet."""
        self.due = time.monotonic() + QUIET

    def textDocument_didOpen(self, params: Json) -> None:
        """A document was opened."""
        document = params["textDocument"]
        text = to_bytes(str(document["text"]).replace("\r\n", "\n"))
        self.workspace.open(str(document["uri"]), int(document.get("version", 0)), text)
        self.changed()

    def textDocument_didChange(self, params: Json) -> None:
        """A document was changed."""
        path = path_of(str(params["textDocument"]["uri"]))
        document = self.workspace.documents.get(path)
        if document is None:
            raise ProtocolError(INVALID_PARAMS, "a document that is not open was changed")
        document.change(params["contentChanges"], int(params["textDocument"].get("version") or 0))
        self.changed()

    def textDocument_didSave(self, params: Json) -> None:
        """A document was saved."""
        self.due = time.monotonic()

    def textDocument_didClose(self, params: Json) -> None:
        """A document was closed."""
        uri = str(params["textDocument"]["uri"])
        self.workspace.close(uri)
        self.checker.forget(uri)
        self.changed()

    def workspace_didChangeWatchedFiles(self, params: Json) -> None:
        """Files were changed by others."""
        self.changed()

    def workspace_didChangeConfiguration(self, params: Json) -> None:
        """Settings were changed."""
        settings: Any = params.get("settings") if isinstance(params, dict) else None
        self.settings.take(settings.get("euclid", settings) if isinstance(settings, dict) else None)
        self.changed()


NOTIFICATIONS = {"textDocument/didOpen", "textDocument/didChange", "textDocument/didSave", "textDocument/didClose",
                 "workspace/didChangeWatchedFiles", "workspace/didChangeConfiguration"}
