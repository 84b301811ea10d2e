"""A client of the language server, message by message, for tests."""

from __future__ import annotations

import json
import queue
import subprocess
import sys
import threading
import time
from pathlib import Path
from typing import Any

TOP = Path(__file__).resolve().parents[2]
SECONDS = 20.0


class Client:
    """A server process, and what it has said."""

    def __init__(self) -> None:
        command = [sys.executable, str(TOP / "bin" / "euclid"), "lsp"]
        self.process = subprocess.Popen(command, stdin=subprocess.PIPE, stdout=subprocess.PIPE, stderr=subprocess.PIPE)
        self.messages: queue.SimpleQueue[dict[str, Any] | None] = queue.SimpleQueue()
        self.kept: list[dict[str, Any]] = []
        self.next = 0
        threading.Thread(target=self.read, daemon=True).start()

    def read(self) -> None:
        """All that the server writes."""
        out = self.process.stdout
        assert out is not None
        while True:
            length = 0
            while (line := out.readline()) not in (b"\r\n", b""):
                if line.lower().startswith(b"content-length:"):
                    length = int(line.split(b":")[1])
            if not length:
                self.messages.put(None)
                return
            self.messages.put(json.loads(out.read(length)))

    def send_bytes(self, data: bytes) -> None:
        """Bytes as they are."""
        assert self.process.stdin is not None
        self.process.stdin.write(data)
        self.process.stdin.flush()

    def send(self, message: dict[str, Any]) -> None:
        """One message."""
        body = json.dumps({"jsonrpc": "2.0", **message}).encode()
        self.send_bytes(b"Content-Length: %d\r\n\r\n" % len(body) + body)

    def notify(self, method: str, params: Any) -> None:
        """A notification."""
        self.send({"method": method, "params": params})

    def ask(self, method: str, params: Any) -> int:
        """A request; gives its number."""
        self.next += 1
        self.send({"id": self.next, "method": method, "params": params})
        return self.next

    def request(self, method: str, params: Any) -> Any:
        """A request and its result; an error is raised."""
        answer = self.answer(self.ask(method, params))
        if "error" in answer:
            raise AssertionError(answer["error"])
        return answer["result"]

    def answer(self, number: int | None, seconds: float = SECONDS) -> dict[str, Any]:
        """The answer to a request."""
        return self.wait(lambda message: "id" in message and message["id"] == number and "method" not in message, seconds)

    def diagnostics(self, path: Path, version: int | None = None, seconds: float = SECONDS) -> list[dict[str, Any]]:
        """The next diagnostics of a file, of a version where one is given."""
        def fits(message: dict[str, Any]) -> bool:
            params = message.get("params", {})
            return (message.get("method") == "textDocument/publishDiagnostics" and params["uri"] == path.as_uri()
                    and (version is None or params.get("version") == version))
        return list(self.wait(fits, seconds)["params"]["diagnostics"])

    def wait(self, fits: Any, seconds: float) -> dict[str, Any]:
        """The next message that fits; others are kept for later."""
        for at, message in enumerate(self.kept):
            if fits(message):
                return self.kept.pop(at)
        end = time.monotonic() + seconds
        while (left := end - time.monotonic()) > 0:
            try:
                found = self.messages.get(timeout=left)
            except queue.Empty:
                break
            if found is None:
                raise AssertionError("the server has ended")
            if fits(found):
                return found
            self.kept.append(found)
        raise AssertionError("no such message came")

    def begin(self) -> dict[str, Any]:
        """The handshake; gives the capabilities."""
        result = self.request("initialize", {"processId": None, "rootUri": None, "capabilities": {}})
        self.notify("initialized", {})
        return dict(result["capabilities"])

    def open(self, path: Path, text: str | None = None) -> None:
        """Opens a document."""
        text = path.read_text(encoding="utf-8") if text is None else text
        self.notify("textDocument/didOpen", {"textDocument": {
            "uri": path.as_uri(), "languageId": "elements", "version": 1, "text": text}})

    def change(self, path: Path, version: int, text: str) -> None:
        """Changes the whole text of a document."""
        self.notify("textDocument/didChange", {"textDocument": {"uri": path.as_uri(), "version": version},
                                               "contentChanges": [{"text": text}]})

    def at(self, path: Path, line: int, character: int) -> dict[str, Any]:
        """A position, from 0."""
        return {"textDocument": {"uri": path.as_uri()}, "position": {"line": line, "character": character}}

    def end(self) -> int:
        """Shuts the server down; gives its exit status."""
        self.request("shutdown", None)
        self.notify("exit", None)
        status = self.process.wait(SECONDS)
        self.close()
        return status

    def close(self) -> None:
        """Ends the process, however it is."""
        if self.process.poll() is None:
            self.process.kill()
            self.process.wait()
        for stream in (self.process.stdin, self.process.stdout, self.process.stderr):
            if stream is not None:
                stream.close()
