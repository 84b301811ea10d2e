"""The server: one page, its files, and the jobs that it asks for.

It takes GET of a list of files that were read at the start, and POST of jobs. No path of a request
is ever one of the machine, nothing is written, and no other program than the workers is started.
"""

from __future__ import annotations

import json
import select
import socket
import threading
from http import HTTPStatus
from http.server import BaseHTTPRequestHandler, ThreadingHTTPServer
from pathlib import Path
from typing import Any

from ..rules import tables
from . import lessons
from .printing import rules_page
from .pool import Data, Full, Gone, Pool

PAGE = Path(__file__).resolve().parent / "page"
TYPES = {".html": "text/html; charset=utf-8", ".css": "text/css; charset=utf-8",
         ".js": "text/javascript; charset=utf-8", ".svg": "image/svg+xml"}
MOST_BYTES = 256_000  # of a request
MOST_CONNECTIONS = 256
SECONDS = 15  # that a client may be silent
HEADERS = {
    "Content-Security-Policy": "default-src 'none'; script-src 'self'; style-src 'self'; img-src 'self' data:; "
                               "connect-src 'self'; base-uri 'none'; form-action 'none'; frame-ancestors 'none'",
    "X-Content-Type-Options": "nosniff",
    "Referrer-Policy": "no-referrer",
    "Cross-Origin-Opener-Policy": "same-origin",
    "Cross-Origin-Resource-Policy": "same-origin",
    "Cache-Control": "no-cache",
}
KINDS = ("check", "figure", "library")


class Site:
    """What is served: the files of the page, the lessons, the libraries by their names."""

    def __init__(self, folder: str, libraries: dict[str, str]) -> None:
        self.files = {"/" + path.name: (path.read_bytes(), TYPES[path.suffix])
                      for path in sorted(PAGE.iterdir()) if path.suffix in TYPES}
        self.files["/"] = self.files["/index.html"]
        self.files["/rules.html"] = (rules_page().encode(), TYPES[".html"])
        self.folder, self.libraries = folder, libraries
        found = [task.data() for task in lessons.tasks(folder).values()]
        data = json.dumps({"lessons": found, "libraries": list(libraries), "rules": rules()}).encode()
        self.files["/course.json"] = (data, "application/json")

    def job(self, data: Data) -> Data:
        """A job of a worker from what a client asks for; libraries and lessons are named, never paths."""
        kind = data.get("kind")
        if kind not in KINDS:
            raise ValueError("no such job")
        job: Data = {"kind": kind, "text": str(data.get("text", "")), "line": int(data.get("line", 0)),
                     "euclid": data.get("euclid") is True, "lessons": self.folder, "lesson": str(data.get("lesson", ""))}
        task = lessons.task(self.folder, job["lesson"])
        if task is not None:
            job |= {"folder": task.folder(), "until": task.until}
        else:
            job |= {"folder": self.libraries.get(str(data.get("library", "")), ""), "until": str(data.get("until", ""))[:24]}
        return job


def rules() -> list[Data]:
    """The rules that `by` may cite, for completion."""
    return [{"name": each.name, "words": each.words, "variables": list(each.variables),
             "sorts": [sort.value for sort in each.sorts]} for each in tables().diagram.values()]


class Server(ThreadingHTTPServer):
    """The server with its pool of workers."""

    daemon_threads = True
    request_queue_size = 128

    def __init__(self, address: tuple[str, int], site: Site, pool: Pool) -> None:
        if ":" in address[0]:
            self.address_family = socket.AF_INET6
        super().__init__(address, Handler)
        self.site, self.pool = site, pool
        self.open = 0
        self.lock = threading.Lock()

    def process_request(self, request: Any, client_address: Any) -> None:
        """Each connection in a thread of its own, up to a number."""
        with self.lock:
            if self.open >= MOST_CONNECTIONS:
                self.shutdown_request(request)
                return
            self.open += 1
        super().process_request(request, client_address)

    def process_request_thread(self, request: Any, client_address: Any) -> None:
        """One connection."""
        try:
            super().process_request_thread(request, client_address)
        finally:
            with self.lock:
                self.open -= 1

    def handle_error(self, request: Any, client_address: Any) -> None:
        """A client that goes away in the middle is no news."""


class Handler(BaseHTTPRequestHandler):
    """One connection."""

    server: Server
    protocol_version = "HTTP/1.1"
    server_version, sys_version = "euclid", ""
    timeout = SECONDS

    def log_message(self, format: str, *args: Any) -> None:
        """Nothing is written down of who asked what."""

    def put(self, status: HTTPStatus, body: bytes, kind: str) -> None:
        """One answer."""
        self.send_response(status)
        self.head(kind)
        self.send_header("Content-Length", str(len(body)))
        self.end_headers()
        if self.command != "HEAD":
            self.wfile.write(body)

    def head(self, kind: str) -> None:
        """The headers of each answer."""
        for name, value in HEADERS.items():
            self.send_header(name, value)
        self.send_header("Content-Type", kind)

    def refuse(self, status: HTTPStatus, why: str) -> None:
        """An answer that says what is wrong; the connection ends."""
        self.close_connection = True
        self.put(status, json.dumps({"error": why}).encode(), "application/json")

    def send_error(self, code: int, message: str | None = None, explain: str | None = None) -> None:
        """What the library finds wrong with a request, in the same form."""
        self.refuse(HTTPStatus(code), message or HTTPStatus(code).phrase)

    def do_GET(self) -> None:
        """A file."""
        found = self.server.site.files.get(self.path.split("?")[0])
        if found is None:
            self.refuse(HTTPStatus.NOT_FOUND, "there is no such page")
        else:
            self.put(HTTPStatus.OK, *found)

    do_HEAD = do_GET

    def do_POST(self) -> None:
        """A job."""
        if self.path != "/job":
            self.refuse(HTTPStatus.NOT_FOUND, "there is no such page")
            return
        site = self.headers.get("Sec-Fetch-Site", "same-origin")
        if site not in ("same-origin", "none") or "application/json" not in self.headers.get("Content-Type", ""):
            self.refuse(HTTPStatus.FORBIDDEN, "only the page itself may ask")
            return
        length = self.headers.get("Content-Length", "")
        if not length.isdigit() or len(length) > 9:
            self.refuse(HTTPStatus.LENGTH_REQUIRED, "a request says how long it is")
            return
        if int(length) > MOST_BYTES:
            self.refuse(HTTPStatus.REQUEST_ENTITY_TOO_LARGE, f"a request has at most {MOST_BYTES} bytes")
            return
        body = self.rfile.read(int(length))
        if len(body) < int(length):
            self.close_connection = True
            return
        try:
            data = json.loads(body.decode("utf-8"))
            job = self.server.site.job(dict(data))
        except (UnicodeDecodeError, ValueError, TypeError, RecursionError):
            self.refuse(HTTPStatus.BAD_REQUEST, "this is no job")
            return
        self.run(job)

    def run(self, job: Data) -> None:
        """Queues a job, tells its place while it waits, and then its answer: a line of JSON each."""
        try:
            ticket = self.server.pool.put(self.client(), job)
        except Full:
            self.refuse(HTTPStatus.TOO_MANY_REQUESTS, "too many checks wait; try again in a moment")
            return
        self.send_response(HTTPStatus.OK)
        self.head("application/x-ndjson")
        self.send_header("Transfer-Encoding", "chunked")
        self.end_headers()
        try:
            self.put_line(self.server.pool.wait(ticket, self.is_there, lambda place: self.put_line({"place": place})))
            self.wfile.write(b"0\r\n\r\n")
        except Gone:
            self.close_connection = True
        except OSError:
            self.server.pool.drop(ticket)
            self.close_connection = True

    def put_line(self, data: Data) -> None:
        """A line of the answer."""
        line = json.dumps(data, separators=(",", ":")).encode() + b"\n"
        self.wfile.write(b"%x\r\n" % len(line) + line + b"\r\n")
        self.wfile.flush()

    def client(self) -> str:
        """Whose turn it is: the address of a client."""
        return str(self.client_address[0]) if self.client_address[0] not in ("127.0.0.1", "::1") else \
            f"{self.client_address[0]}:{self.client_address[1]}"

    def is_there(self) -> bool:
        """Whether the client still listens."""
        ready, _, _ = select.select([self.connection], [], [], 0)
        if not ready:
            return True
        try:
            return bool(self.connection.recv(1, socket.MSG_PEEK))
        except OSError:
            return False
