"""A server of `euclid serve` for tests, and a plain client of it."""

from __future__ import annotations

import http.client
import json
import subprocess
import sys
from typing import Any

from ..places import TOP


class Serving:
    """A server process on a free port. Use it with `with`."""

    def __init__(self, *words: str) -> None:
        command = [sys.executable, str(TOP / "bin" / "euclid"), "serve", "--port", "0", "--workers", "2", *words]
        self.process = subprocess.Popen(command, stdout=subprocess.PIPE, stderr=subprocess.PIPE)
        assert self.process.stdout is not None
        self.address = self.process.stdout.readline().decode().strip()
        self.port = int(self.address.rstrip("/").rsplit(":", 1)[1])

    def __enter__(self) -> Serving:
        return self

    def __exit__(self, *what: object) -> None:
        self.process.terminate()
        self.process.wait(20)
        for stream in (self.process.stdout, self.process.stderr):
            if stream is not None:
                stream.close()

    def connection(self, seconds: float = 40) -> http.client.HTTPConnection:
        """A connection to it."""
        return http.client.HTTPConnection("127.0.0.1", self.port, timeout=seconds)

    def get(self, path: str, method: str = "GET") -> tuple[int, dict[str, str], bytes]:
        """A request without a body."""
        link = self.connection()
        link.putrequest(method, path, skip_accept_encoding=True)
        link.endheaders()
        answer = link.getresponse()
        found = answer.status, {name.lower(): value for name, value in answer.getheaders()}, answer.read()
        link.close()
        return found

    def post(self, body: bytes, path: str = "/job", **headers: str) -> tuple[int, list[dict[str, Any]]]:
        """A job: the status, and the lines of the answer."""
        link = self.connection()
        link.request("POST", path, body, {"Content-Type": "application/json"} | {k.replace("_", "-"): v for k, v in headers.items()})
        answer = link.getresponse()
        found = [json.loads(line) for line in answer.read().splitlines() if line]
        link.close()
        return answer.status, found

    def job(self, **job: Any) -> dict[str, Any]:
        """The answer to a job."""
        status, lines = self.post(json.dumps(job).encode())
        assert status == 200, lines
        return lines[-1]
