"""Workers, one for each processor, and a fair queue before them.

A worker is a process that does one job after the other. One that takes too long, or whose client is
gone, is ended, and another comes in its place.
"""

from __future__ import annotations

import json
import subprocess
import sys
import threading
import time
from collections import OrderedDict, deque
from collections.abc import Callable
from dataclasses import dataclass, field
from pathlib import Path
from typing import Any, BinaryIO

Data = dict[str, Any]
SECONDS = 20.0  # of the clock for one job; its processor time is limited by the worker itself
MOST_WAITING = 400  # jobs, of all clients together
MOST_OF_ONE = 8  # jobs of one client that wait
TICK = 0.2  # seconds between two looks at a client


class Full(Exception):
    """Too many jobs wait."""


class Gone(Exception):
    """The client is gone."""


class Worker:
    """One process."""

    def __init__(self, command: list[str]) -> None:
        self.command = command
        self.process: subprocess.Popen[bytes] | None = None

    def start(self) -> subprocess.Popen[bytes]:
        """The process, which is begun where there is none."""
        if self.process is None or self.process.poll() is not None:
            self.end()
            self.process = subprocess.Popen(self.command, stdin=subprocess.PIPE, stdout=subprocess.PIPE,
                                            stderr=subprocess.DEVNULL, start_new_session=True)
        return self.process

    def run(self, job: Data) -> Data:
        """The answer to a job; says so where the process ended in the middle of it."""
        process = self.start()
        assert process.stdin is not None and process.stdout is not None
        try:
            write(process.stdin, job)
            answer = read(process.stdout)
        except (BrokenPipeError, ValueError, OSError):
            answer = None
        if answer is None:
            self.end()
            return {"error": "this took more time or memory than a check may take here"}
        return answer

    def end(self) -> None:
        """Ends the process and what it has begun."""
        process, self.process = self.process, None
        if process is None:
            return
        if process.poll() is None:
            try:
                process.kill()
            except OSError:
                pass
            process.wait()
        for stream in (process.stdin, process.stdout):
            if stream is not None:
                try:
                    stream.close()
                except OSError:
                    pass


def write(stream: BinaryIO | Any, data: Data) -> None:
    """One message: its length on a line, then its bytes."""
    body = json.dumps(data, ensure_ascii=True, separators=(",", ":")).encode("ascii")
    stream.write(b"%d\n" % len(body) + body)
    stream.flush()


def read(stream: BinaryIO | Any) -> Data | None:
    """One message, or none where the other side is gone."""
    line = stream.readline(20)
    if not line.strip().isdigit():
        return None
    body = stream.read(int(line))
    return dict(json.loads(body)) if len(body) == int(line) else None


@dataclass
class Ticket:
    """A job that waits or is at work."""

    client: str
    job: Data
    worker: Worker | None = None
    answer: Data | None = None
    is_gone: bool = False
    began: float = 0.0
    done: threading.Event = field(default_factory=threading.Event)


class Pool:
    """Jobs of all clients, taken in turn: each client's next one, and then the next client's."""

    def __init__(self, count: int, seconds: float = SECONDS, warm: Data | None = None) -> None:
        self.seconds, self.warm = seconds, warm
        self.waiting: OrderedDict[str, deque[Ticket]] = OrderedDict()
        self.condition = threading.Condition()
        self.is_ended = False
        self.workers = [Worker([sys.executable, str(Path(__file__).resolve().parent / "worker.py")]) for _ in range(count)]
        for worker in self.workers:
            threading.Thread(target=self.work, args=(worker,), daemon=True).start()

    def count(self) -> int:
        """How many jobs wait."""
        return sum(len(tickets) for tickets in self.waiting.values())

    def put(self, client: str, job: Data) -> Ticket:
        """A job into the queue."""
        ticket = Ticket(client, job)
        with self.condition:
            own = self.waiting.get(client)
            if self.count() >= MOST_WAITING or own is not None and len(own) >= MOST_OF_ONE:
                raise Full
            self.waiting.setdefault(client, deque()).append(ticket)
            self.condition.notify()
        return ticket

    def place(self, ticket: Ticket) -> int:
        """How many jobs come before this one, itself counted; 0 where it is at work."""
        with self.condition:
            own = self.waiting.get(ticket.client)
            if own is None or ticket not in own:
                return 0
            turn = list(own).index(ticket)
            clients = list(self.waiting)
            before = sum(min(len(tickets), turn + (clients.index(client) < clients.index(ticket.client)))
                         for client, tickets in self.waiting.items() if client != ticket.client)
            return before + turn + 1

    def take(self) -> Ticket | None:
        """The next job, or none at the end."""
        with self.condition:
            while not self.waiting and not self.is_ended:
                self.condition.wait()
            if self.is_ended:
                return None
            client, tickets = next(iter(self.waiting.items()))
            ticket = tickets.popleft()
            del self.waiting[client]
            if tickets:
                self.waiting[client] = tickets  # the last in turn now
            return ticket

    def work(self, worker: Worker) -> None:
        """One job after the other; the first is done to have all that is needed at hand."""
        if self.warm is not None:
            worker.run(self.warm)
        while (ticket := self.take()) is not None:
            if ticket.is_gone:
                continue
            ticket.worker, ticket.began = worker, time.monotonic()
            ticket.answer = worker.run(ticket.job)
            ticket.worker = None
            ticket.done.set()

    def wait(self, ticket: Ticket, is_there: Callable[[], bool], tell: Callable[[int], None]) -> Data:
        """The answer to a job. The client is told its place in the queue when that changes."""
        last = 0
        while not ticket.done.wait(TICK):
            if not is_there():
                self.drop(ticket)
                raise Gone
            place = self.place(ticket)
            if place != last and place > 0:
                tell(place)
            last = place
            worker = ticket.worker
            if worker is not None and time.monotonic() - ticket.began > self.seconds:
                worker.end()
        assert ticket.answer is not None
        return ticket.answer

    def drop(self, ticket: Ticket) -> None:
        """A job that nobody waits for any more."""
        with self.condition:
            ticket.is_gone = True
            own = self.waiting.get(ticket.client)
            if own is not None and ticket in own:
                own.remove(ticket)
                if not own:
                    del self.waiting[ticket.client]
        worker = ticket.worker
        if worker is not None:
            worker.end()

    def end(self) -> None:
        """Ends all."""
        with self.condition:
            self.is_ended = True
            self.condition.notify_all()
        for worker in self.workers:
            worker.end()
