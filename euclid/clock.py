"""A limit of time for a search, counted in seconds of the processor, so that what runs beside does not matter."""

from __future__ import annotations

import time


class OutOfTime(Exception):
    """The time for a search is used up."""


class Clock:
    """Runs for some seconds of the thread that made it; without a number it never ends."""

    def __init__(self, seconds: float | None = None) -> None:
        self.seconds = seconds
        self.end = None if seconds is None else time.thread_time() + seconds

    def check(self) -> None:
        """Raises `OutOfTime` where the time is used up."""
        if self.end is not None and time.thread_time() > self.end:
            raise OutOfTime(f"out of time, after {self.seconds:g} seconds")
