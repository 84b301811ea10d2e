"""Asks `PROGRAM suggest` before each step of Book I, one run each, and prints how long the runs took.

Words: the program, and another one if its answers are to be compared place by place. The user seconds of a run count. The sum is the
SHA-256 of all answers, one after another. The exit status is 1 where it is not the one of suggested.txt, where a run fails, and where the
other program answers otherwise.
"""

from __future__ import annotations

import hashlib
import importlib
import os
import resource
import statistics
import subprocess
import sys
import tempfile
from collections.abc import Sequence
from dataclasses import dataclass
from typing import Any

HERE = os.path.dirname(os.path.abspath(__file__))
STORED = f"{HERE}/suggested.txt"
LIMIT = 60  # processor seconds of a run
SLOW = 0.2  # more seconds than an author should wait

book_one: Any = importlib.import_module("book_one")


@dataclass(frozen=True)
class Place:
    """Before this step of this theorem."""

    title: str
    step: int

    def __str__(self) -> str:
        return f"{self.title} {self.step}"


@dataclass(frozen=True)
class Answer:
    """What a run wrote, the user seconds that it took, and its exit status."""

    place: Place
    written: bytes
    seconds: float
    status: int


def places() -> list[Place]:
    """All places of Book I, in order."""
    return [Place(title, step) for title, lines in book_one.theorems() for _, _, step in lines if step]


def at_most_limit() -> None:
    resource.setrlimit(resource.RLIMIT_CPU, (LIMIT, LIMIT + 1))


def user_seconds() -> float:
    """Those of all runs that have ended."""
    return resource.getrusage(resource.RUSAGE_CHILDREN).ru_utime


def ask(program: str, book: str, place: Place) -> Answer:
    before = user_seconds()
    with open(book, "rb") as text:
        ran = subprocess.run([program, "suggest", place.title, str(place.step)], stdin=text, stdout=subprocess.PIPE,
                             preexec_fn=at_most_limit, check=False)
    return Answer(place, ran.stdout, user_seconds() - before, ran.returncode)


def sum_of(answers: Sequence[Answer]) -> str:
    return hashlib.sha256(b"".join(answer.written for answer in answers)).hexdigest()


def table(answers: Sequence[Answer]) -> list[str]:
    """How long the runs took, line by line."""
    seconds = [answer.seconds for answer in answers]
    most = max(answers, key=lambda answer: answer.seconds)
    return [
        "places      %6d" % len(answers),
        "median      %6.3f s" % statistics.median(seconds),
        "most        %6.3f s, at %s" % (most.seconds, most.place),
        "over %.1f s  %6d" % (SLOW, sum(each > SLOW for each in seconds)),
        "in all      %6.1f s" % sum(seconds),
    ]


def ask_all(program: str, other: str | None) -> tuple[list[Answer], int]:
    """The answers at all places, and at how many of them a run failed or the other program answered otherwise: these are printed."""
    answers, bad = [], 0
    with tempfile.TemporaryDirectory() as room:
        book = f"{room}/book"
        with open(book, "wb") as text:
            text.write(book_one.join.joined(book_one.BOOK))
        for place in places():
            answer = ask(program, book, place)
            answers.append(answer)
            if answer.status != 0:
                print(f"{place}: it ends with the status {answer.status}", flush=True)
                bad += 1
            elif other is not None and ask(other, book, place).written != answer.written:
                print(f"{place}: {other} answers otherwise", flush=True)
                bad += 1
    return answers, bad


def main(program: str, other: str | None = None) -> int:
    answers, bad = ask_all(program, other)
    print("\n".join(table(answers)))
    with open(STORED, encoding="ascii") as stored:
        expected = stored.read().strip()
    found = sum_of(answers)
    print(f"sum         {found}" + ("" if found == expected else f"   WRONG: not {expected}"))
    return 1 if bad or found != expected else 0


if __name__ == "__main__":
    sys.exit(main(*sys.argv[1:]))
