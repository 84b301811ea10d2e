"""Lessons: tasks in files of TOML, in a folder; a task is done where `elements` accepts its statement."""

from __future__ import annotations

import tomllib
from dataclasses import dataclass, field
from functools import lru_cache
from pathlib import Path
from typing import Any

from ..checking import Verdict
from ..diagnose import Report
from ..library import Faulty, shown
from ..literals import key
from ..reading import read_book
from ..places import TOP
from ..script import Theorem
from ..statements import Known, Statement
from .pool import Data

LENGTHS = ("rules", "euclid")
TEXTS = ("group", "title", "words", "statement", "start")


@dataclass
class Task:
    """A task: what is to be shown, what to begin with, and what may be applied."""

    name: str
    path: Path
    group: str
    title: str
    words: str
    statement: str
    start: str
    hints: list[str] = field(default_factory=list)
    library: str = ""  # a folder, relative to the top of the repository or to the file
    until: str = ""
    length: str = "rules"
    solution: str = ""

    def folder(self) -> str:
        """The folder of its library, or nothing."""
        if not self.library:
            return ""
        for base in (self.path.parent, TOP):
            if (base / self.library).is_dir():
                return str((base / self.library).resolve())
        raise Faulty(shown(self.path), f"`library` names {self.library}, which is not there")

    def data(self) -> Data:
        """What the page is given of it."""
        return {"name": self.name, "group": self.group, "title": self.title, "words": self.words, "start": self.start,
                "statement": self.statement, "hints": self.hints, "library": self.library, "until": self.until,
                "euclid": self.length == "euclid"}

    def judged(self, report: Report) -> Data:
        """Whether the task is done: its theorem is there with the statement as given, and accepted."""
        wanted = read_book(self.statement, known_of(report)).items[-1]
        theorem = report.book.theorem(wanted.title)
        if theorem is None:
            return {"done": False, "why": f"the theorem `{wanted.title}` is not there"}
        if not is_same_statement(theorem.statement, wanted.statement):
            return {"done": False, "why": f"the statement of `{wanted.title}` is not that of the task"}
        outcome = report.outcome(wanted.title)
        done = outcome is not None and outcome.verdict == Verdict.ACCEPTED and isinstance(theorem, Theorem)
        return {"done": done, "why": "" if done else "the proof is not accepted yet"}


def known_of(report: Report) -> Known:
    """What the statement of a task may speak of: the definitions of the library."""
    return Known({}, dict(report.book.known.definitions))


def is_same_statement(one: Statement, other: Statement) -> bool:
    """Whether two statements have the same objects, and the same literals in the same order."""
    return (one.declared == other.declared and one.made == other.made
            and list(map(key, one.given)) == list(map(key, other.given))
            and list(map(key, one.shown)) == list(map(key, other.shown)))


@lru_cache(maxsize=4)
def tasks(folder: str) -> dict[str, Task]:
    """The tasks of a folder by their names, in order."""
    return {path.stem: read_task(path) for path in sorted(Path(folder).glob("*.toml"))} if folder else {}


def task(folder: str, name: str) -> Task | None:
    """One task."""
    return tasks(folder).get(name) if name else None


def read_task(path: Path) -> Task:
    """A task from its file."""
    try:
        data: dict[str, Any] = tomllib.loads(path.read_bytes().decode("utf-8"))
    except OSError as error:
        raise Faulty(shown(path), error.strerror or "cannot be read") from None
    except (UnicodeDecodeError, tomllib.TOMLDecodeError) as error:
        raise Faulty(shown(path), str(error)) from None
    for name in TEXTS:
        if not isinstance(data.get(name), str):
            raise Faulty(shown(path), f"`{name}` is missing, or is no text")
    hints = data.get("hints", [])
    if not isinstance(hints, list) or not all(isinstance(each, str) for each in hints):
        raise Faulty(shown(path), "`hints` is a list of texts")
    unknown = set(data) - {*TEXTS, "hints", "library", "until", "length", "solution"}
    if unknown:
        raise Faulty(shown(path), f"no entry is named {min(unknown)}")
    found = Task(path.stem, path, hints=hints, library=str(data.get("library", "")), until=str(data.get("until", "")),
                 length=str(data.get("length", "rules")), solution=str(data.get("solution", "")),
                 **{name: data[name] for name in TEXTS})
    if found.length not in LENGTHS:
        raise Faulty(shown(path), "`length` is `rules` or `euclid`")
    found.folder()
    return found
