"""What the words of a command line name: books, a theorem, a step of it."""

from __future__ import annotations

from dataclasses import dataclass
from pathlib import Path

from .contexts import Situation, situation_at
from .library import Library, load
from .messages import Message, WrongUse, tell
from .scratch import Scratch, Untried
from .script import Book, Theorem
from .syntax import SourceLine
from .words import add_json, add_paths, add_step, close_to

__all__ = ["Opened", "add_json", "add_paths", "add_step", "close_to", "opened"]


@dataclass
class Opened:
    """A library with its tree."""

    library: Library
    book: Book

    def theorem(self, title: str) -> Theorem:
        """The theorem of a title."""
        found = self.book.theorem(title)
        if found is None:
            raise WrongUse(f"no theorem has the title `{title}`{close_to(title, (each.title for each in self.book.items))}")
        return found

    def faults(self) -> list[Message]:
        """What does not read, in the files that were asked for and those that they need."""
        found: list[tuple[int, Message]] = []
        for item in self.book.items:
            if item.fault is not None:
                line = item.fault_line or item.lines[-1]
                found.append((line.number, self.message(line, item.fault.at, f"{item.fault.kind}: {item.fault.message}")))
        for line, fault in self.book.stray:
            found.append((line.number, self.message(line, fault.at, f"{fault.kind}: {fault.message}")))
        return [message for _, message in sorted(found, key=lambda pair: pair[0])]

    def message(self, line: SourceLine, at: int, text: str, kind: str = "error") -> Message:
        """A message about a word of a line of the joined text."""
        return Message(self.library.place(line.number, line.column(at)), kind, text)

    def has_faults(self) -> bool:
        """Tells the faults, if there are any."""
        faults = self.faults()
        for message in faults:
            tell(message)
        return bool(faults)

    def situation(self, title: str, number: int) -> Situation:
        """The context and the goal before a step of a theorem."""
        theorem = self.theorem(title)
        try:
            filled = Scratch(self.book, theorem, number).filled()
        except Untried:
            filled = {}
        found = situation_at(theorem, self.book.known_before(theorem), number, filled)
        if found is None:
            count = len(theorem.steps())
            read = ", as far as it reads" if theorem.fault else ""
            raise WrongUse(f"`{title}` has {count} step{'s' * (count != 1)}{read}, and no step {number}")
        return found


def opened(paths: list[Path]) -> Opened:
    """The books and libraries of a command line; none means the library in the working folder."""
    library = load(paths or [Path(".")])
    return Opened(library, library.book())
