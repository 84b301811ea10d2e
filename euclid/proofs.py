"""Theorems with the reasons of their steps: of a library, or of a derivation text from elsewhere."""

from __future__ import annotations

from collections.abc import Iterator
from dataclasses import dataclass
from pathlib import Path

from .answers import Answer, check
from .derivation import Derivation, read_derivation
from .diagnose import without_others
from .library import Faulty, Library, load, shown
from .messages import WrongUse
from .program import run
from .reasons import StepReason, reasons_of
from .script import Book, Theorem
from .words import close_to


@dataclass
class Explained:
    """A theorem with the reasons of its steps, and the text in which it stands."""

    library: Library
    theorem: Theorem
    reasons: list[StepReason]


class Refused(Exception):
    """The theorem, or one that it rests on, is not accepted: there is nothing to explain."""

    def __init__(self, message: str, is_faulty: bool = False) -> None:
        super().__init__(message)
        self.is_faulty = is_faulty


def explained(title: str, paths: list[Path]) -> Explained:
    """The reasons of one theorem."""
    library = load(paths or [Path(".")])
    if is_derivation(library):
        book, derivation = verified(library)
    else:
        book, derivation = checked(library, title)
    theorem = book.theorem(title)
    if theorem is None or title not in derivation.parts:
        raise WrongUse(f"no theorem has the title `{title}`{close_to(title, (each.title for each in book.items))}")
    reasons = reasons_of(theorem, derivation.parts[title], book.known_before(theorem), derivation.version)
    return Explained(library, theorem, reasons)


def all_explained(library: Library) -> Iterator[Explained]:
    """Each theorem of an accepted library with its reasons."""
    book = library.book()
    derivation = of_answer(check(library.text()), book)
    for theorem in book.theorems():
        reasons = reasons_of(theorem, derivation.parts[theorem.title], book.known_before(theorem))
        yield Explained(library, theorem, reasons)


def is_derivation(library: Library) -> bool:
    """Whether the one file that was named is a derivation text."""
    return len(library.files) == 1 and library.files[0].text.startswith("derivation ")


def verified(library: Library) -> tuple[Book, Derivation]:
    """The theorems of a derivation text, where `elements verify` has verified it."""
    file = library.files[0]
    answer = run(["verify"], file.text).output.strip()
    words = answer.split()
    if words[:1] != ["verified"]:
        line = int(words[1]) if words[:1] == ["garbled"] else 1
        raise Faulty(shown(file.path), f"`elements verify` says of this text: {answer}", line)
    derivation = read_derivation(file.text)
    return derivation.book(), derivation


def checked(library: Library, title: str) -> tuple[Book, Derivation]:
    """The book of a library, and the derivations of one theorem and those that it rests on."""
    book = library.book()
    if book.theorem(title) is None:
        raise WrongUse(f"no theorem has the title `{title}`{close_to(title, (each.title for each in book.items))}")
    part = without_others(book, title)
    answer = check("".join(line.text + "\n" for line in part.lines))
    return book, of_answer(answer, book)


def of_answer(answer: Answer, book: Book) -> Derivation:
    """The derivations of an accepted text, verified."""
    if not answer.is_accepted():
        where = f"step {answer.step} of {answer.title}" if answer.title else f"line {answer.line} of the text"
        raise Refused(f"not accepted, for {where}: `euclid check` says why", answer.kind == "fault")
    said = run(["verify"], answer.derivation).output.strip()
    if said != f"verified {answer.count}":
        raise Refused(f"`elements verify` says of the derivation: {said}")
    return read_derivation(answer.derivation)
