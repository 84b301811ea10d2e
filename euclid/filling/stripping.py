"""Strips the books of a command line, and asks `elements` whether what is left is filled again."""

from __future__ import annotations

from collections.abc import Collection
from dataclasses import dataclass
from pathlib import Path

from ..checking import Checker, Verdict
from ..library import Library, SourceFile, read_text
from ..reading import read_lines
from ..script import Book, Theorem
from ..statements import Known
from ..syntax import SourceLine, lines_of
from .engine import fill_theorem
from .pieces import pieced
from .sketches import sketch_of
from .strip import strip_theorem
from .theorems import Catalogue


@dataclass
class StrippedBooks:
    """Books with the lines that stay, and the numbers of lines before and after."""

    library: Library
    texts: dict[Path, str]  # of the files that were asked for
    steps: int
    kept: int
    left: list[Theorem]  # those that are not accepted, or not filled again as they should: as they are


def strip_books(library: Library, book: Book, only: Collection[str] = ()) -> StrippedBooks:
    """The books and libraries of a command line without the lines that `fill` puts back."""
    accepted = accepted_items(book)
    kept = stripped_items(library, book, accepted, only)
    own = [item for item in library.own_theorems(book) if not only or item.title in only]
    left = [item for item in own if item.title not in accepted] + unfilled(book, kept)
    for item in left:
        kept.pop(item.title, None)
    steps = sum(len(item.steps()) for item in own)
    gone = sum(len(item.lines) - len(kept[item.title]) for item in own if item.title in kept)
    otherwise = sum(line.words == ("else",) for item in own if item.title in kept for line in item.lines)
    otherwise -= sum(line.words == ("else",) for lines in kept.values() for line in lines)
    return StrippedBooks(library, texts_of(library, book, kept, only), steps, steps - gone + otherwise, left)


def accepted_items(book: Book) -> set[str]:
    """The titles that `elements` accepts."""
    outcomes = Checker().check(book)
    return {item.title for item, each in zip(book.items, outcomes.items) if each.verdict == Verdict.ACCEPTED}


def stripped_items(library: Library, book: Book, accepted: set[str], only: Collection[str]) -> dict[str, list[SourceLine]]:
    """The lines that stay, of the theorems that were asked for."""
    known, catalogue = Known(), Catalogue()
    kept = {}
    for item in book.items:
        is_asked = library.is_own(item.first) and item.title in accepted and (not only or item.title in only)
        if isinstance(item, Theorem) and is_asked:
            kept[item.title] = strip_theorem(item, known, catalogue)
        if item.fault is None:
            kind = known.theorems if isinstance(item, Theorem) else known.definitions
            kind[item.title] = item.statement
    return kept


def unfilled(book: Book, kept: dict[str, list[SourceLine]]) -> list[Theorem]:
    """The theorems that `elements` does not accept when they are filled again."""
    texts, known, catalogue = [], Known(), Catalogue()
    for item in book.items:
        lines = "".join(line.text + "\n" for line in item.lines)
        if isinstance(item, Theorem) and item.title in kept:
            again = read_lines(kept[item.title], known).items[0]
            assert isinstance(again, Theorem)
            lines = fill_theorem(again, known, seconds=None, catalogue=catalogue).text()
        texts.append(lines)
        if item.fault is None:
            kind = known.theorems if isinstance(item, Theorem) else known.definitions
            kind[item.title] = item.statement
    accepted = accepted_items(read_lines(lines_of("".join(texts))))
    return [item for item in book.theorems() if item.title in kept and item.title not in accepted]


def texts_of(library: Library, book: Book, kept: dict[str, list[SourceLine]], only: Collection[str]) -> dict[Path, str]:
    """The files that were asked for, without the lines that are gone. Where titles are given, a sketch
    that is there keeps what it has for other theorems."""
    gone: set[int] = set()
    for item in book.theorems():
        if item.title in kept:
            gone |= {line.number for line in item.lines} - {line.number for line in kept[item.title]}
    texts = {}
    for file in library.asked_files(book, only):
        raw = file.text.split("\n")
        texts[file.path] = "\n".join(line for at, line in enumerate(raw) if file.start + at not in gone or at >= file.count)
        sketch = sketch_of(file.path) if only else None
        if sketch is not None:
            there, stripped = SourceFile(sketch, read_text(sketch)), SourceFile(file.path, texts[file.path])
            texts[file.path] = pieced(there, stripped, kept).text
    return texts
