"""Fills the books of a command line, and asks `elements` of the outcome."""

from __future__ import annotations

from collections.abc import Collection
from dataclasses import dataclass, field
from pathlib import Path

from ..answers import check
from ..checking import Checker, Outcomes, Verdict
from ..library import Library, Place, SourceFile, load, read_text, shown
from ..messages import Message
from ..script import Book, Item, Theorem
from ..statements import Known
from .engine import fill_theorem
from .pieces import Pieced, pieced, whole
from .sketches import SUFFIX, sketch_of
from .theorems import Catalogue
from .walk import FilledTheorem, Missing


TRIED = "tried: `by` lines, one transfer rule, arithmetic, two cases, a chain of plain sums"


@dataclass
class FilledBooks:
    """Books with what was put in, and what `elements` says of them then."""

    paths: list[Path]
    only: Collection[str]  # titles; none means all
    pieces: dict[Path, Pieced]  # where a sketch stands for its book, or for theorems of it, by the book's path
    library: Library  # as the author has it, with sketches in the place of their books
    book: Book
    most_applied: int = 0
    filled: dict[str, FilledTheorem] = field(default_factory=dict)  # by title; without those that were whole
    outcomes: Outcomes = field(default_factory=lambda: Outcomes([]))
    refused: dict[str, str] = field(default_factory=dict)  # filled, and refused all the same: what is wanted
    texts: dict[Path, str] = field(default_factory=dict)  # of the files that were asked for
    taken: dict[tuple[str, int], str] = field(default_factory=dict)  # what `elements` took for blanks: title, line

    def asked_files(self) -> list[SourceFile]:
        """The files that may change."""
        return self.library.asked_files(self.book, self.only)

    def put_in(self) -> int:
        """How many lines were put in, of those that stay."""
        return sum(each.put_in() for title, each in self.filled.items() if self.stays(title))

    def stays(self, title: str) -> bool:
        """Whether what was put into a theorem stays."""
        return self.filled[title].is_whole() and title not in self.refused

    def unfinished(self) -> set[Path]:
        """The books whose sketches could not be filled whole: they are better than what would be written."""
        starts = [(file.start, file.path) for file in self.library.files]
        lacking = [each.theorem.first for title, each in self.filled.items() if not self.stays(title)]
        homes = {max(start for start in starts if start[0] <= first)[1] for first in lacking}
        return homes & set(self.pieces)

    def messages(self) -> list[Message]:
        """What does not read, what was not found, and what is refused all the same."""
        found = self.faults()
        for title, each in self.filled.items():
            for missing in each.missing:
                text = f"{title}, step {missing.step} lacks {wanted(missing.wanted)}"
                found.append(self.message(missing.line, text, self.details(missing) if missing is each.missing[0] else []))
            if each.stopped and each.theorem.fault is None:
                found.append(self.message(each.stopped_at, f"{title} is not filled: {each.stopped}"))
            if title in self.refused:
                text = f"{title} was filled, and `elements` refuses it: {self.refused[title]}"
                found.append(self.message(each.theorem.first, text))
            elif each.is_whole():
                found += self.about_blanks(title, each)
                found += self.about_rests(title, each)
                found += [self.message(place_of(each, text), f"put before this step of {title}: {text}", kind="note")
                          for text in each.applied]
        return found

    def about_blanks(self, title: str, each: FilledTheorem) -> list[Message]:
        """Where the blanks of a step may mean other objects than those for which lines were put in."""
        found = []
        for step in each.theorem.steps():
            if step.number not in each.filled:
                continue
            mine = " ".join(each.filled[step.number])
            taken = self.taken.get((title, step.line.number), mine)
            if taken != mine:
                text = f"`elements` fills the blanks of step {step.number} with `{taken}`; lines were put in for `{mine}`"
                found.append(self.message(step.line.number, text, kind="warning"))
            elif step.number in each.others:
                other = " ".join(each.others[step.number])
                text = f"the blanks of step {step.number} may be `{mine}` or `{other}`: lines were put in for the first"
                found.append(self.message(step.line.number, text, kind="warning"))
        return found

    def about_rests(self, title: str, each: FilledTheorem) -> list[Message]:
        """On what a filled theorem rests that is not accepted."""
        for item, outcome in zip(self.book.items, self.outcomes.items):
            if item is each.theorem and outcome.verdict == Verdict.RESTS:
                return [self.message(each.theorem.first, f"{title} rests on {outcome.on}, which is not accepted", kind="note")]
        return []

    def faults(self) -> list[Message]:
        """What does not read, in the files that were asked for."""
        found = [(line.number, line.column(fault.at), fault) for line, fault in self.book.stray]
        for item in self.book.items:
            if item.fault is not None:
                line = item.fault_line or item.lines[-1]
                found.append((line.number, line.column(item.fault.at), item.fault))
        return [self.message(number, f"{fault.kind}: {fault.message}", column=column)
                for number, column, fault in sorted(found, key=lambda each: each[:2]) if self.library.is_own(number)]

    def details(self, missing: Missing) -> list[str]:
        """What was tried for what is missing, and what comes nearest."""
        theorem = ", one use of an earlier theorem" if self.most_applied else ""
        return [TRIED + theorem, *missing.why]

    def message(self, number: int, text: str, details: Collection[str] = (), kind: str = "error",
                column: int = 1) -> Message:
        """A message about a line of the joined text."""
        return Message(self.place(number, column), kind, text, details=list(details))

    def place(self, number: int, column: int = 1) -> Place:
        """The place of a line of the joined text: in the sketch, where it is of one."""
        place = self.library.place(number, column)
        piece = self.pieces.get((Path.cwd() / place.path).resolve())
        if piece is None or place.line > len(piece.origins):
            return place
        path, line = piece.origins[place.line - 1]
        return Place(shown(path), line, column)


def place_of(filled: FilledTheorem, text: str) -> int:
    """The number of the author's line before which a line was put."""
    return next((number for number, lines in filled.under().items() if text in map(str.strip, lines)), filled.theorem.first)


def wanted(words: str) -> str:
    """What is missing, in words."""
    if words == "match":
        return "objects for its blanks"
    return "a contradiction between facts" if words == "contradiction" else f"`{words}`"


def open_books(paths: list[Path], only: Collection[str] = (), most_applied: int = 0) -> FilledBooks:
    """The books and libraries of a command line, still to be filled; a sketch stands for the book beside
    it, and where titles are given, for these theorems alone."""
    books, pieces = sketched(paths, only)
    library = load(books, texts_in(pieces))
    return FilledBooks(books, only, pieces, library, library.book(), most_applied)


def fill_books(result: FilledBooks, seconds: float | None = None) -> None:
    """Fills the books."""
    result.filled = fill_items(result.library, result.book, result.only, seconds, result.most_applied)
    while True:
        result.texts = texts_of(result)
        after = load(result.paths, texts_in(result.pieces) | result.texts).book()
        result.outcomes = Checker().check(after)
        refused = newly_refused(result, after)
        if not refused:
            result.taken = taken_for_blanks(result, after)
            return
        result.refused |= refused


def sketched(paths: list[Path], only: Collection[str] = ()) -> tuple[list[Path], dict[Path, Pieced]]:
    """The books of a command line, and the texts that stand for some of them: their sketches, or where
    titles are given, the books with what their sketches have for these."""
    books = [path.with_suffix(".book") if path.suffix == SUFFIX else path for path in paths]
    pieces = {}
    for path in books:
        there = [each.with_suffix(".book") for each in sorted(path.rglob("*" + SUFFIX))] if path.is_dir() else [path]
        for book in there:
            sketch = sketch_of(book)
            if sketch is not None:
                pieces[book.resolve()] = piece_of(book.resolve(), sketch.resolve(), only)
    return books, pieces


def piece_of(book: Path, sketch: Path, only: Collection[str]) -> Pieced:
    """What stands for a book that has a sketch."""
    said = SourceFile(sketch, read_text(sketch))
    if not only or not book.is_file():
        return whole(said)
    return pieced(SourceFile(book, read_text(book)), said, only)


def texts_in(pieces: dict[Path, Pieced]) -> dict[Path, str]:
    """The texts that stand for books."""
    return {path: piece.text for path, piece in pieces.items()}


def fill_items(library: Library, book: Book, only: Collection[str], seconds: float | None,
               most_applied: int) -> dict[str, FilledTheorem]:
    """The theorems that were asked for and may lack lines, filled."""
    done = accepted_at_once(library, book)
    known, catalogue = Known(), Catalogue()
    filled: dict[str, FilledTheorem] = {}
    for item in book.items:
        is_open = library.is_own(item.first) and item.title not in done and (not only or item.title in only)
        if isinstance(item, Theorem) and is_open and item.title not in filled:
            filled[item.title] = fill_theorem(item, known, seconds=seconds, most_applied=most_applied,
                                              catalogue=catalogue)
        if item.fault is None:
            kind = known.theorems if isinstance(item, Theorem) else known.definitions
            kind[item.title] = item.statement
    return filled


def accepted_at_once(library: Library, book: Book) -> set[str]:
    """The titles of theorems that one run of `elements` accepts as they are."""
    answer = check(library.text())
    if answer.is_accepted():
        return {item.title for item in book.items}
    if answer.kind == "fault":
        return {item.title for item in book.items if item.last < answer.line and item.fault is None}
    titles = [item.title for item in book.items]
    return set(titles[: titles.index(answer.title)]) if answer.title in titles else set()


def newly_refused(result: FilledBooks, after: Book) -> dict[str, str]:
    """The filled theorems that `elements` refuses all the same, with what it wants."""
    found = {}
    for item, outcome in zip(after.items, result.outcomes.items):
        is_bad = outcome.verdict in (Verdict.REFUSED, Verdict.FAULTY) and outcome.answer is not None
        if is_bad and item.title in result.filled and result.stays(item.title):
            answer = outcome.answer
            assert answer is not None
            found[item.title] = answer.fault or f"step {answer.step} wants {answer.wanted}"
    return found


def taken_for_blanks(result: FilledBooks, after: Book) -> dict[tuple[str, int], str]:
    """The arguments with which `elements` took the steps of filled theorems that have blanks, by the
    author's lines."""
    found = {}
    for item, outcome in zip(after.items, result.outcomes.items):
        each = result.filled.get(item.title)
        if each is None or not each.filled or outcome.part is None or not isinstance(item, Theorem):
            continue
        own = {line.number: put.own for line, put in zip(item.lines, each.lines)}
        arguments = outcome.part.filled()
        for step in item.steps():
            if step.number in arguments:
                found[item.title, own.get(step.line.number, 0)] = " ".join(arguments[step.number])
    return found


def texts_of(result: FilledBooks) -> dict[Path, str]:
    """The files that were asked for, with what stays put in."""
    items: dict[int, Item] = {}
    for item in result.book.items:
        if item.title in result.filled and result.filled[item.title].theorem is item and result.stays(item.title):
            items[item.lines[0].number] = item
    return {file.path: text_of(file, items, result.filled) for file in result.asked_files()}


def sketches_of(result: FilledBooks) -> dict[Path, str]:
    """The sketches into which a use of a theorem was put, so that they agree with their books."""
    put: dict[int, list[str]] = {}
    for title, each in result.filled.items():
        if result.stays(title):
            for number, lines in each.under().items():
                put[number] = [line for line in lines if line.strip() in each.applied]
    texts = {}
    for file in result.asked_files():
        piece, sketch = result.pieces.get(file.path), sketch_of(file.path)
        if piece is None or sketch is None:
            continue
        under = {line: put[file.start + at] for at, (path, line) in enumerate(piece.origins)
                 if path == sketch.resolve() and put.get(file.start + at)}
        if under:
            raw = read_text(sketch).split("\n")
            end = "\r" if raw[0].endswith("\r") else ""
            texts[sketch] = "\n".join(part for number, line in enumerate(raw, 1)
                                      for part in [*(each + end for each in under.get(number, [])), line])
    return texts


def text_of(file: SourceFile, items: dict[int, Item], filled: dict[str, FilledTheorem]) -> str:
    """A file with lines put in; the lines of the author keep their bytes."""
    raw = file.text.split("\n")
    end = "\r" if raw[0].endswith("\r") else ""
    found: list[str] = []
    at = 0
    while at < len(raw):
        item = items.get(file.start + at) if at < file.count else None  # behind the last line the next file begins
        if item is None:
            found.append(raw[at])
            at += 1
            continue
        found += [raw[line.own - file.start] if line.own else line.text + end for line in filled[item.title].lines]
        at += len(item.lines)
    return "\n".join(found)
