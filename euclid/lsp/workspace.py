"""What is open and what it belongs to: each document with the library of its folder, read once."""

from __future__ import annotations

from dataclasses import dataclass, field
from pathlib import Path

from ..contexts import Filled, Situation, situation_at
from ..library import CONFIG, Faulty, Library, load
from ..reading import read_book
from ..rereading import Rereader
from ..script import Book, Item, Step, Theorem
from ..statements import Known
from ..syntax import SourceLine
from .documents import Document, path_of, span, uri_of
from .protocol import INVALID_PARAMS, Json, ProtocolError


@dataclass
class Project:
    """A library, or a book alone, with its tree."""

    root: Path
    library: Library
    book: Book
    faulty: Faulty | None = None
    filled: dict[str, Filled] = field(default_factory=dict)  # by title, where a derivation is known

    def known_before(self, item: Item) -> Known:
        """What is known before an item."""
        return self.book.known_before(item)


@dataclass
class Spot:
    """A word under a cursor: its document, project, line in the joined text, and number."""

    document: Document
    project: Project
    number: int
    line: SourceLine
    at: int  # the number of the word; that of words where the cursor is behind them
    column: int  # from 1

    @property
    def word(self) -> str:
        """The word, or nothing."""
        return self.line.words[self.at] if self.at < len(self.line.words) else ""

    def item(self) -> Item | None:
        """The theorem or definition with the cursor."""
        return self.project.book.item_at_line(self.number)

    def step(self) -> Step | None:
        """The step on the line of the cursor."""
        item = self.item()
        if not isinstance(item, Theorem):
            return None
        return next((step for step in item.steps() if step.line.number == self.number), None)

    def situation(self) -> Situation | None:
        """The context before the step on the line."""
        item, step = self.item(), self.step()
        if step is None or not isinstance(item, Theorem):
            return None
        return situation_at(item, self.project.known_before(item), step.number, self.project.filled.get(item.title))


class Workspace:
    """All open documents, and the projects that they belong to, read again when one changes."""

    def __init__(self) -> None:
        self.documents: dict[Path, Document] = {}
        self.projects: dict[Path, Project] = {}
        self.stamps: dict[Path, tuple[object, ...]] = {}
        self.readers: dict[Path, Rereader] = {}

    def open(self, uri: str, version: int, text: str) -> Document:
        """Takes a document that was opened."""
        document = Document(path_of(uri), version, text)
        self.documents[document.path] = document
        return document

    def close(self, uri: str) -> None:
        """Lets a document go."""
        self.documents.pop(path_of(uri), None)

    def document(self, uri: str) -> Document:
        """The document of a URI, which is open, or is read from its file."""
        path = path_of(uri)
        if path in self.documents:
            return self.documents[path]
        try:
            return Document(path, 0, path.read_bytes().decode("latin-1").replace("\r\n", "\n"))
        except OSError as error:
            raise ProtocolError(INVALID_PARAMS, f"{path}: {error.strerror}") from None

    def root(self, path: Path) -> Path:
        """What a file is checked with: the folder of its library, or the file alone."""
        return path.parent if (path.parent / CONFIG).is_file() else path

    def project(self, path: Path) -> Project:
        """The project of a file, as its documents are now."""
        root = self.root(path)
        overlay = {each: document.text for each, document in self.documents.items()}
        try:
            library = load([root], overlay)
            if path.suffix != ".toml" and library.number(path, 1) is None:  # beside the files of book.toml
                root = path
                library = load([path], overlay)
        except Faulty as fault:
            return Project(root, Library(), read_book(""), fault)
        stamp = tuple((file.path, hash(file.text)) for file in library.files)
        if self.stamps.get(root) != stamp or root not in self.projects:
            book = self.readers.setdefault(root, Rereader()).read(library.lines())
            self.projects[root] = Project(root, library, book)
            self.stamps[root] = stamp
        return self.projects[root]

    def spot(self, params: Json) -> Spot:
        """The word at a position."""
        document = self.document(str(params["textDocument"]["uri"]))
        place = params["position"]
        project = self.project(document.path)
        number = project.library.number(document.path, int(place["line"]) + 1)
        lines = project.book.lines
        if number is None or not 1 <= number <= len(lines):
            raise ProtocolError(INVALID_PARAMS, "this file is no part of a book")
        line = lines[number - 1]
        column = document.offset(place) - document.offset({"line": place["line"], "character": 0}) + 1
        ends = zip(line.columns, line.words)
        at = next((n for n, (start, word) in enumerate(ends) if column <= start + len(word)), len(line.words))
        if at < len(line.words) and column < line.columns[at]:
            at = max(at, 0)
        return Spot(document, project, number, line, at, column)


def location(project: Project, line: SourceLine, at: int | None = None) -> dict[str, Json]:
    """The place of a word of a line, or of what the line says, as the protocol has it."""
    place = project.library.place(line.number)
    path = place.path if place.path.is_absolute() else Path.cwd() / place.path
    return {"uri": uri_of(path), "range": word_range(place.line, line, at)}


def word_range(number: int, line: SourceLine, at: int | None = None) -> dict[str, Json]:
    """The range of a word of a line, or of what the line says, in a line with this number."""
    if not line.words:
        return span(line.text, number, 1, 1)
    if at is None:
        return span(line.text, number, line.columns[0], line.columns[-1] + len(line.words[-1]))
    at = min(at, len(line.words) - 1)
    return span(line.text, number, line.columns[at], line.columns[at] + len(line.words[at]))
