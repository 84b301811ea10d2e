"""Books in files, and libraries of them: one text for `elements`, and places both ways."""

from __future__ import annotations

import bisect
import sys
import tomllib
from collections.abc import Collection, Mapping
from dataclasses import dataclass, field
from functools import cached_property, lru_cache
from pathlib import Path
from typing import TYPE_CHECKING

from .syntax import SourceLine, lines_in, lines_of

if TYPE_CHECKING:
    from .script import Book, Item, Theorem

MOST_BYTES = 4_194_304  # of the joined text, as `elements` has it
CONFIG = "book.toml"
STREAM = Path("-")  # standard input


class Faulty(Exception):
    """Files that cannot be taken as a library: where, and why."""

    def __init__(self, path: Path | str, message: str, line: int = 1) -> None:
        super().__init__(f"{path}:{line}: {message}")
        self.path, self.message, self.line = Path(path), message, line


@dataclass
class SourceFile:
    """A file of books with its lines, and the number of its first line in the joined text."""

    path: Path
    text: str
    start: int = 1

    @cached_property
    def lines(self) -> list[SourceLine]:
        """Its lines, with their numbers in it."""
        return lines_of(self.text)

    @property
    def count(self) -> int:
        """How many lines it has."""
        return self.text.count("\n") + (self.text != "" and not self.text.endswith("\n"))

    def joined(self) -> str:
        """Its text, the last line ended too."""
        return self.text if self.text.endswith("\n") or not self.text else self.text + "\n"


@dataclass(frozen=True)
class Place:
    """A place in a file, for people."""

    path: Path
    line: int
    column: int = 1

    def __str__(self) -> str:
        return f"{self.path}:{self.line}:{self.column}"


@dataclass
class Library:
    """Files in order, as one text. A line of it has the number that `elements` counts."""

    files: list[SourceFile] = field(default_factory=list)
    own: set[Path] = field(default_factory=set)  # the files that were asked for, without what they need
    titles: list[tuple[Path, str]] = field(default_factory=list)  # the folders with their titles

    def text(self) -> str:
        """The joined text."""
        return "".join(file.joined() for file in self.files)

    def lines(self) -> list[SourceLine]:
        """The lines of the joined text, with their numbers in it."""
        return [line for file in self.files for line in numbered(file.text, file.start)]

    def book(self) -> Book:
        """The tree of the joined text."""
        from .reading import read_lines  # only where a tree is asked for: `check` mostly needs none

        return read_lines(self.lines())

    def place(self, number: int, column: int = 1) -> Place:
        """The place in a file of a line of the joined text; the last line's where there is none."""
        starts = [file.start for file in self.files]
        if not starts:
            return Place(STREAM, number, column)
        file = self.files[max(bisect.bisect_right(starts, number) - 1, 0)]
        return Place(shown(file.path), min(number - file.start + 1, max(len(file.lines), 1)), column)

    def number(self, path: Path, line: int) -> int | None:
        """The number in the joined text of a line of a file."""
        for file in self.files:
            if file.path.resolve() == path.resolve():
                return file.start + line - 1
        return None

    def is_own(self, number: int) -> bool:
        """Whether a line of the joined text is of a file that was asked for."""
        return self.file_with(number).path in self.own

    def file_with(self, number: int) -> SourceFile:
        """The file of a line of the joined text."""
        starts = [file.start for file in self.files]
        return self.files[max(bisect.bisect_right(starts, number) - 1, 0)]

    def asked_files(self, book: Book, only: Collection[str] = ()) -> list[SourceFile]:
        """The files that were asked for; where titles are, those that have them."""
        having = {self.file_with(item.first).path for item in book.items if item.title in only}
        return [file for file in self.files if file.path in self.own and (not only or file.path in having)]

    def own_theorems(self, book: Book) -> list[Theorem]:
        """The theorems of the files that were asked for."""
        return [each for each in book.theorems() if self.is_own(each.first)]

    def own_items(self, book: Book) -> list[Item]:
        """The theorems and definitions of the files that were asked for."""
        return [each for each in book.items if self.is_own(each.first)]


@lru_cache(maxsize=1024)
def numbered(text: str, start: int) -> tuple[SourceLine, ...]:
    """The lines of a text, with their numbers in a text where they begin with a line."""
    return tuple(SourceLine(start + at, line.text, line.words, line.columns)
                 for at, line in enumerate(lines_in(text)))


def shown(path: Path) -> Path:
    """A path as people type it: relative to the working folder where it is below."""
    try:
        return path.relative_to(Path.cwd())
    except ValueError:
        return path


def load(paths: list[Path], overlay: Mapping[Path, str] | None = None) -> Library:
    """The files and libraries of a command line, as one library.

    An overlay has texts that stand for those of files, as an editor has them; it is by full paths.
    """
    loader = Loader(overlay or {})
    for path in paths:
        if path.is_dir():
            loader.folder(path.resolve(), [], True)
        else:
            loader.beside(path)
    return loader.library


class Loader:
    """Takes each file once, before its first user."""

    def __init__(self, overlay: Mapping[Path, str]) -> None:
        self.overlay = overlay
        self.library = Library()
        self.taken: set[Path] = set()
        self.next = 1
        self.bytes = 0

    def beside(self, path: Path) -> None:
        """A file; where it is one of a library's, what comes before it there is taken first."""
        folder = path.resolve().parent
        if path != STREAM and (folder / CONFIG).is_file():
            needs, files = self.config(folder)
            if path.resolve() in files:
                for need in needs:
                    self.folder(need, [folder], False)
                for file in files[: files.index(path.resolve())]:
                    self.file(file, False)
        self.file(path, True)

    def folder(self, folder: Path, above: list[Path], is_own: bool) -> None:
        """A library, after what it needs."""
        if folder in above:
            circle = " needs ".join(shown(each).as_posix() for each in [*above[above.index(folder) :], folder])
            raise Faulty(shown(folder / CONFIG), f"libraries that need each other: {circle}")
        needs, files = self.config(folder)
        for need in needs:
            self.folder(need, [*above, folder], False)
        for file in files:
            self.file(file, is_own)
        if not files and is_own:  # a library of libraries: what it needs was asked for
            self.library.own |= {file.path for file in self.library.files}

    def config(self, folder: Path) -> tuple[list[Path], list[Path]]:
        """What `book.toml` of a folder says: the folders that come before, and the files."""
        page = folder / CONFIG
        try:
            text = page.read_bytes().decode("utf-8")
            data = tomllib.loads(text)
        except FileNotFoundError:
            raise Faulty(shown(folder), f"a folder is a library where it has a {CONFIG}") from None
        except OSError as error:
            raise Faulty(shown(page), error.strerror or "cannot be read") from None
        except UnicodeDecodeError:
            raise Faulty(shown(page), "is not UTF-8 text") from None
        except tomllib.TOMLDecodeError as error:
            line = int(str(error).rsplit("line ", 1)[1].split(",")[0]) if "line " in str(error) else 1
            raise Faulty(shown(page), str(error), line) from None
        return self.entries(page, text, data)

    def entries(self, page: Path, text: str, data: dict[str, object]) -> tuple[list[Path], list[Path]]:
        """The folders and files that a `book.toml` names."""
        folder = page.parent
        found: dict[str, list[Path]] = {}
        for name in ("needs", "files"):
            entries = data.get(name, [])
            if not isinstance(entries, list) or not all(isinstance(each, str) for each in entries):
                raise Faulty(shown(page), f"`{name}` is a list of texts", line_with(text, name))
            found[name] = [(folder / each).resolve() for each in entries]
            for path, entry in zip(found[name], entries):
                there = path.is_dir() if name == "needs" else path in self.overlay or path.is_file()
                if not there:
                    raise Faulty(shown(page), f"`{name}` names {entry}, which is not there", line_with(text, f'"{entry}"'))
        unknown = set(data) - {"title", "needs", "files"}
        if unknown:
            raise Faulty(shown(page), f"no entry is named {min(unknown)}", line_with(text, min(unknown)))
        if not any(found.values()):
            raise Faulty(shown(page), "a library has `files`, or `needs` other libraries")
        title = data.get("title", folder.name)
        if (folder, str(title)) not in self.library.titles:
            self.library.titles.append((folder, str(title)))
        return found["needs"], found["files"]

    def file(self, path: Path, is_own: bool) -> None:
        """One file."""
        where = path.resolve() if path != STREAM else path
        if is_own:
            self.library.own.add(where)
        if where in self.taken:
            return
        self.taken.add(where)
        text = self.overlay[where] if where in self.overlay else read_text(path)
        self.bytes += len(text)
        if self.bytes > MOST_BYTES:
            raise Faulty(shown(path), f"the books have more than {MOST_BYTES:,} bytes together")
        file = SourceFile(where, text, self.next)
        self.library.files.append(file)
        self.next += file.count


def read_text(path: Path) -> str:
    """The text of a file, or of standard input for `-`; at most a little more than a book may have."""
    try:
        if path == STREAM:
            data = sys.stdin.buffer.read(MOST_BYTES + 1)
        else:
            if path.is_dir():
                raise Faulty(path, "is a folder, and a file is wanted here")
            with path.open("rb") as file:
                data = file.read(MOST_BYTES + 1)
    except OSError as error:
        raise Faulty(path, error.strerror or "cannot be read") from None
    return data.decode("latin-1")


def line_with(text: str, part: str) -> int:
    """The number of the first line that has a part."""
    return text[: max(text.find(part), 0)].count("\n") + 1
