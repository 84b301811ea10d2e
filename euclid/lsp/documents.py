"""Open documents: their texts, and positions in them both ways.

A position of the protocol counts UTF-16 units in a line; a column here counts bytes, as `elements`
does. A text is held as Latin-1 of its UTF-8 bytes, as a file that is read is.
"""

from __future__ import annotations

from dataclasses import dataclass
from pathlib import Path
from urllib.parse import quote, unquote, urlsplit

from .protocol import INVALID_PARAMS, Json, ProtocolError


def path_of(uri: str) -> Path:
    """The file that a URI names."""
    parts = urlsplit(uri)
    if parts.scheme != "file":
        raise ProtocolError(INVALID_PARAMS, f"only files are served, and this is {uri[:80]}")
    return Path(unquote(parts.path)).resolve()


def uri_of(path: Path) -> str:
    """The URI of a file."""
    return "file://" + quote(str(path))


def to_bytes(text: str) -> str:
    """A text of Unicode as one of bytes."""
    return text if text.isascii() else text.encode("utf-8", "surrogatepass").decode("latin-1")


def to_unicode(text: str) -> str:
    """A text of bytes as one of Unicode; bytes that are none stay as they are."""
    if text.isascii():
        return text
    return text.encode("latin-1").decode("utf-8", "replace")


def units(text: str) -> int:
    """How many UTF-16 units a text of bytes has."""
    if text.isascii():
        return len(text)
    return len(to_unicode(text).encode("utf-16-le", "surrogatepass")) // 2


def byte_of(line: str, character: int) -> int:
    """The byte at which a character of a line is, both from 0."""
    if line.isascii():
        return min(character, len(line))
    cut = to_unicode(line).encode("utf-16-le", "surrogatepass")[: 2 * character]
    return len(cut.decode("utf-16-le", "ignore").encode("utf-8", "surrogatepass"))


@dataclass
class Document:
    """An open document. Its lines end without their line feeds."""

    path: Path
    version: int
    text: str

    def __post_init__(self) -> None:
        self.lines = self.text.split("\n")

    def line(self, number: int) -> str:
        """A line, from 0, or nothing behind the last one."""
        return self.lines[number] if 0 <= number < len(self.lines) else ""

    def offset(self, position: Json) -> int:
        """The place in the text of a position."""
        number, character = int(position["line"]), int(position["character"])
        if number < 0 or character < 0:
            raise ProtocolError(INVALID_PARAMS, "a position is not negative")
        if number >= len(self.lines):
            return len(self.text)
        before = sum(len(line) + 1 for line in self.lines[:number])
        return before + byte_of(self.lines[number], character)

    def change(self, changes: list[Json], version: int) -> None:
        """Takes changes in order: of a range, or of the whole text."""
        for change in changes:
            new = to_bytes(str(change["text"]).replace("\r\n", "\n"))
            if change.get("range") is None:
                self.text = new
            else:
                start, end = (self.offset(change["range"][side]) for side in ("start", "end"))
                self.text = self.text[:start] + new + self.text[max(start, end) :]
            self.lines = self.text.split("\n")
        self.version = version


def position(line: str, number: int, column: int) -> dict[str, int]:
    """The position of a column, from 1, in a line with this number, from 1."""
    return {"line": number - 1, "character": units(line[: max(column - 1, 0)])}


def span(line: str, number: int, start: int, end: int) -> dict[str, Json]:
    """The range of a part of a line, from one column up to another."""
    return {"start": position(line, number, start), "end": position(line, number, end)}


def whole_line(line: str, number: int) -> dict[str, Json]:
    """The range of what a line says."""
    start = len(line) - len(line.lstrip()) + 1
    return span(line, number, start, max(len(line.rstrip()) + 1, start))
