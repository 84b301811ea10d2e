"""Rename and formatting: edits that leave what a book says as it is."""

from __future__ import annotations

from pathlib import Path

from ..layout import depths_of, laid_out
from ..renaming import NotRenamed, Renaming
from ..roles import Role
from ..syntax import lines_of
from .documents import Document, units, uri_of
from .navigation import role_at
from .protocol import INVALID_PARAMS, Json, ProtocolError
from .workspace import Project, Spot, word_range


def formatting(document: Document, project: Project) -> list[Json]:
    """One edit that puts the laid out text in the place of the whole, or none where it is so."""
    first = project.library.number(document.path, 1)
    if first is None:
        return []
    depths = {number - first + 1: depth for number, depth in depths_of(project.book).items()}
    new = laid_out(lines_of(document.text), depths)
    if new == document.text:
        return []
    last = len(document.lines) - 1
    end = {"line": last, "character": units(document.lines[last])}
    return [{"range": {"start": {"line": 0, "character": 0}, "end": end}, "newText": new}]


def renaming(spot: Spot, new: str) -> Renaming | None:
    """The exchange of the word under the cursor, or none where it has no name of its own."""
    role = role_at(spot)
    if role == Role.TITLE:
        return Renaming(spot.word, new)
    item = spot.item()
    return Renaming(spot.word, new, item) if role == Role.NAME and item is not None else None


def prepare(spot: Spot, place: int) -> Json:
    """What would be renamed, or none."""
    if renaming(spot, spot.word) is None:
        return None
    return {"range": word_range(place, spot.line, spot.at), "placeholder": spot.word}


def rename(spot: Spot, new: str) -> Json:
    """The edits of a rename: of an object in its theorem, or of a title everywhere."""
    exchange = renaming(spot, new)
    if exchange is None:
        raise ProtocolError(INVALID_PARAMS, "here is nothing that has a name of its own")
    try:
        exchange.check_form()
        exchange.check_free(spot.project.book.lines)
    except NotRenamed as reason:
        raise ProtocolError(INVALID_PARAMS, str(reason)) from None
    return {"changes": edits(spot.project, exchange)}


def edits(project: Project, exchange: Renaming) -> dict[str, list[Json]]:
    """The edits by document."""
    changes: dict[str, list[Json]] = {}
    for line in project.book.lines:
        for at in exchange.places(line):
            place = project.library.place(line.number)
            path = place.path if place.path.is_absolute() else Path.cwd() / place.path
            edit = {"range": word_range(place.line, line, at), "newText": exchange.new}
            changes.setdefault(uri_of(path), []).append(edit)
    return changes
