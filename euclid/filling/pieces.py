"""Texts of which some theorems are of another: a book with what its sketch has for one theorem, and
a sketch with one theorem stripped anew."""

from __future__ import annotations

from collections.abc import Collection
from dataclasses import dataclass
from pathlib import Path

from ..library import SourceFile
from ..reading import read_book

Origin = tuple[Path, int]  # a file, and the number of a line in it


@dataclass
class Pieced:
    """A text, and of each line where it stands."""

    text: str
    origins: list[Origin]


def whole(file: SourceFile) -> Pieced:
    """A text that is all of one file."""
    return Pieced(file.text, origins_of(file))


def pieced(base: SourceFile, other: SourceFile, titles: Collection[str]) -> Pieced:
    """The text of one file, with what another has for the theorems of some titles in their places. A
    theorem that the first lacks comes behind the one that is before it in the other."""
    own, theirs = spans_of(base.text), spans_of(other.text)
    lines, others = origins_of(base), origins_of(other)
    raw = {base.path: base.text.split("\n"), other.path: other.text.split("\n")}
    edits: list[tuple[int, int, list[Origin]]] = []
    place = min((start for start, _ in own.values()), default=0)
    for title, (first, last) in theirs.items():
        if title in titles and title in own:
            edits.append((*own[title], others[first:last]))
        elif title in titles:
            while first and not raw[other.path][first - 1].strip():
                first -= 1
            edits.append((place, place, others[first:last]))
        if title in own:
            place = own[title][1]
    origins, at = [], 0
    for start, end, part in sorted(edits, key=lambda edit: edit[:2]):
        origins += [*lines[at:start], *part]
        at = end
    origins += lines[at:]
    text = "\n".join(raw[path][number - 1] for path, number in origins)
    return Pieced(text + "\n" * (not base.text or base.text.endswith("\n")), origins)


def origins_of(file: SourceFile) -> list[Origin]:
    """Each line of a file."""
    return [(file.path, number) for number in range(1, file.count + 1)]


def spans_of(text: str) -> dict[str, tuple[int, int]]:
    """Where the theorems and definitions of a text stand, with their comments: how many lines are
    before each, and before what follows it."""
    found: dict[str, tuple[int, int]] = {}
    for item in read_book(text).items:
        found.setdefault(item.title, (item.lines[0].number - 1, item.last))
    return found
