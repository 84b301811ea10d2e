"""Sketches that follow their books: where a book is changed, the sketch beside it is too."""

from __future__ import annotations

import difflib
from collections.abc import Mapping
from pathlib import Path

from .filling.sketches import items_of, partings, sketch_of
from .library import Library, read_text
from .renaming import Renaming
from .syntax import lines_of


def renamed_sketches(library: Library, renaming: Renaming) -> dict[Path, tuple[str, int]]:
    """The sketches that have the name, each with its new text and how many lines changed."""
    found: dict[Path, tuple[str, int]] = {}
    for path, text in sketches_of(library).items():
        parts, title, count = text.split("\n"), "", 0
        for at, line in enumerate(lines_of(text)):
            if line.words[:1] in (("theorem",), ("define",)):
                title = line.words[1] if len(line.words) > 1 else ""
            if line.is_skipped() or renaming.inside is not None and renaming.inside.title != title:
                continue
            changed = renaming.exchanged(line)
            if changed != line.text:
                parts[at] = changed + "\r" * parts[at].endswith("\r")
                count += 1
        if count:
            found[path] = "\n".join(parts), count
    return found


def shortened_sketches(library: Library, new: Mapping[Path, str], gone: Mapping[Path, set[int]]) -> dict[Path, str]:
    """The sketches without the lines that books lose, where they agree with their books afterwards.

    The lines are by the files of the books, by their numbers in these.
    """
    found: dict[Path, str] = {}
    for path, text in sketches_of(library).items():
        book = next(file for file in library.files if sketch_of(file.path) == path)
        lost = lost_lines(text, book.text, gone.get(book.path, set()))
        short = "\n".join(line for at, line in enumerate(text.split("\n"), 1) if at not in lost)
        if lost and len(partings(short, new[book.path])) <= len(partings(text, book.text)):
            found[path] = short
    return found


def sketches_of(library: Library) -> dict[Path, str]:
    """The sketches beside the files that were asked for."""
    paths = (sketch_of(file.path) for file in library.files if file.path in library.own)
    return {path: read_text(path) for path in paths if path is not None}


def lost_lines(sketch: str, book: str, gone: set[int]) -> set[int]:
    """The lines of a sketch that are those lines of its book, by their numbers."""
    lost: set[int] = set()
    of_book = items_of(book)
    for title, lines in items_of(sketch).items():
        others = of_book.get(title, [])
        matcher = difflib.SequenceMatcher(None, [line.words for line in lines], [line.words for line in others], False)
        for own, other, size in matcher.get_matching_blocks():
            lost |= {lines[own + at].number for at in range(size) if others[other + at].number in gone}
    return lost
