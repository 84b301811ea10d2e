"""Books laid out: two blanks for each block around a line, one between words, comments kept."""

from __future__ import annotations

from collections.abc import Iterator

from .script import Book, Cases, Step, Theorem
from .syntax import SourceLine

STEP = "  "


def laid_out(lines: list[SourceLine], depths: dict[int, int]) -> str:
    """The text of a file; depths are by the numbers of lines, and those that are not there have none.

    A comment is as deep as the next line that says something. Of empty lines in a row one stays,
    and none at the beginning or the end.
    """
    found: list[str] = []
    for at, line in enumerate(lines):
        if not line.words:
            if found and found[-1] != "":
                found.append("")
        elif line.is_comment():
            found.append(STEP * depth_below(lines, at, depths) + line.text.strip(" \t"))
        else:
            found.append(STEP * depths.get(line.number, 0) + " ".join(line.words))
    while found and found[-1] == "":
        found.pop()
    return "".join(line + "\n" for line in found)


def depth_below(lines: list[SourceLine], at: int, depths: dict[int, int]) -> int:
    """How deep the next line is that says something."""
    return next((depths.get(line.number, 0) for line in lines[at:] if not line.is_skipped()), 0)


def depths_of(book: Book) -> dict[int, int]:
    """How many blocks are around each step, by the number of its line."""
    depths: dict[int, int] = {}
    for theorem in book.theorems():
        depths.update(depths_in(theorem))
    return depths


def depths_in(theorem: Theorem) -> Iterator[tuple[int, int]]:
    """The lines of a proof with their depths."""
    def walk(steps: list[Step], depth: int) -> Iterator[tuple[int, int]]:
        for step in steps:
            yield step.line.number, depth
            for block in step.blocks():
                yield from walk(block.steps, depth + 1)
            if isinstance(step, Cases) and step.otherwise is not None:
                yield step.otherwise.number, depth

    return walk(theorem.proof.steps, 0)
