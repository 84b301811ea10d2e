"""The text that is written: the author's lines, and lines put before them or before open blocks."""

from __future__ import annotations

from typing import NamedTuple

from ..syntax import SourceLine

INDENT = "  "


class PageLine(NamedTuple):
    """A line: the number of the author's line that it is, or 0 where it was put in; and the number
    of the step that it is, or for which it was put in (0 before the proof)."""

    text: str
    own: int
    step: int


class Page:
    """The lines so far."""

    def __init__(self) -> None:
        self.lines: list[PageLine] = []
        self.openings: list[int] = []  # where the line stands that opens each block that is open
        self.indent = ""  # of the next line of the author
        self.step = 0  # the step at hand

    def keep(self, line: SourceLine) -> None:
        """A line of the author."""
        self.lines.append(PageLine(line.text, line.number, self.step))

    def put(self, text: str, level: int | None = None) -> None:
        """A new line: at the end, or before the block that is open inside the one of this level."""
        if level is None or level >= len(self.openings):
            self.lines.append(PageLine(self.indent + text, 0, self.step))
            return
        place = self.openings[level]
        opener = self.lines[place].text
        indent = opener[: len(opener) - len(opener.lstrip())]
        self.lines.insert(place, PageLine(indent + text, 0, self.step))
        for inner in range(level, len(self.openings)):
            self.openings[inner] += 1

    def take_back(self, text: str) -> bool:
        """Takes the last line out again where it was put in and is this one."""
        if self.lines and not self.lines[-1].own and self.lines[-1].text.strip() == text:
            self.lines.pop()
            return True
        return False
