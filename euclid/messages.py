"""What commands tell people and tools: messages with places, as text or as JSON."""

from __future__ import annotations

import json
import os
import sys
from dataclasses import dataclass, field
from typing import TextIO

from .library import Place

# Exit statuses.
ACCEPTED, REFUSED, FAULTY, WRONG_USE, FAILED = 0, 1, 2, 3, 4
COLOURS = {"error": "\x1b[1;31m", "warning": "\x1b[1;33m", "note": "\x1b[1;36m", "bold": "\x1b[1m"}


class WrongUse(Exception):
    """Words of a command line that cannot be taken: a title that is not there, and the like."""


@dataclass
class Message:
    """A message about a place: `FILE:LINE:COLUMN: error: TEXT`, then lines that say more."""

    place: Place
    kind: str  # error, warning, note
    text: str
    end_column: int = 0
    details: list[str] = field(default_factory=list)
    related: list[Message] = field(default_factory=list)

    def lines(self, coloured: bool = False) -> list[str]:
        """The message as lines of text."""
        found = [f"{paint(str(self.place), 'bold', coloured)}: {paint(self.kind, self.kind, coloured)}: {self.text}"]
        found += ["    " + detail for detail in self.details]
        for each in self.related:
            found += each.lines(coloured)
        return found

    def data(self) -> dict[str, object]:
        """The message as an object of JSON."""
        return {"file": str(self.place.path), "line": self.place.line, "column": self.place.column,
                "endColumn": self.end_column or self.place.column, "kind": self.kind, "text": self.text,
                "details": self.details, "related": [each.data() for each in self.related]}


def paint(text: str, kind: str, coloured: bool) -> str:
    """A text in the colour of its kind."""
    return f"{COLOURS[kind]}{text}\x1b[0m" if coloured else text


def is_coloured(stream: TextIO) -> bool:
    """Whether a stream is a terminal that shows colours."""
    return stream.isatty() and not os.environ.get("NO_COLOR") and os.environ.get("TERM") != "dumb"


def tell(message: Message) -> None:
    """Writes a message to standard error."""
    print("\n".join(message.lines(is_coloured(sys.stderr))), file=sys.stderr)


def put_json(data: dict[str, object]) -> None:
    """Writes one object on a line of standard output."""
    print(json.dumps(data, ensure_ascii=True, separators=(", ", ": ")))
