"""Sketches: proofs at Euclid's length, in a file `NAME.sketch` beside the filled `NAME.book`.

The two agree where the lines of the sketch, but for wishes, stand in the book in order, with
nothing but `by`, `hence` and claims between them. A wish is a `hence` line with a literal of the
diagram: `fill` may put the lines that give it in its place.
"""

from __future__ import annotations

from dataclasses import dataclass
from pathlib import Path

from ..library import Library, Place, read_text, shown
from ..literals import TERMS
from ..messages import Message
from ..syntax import SourceLine, lines_of

SUFFIX = ".sketch"
IN_CLAIMS = {"by", "hence", "claim", "cases", "else", "qed", "contradiction"}
OPENERS, CLOSERS = ("claim", "superpose"), ("qed", "contradiction")
Words = tuple[str, ...]


@dataclass(frozen=True)
class Parting:
    """Where a sketch and its book part first in a theorem: a line of each, 0 for none, and how."""

    sketch_line: int
    book_line: int
    text: str


def sketch_of(book: Path) -> Path | None:
    """The sketch beside a book, if there is one."""
    sketch = book.with_suffix(SUFFIX)
    return sketch if book.suffix == ".book" and sketch.is_file() else None


def partings(sketch: str, book: str) -> list[Parting]:
    """Where a sketch and its book part, theorem by theorem."""
    if is_plainly_filled(sketch, book):
        return []
    own, filled = items_of(sketch), items_of(book)
    found = []
    for title, lines in own.items():
        if title not in filled:
            found.append(Parting(lines[0].number, 0, f"`{title}` is not in the book"))
        else:
            parting = parting_of(lines, filled[title])
            found += [parting] if parting else []
    for title, lines in filled.items():
        if title not in own:
            found.append(Parting(0, lines[0].number, f"`{title}` is not in the sketch"))
    common = [title for title in own if title in filled]
    if not found and common != [title for title in filled if title in own]:
        found.append(Parting(own[common[0]][0].number, filled[common[0]][0].number, "the theorems come in another order"))
    return found


def is_plainly_filled(sketch: str, book: str) -> bool:
    """Whether the book is the sketch with `by` and `hence` lines put in, which is quick to see."""
    own = iter([*said_lines(sketch), ""])
    wanted = next(own)
    for line in said_lines(book):
        if line == wanted:
            wanted = next(own)
        elif not line.startswith(("by ", "hence ")):
            return False
    return wanted == ""


def said_lines(text: str) -> list[str]:
    """The lines that say something, without the blanks around them."""
    stripped = (line.strip() for line in text.split("\n"))
    return [line for line in stripped if line and not line.startswith("#")]


def items_of(text: str) -> dict[str, list[SourceLine]]:
    """The lines that say something, by the title of the item that they are of."""
    found: dict[str, list[SourceLine]] = {}
    title = ""
    for line in lines_of(text):
        if line.is_skipped():
            continue
        if line.words[0] in ("theorem", "define"):
            title = line.words[1] if len(line.words) > 1 else ""
        found.setdefault(title, []).append(line)
    return found


def parting_of(sketch: list[SourceLine], book: list[SourceLine]) -> Parting | None:
    """Where the lines of one item part."""
    at = place = 0
    while at < len(sketch) or place < len(book):
        own = sketch[at] if at < len(sketch) else None
        line = book[place] if place < len(book) else None
        if line and (after := behind(sketch, at, line.words)):
            at, place = after, place + 1
        elif line and line.words[0] in ("by", "hence"):
            place += 1
        elif line and line.words[0] == "claim" and (end := end_of_claim(book, place)):
            place = end
        elif own and is_wish(own.words):
            at += 1
        else:
            return Parting(own.number if own else 0, line.number if line else 0, how(own, line))
    return None


def behind(sketch: list[SourceLine], at: int, words: Words) -> int | None:
    """Behind the line with these words that comes next, but for wishes; none where another does."""
    while at < len(sketch):
        if sketch[at].words == words:
            return at + 1
        if not is_wish(sketch[at].words):
            return None
        at += 1
    return None


def how(own: SourceLine | None, line: SourceLine | None) -> str:
    """How two lines part."""
    if own is None:
        assert line is not None
        return f"the book has `{' '.join(line.words)}`, and the sketch has ended"
    if line is None:
        return f"the sketch has `{' '.join(own.words)}`, and the book has ended"
    return f"the sketch has `{' '.join(own.words)}` where the book has `{' '.join(line.words)}`"


def is_wish(words: Words) -> bool:
    """Whether a line is `hence` with a literal of the diagram."""
    body = words[2:] if words[1:2] == ("not",) else words[1:]
    if words[0] != "hence" or not body:
        return False
    return not (body[0] in TERMS or body[0].isdigit())


def end_of_claim(lines: list[SourceLine], place: int) -> int | None:
    """Behind a claim in which no object is drawn and no theorem used; none where there is one."""
    end = end_of_block(lines, place + 1)
    if end is None or any(line.words[0] not in IN_CLAIMS for line in lines[place:end]):
        return None
    return end


def end_of_block(lines: list[SourceLine], place: int) -> int | None:
    """Behind a block that begins there; none where it has no close."""
    open_blocks = [1]  # how many closes each claim that is open waits for
    while open_blocks and place < len(lines):
        word = lines[place].words[0]
        place += 1
        if word in OPENERS:
            open_blocks.append(1)
        elif word == "cases":
            open_blocks[-1] += 1
        elif word in CLOSERS:
            open_blocks[-1] -= 1
            while open_blocks and open_blocks[-1] == 0:
                open_blocks.pop()
    return None if open_blocks else place


def sketch_messages(library: Library) -> list[Message]:
    """Where the sketches beside the files that were asked for have parted from their books."""
    found = []
    for file in library.files:
        sketch = sketch_of(file.path) if file.path in library.own else None
        if sketch is not None:
            found += [message_of(each, sketch, file.path) for each in partings(read_text(sketch), file.text)]
    return found


def message_of(parting: Parting, sketch: Path, book: Path) -> Message:
    """What is told of a parting."""
    text = f"{parting.text}; `euclid fill --write {shown(book)}` brings the book up to date"
    if not parting.sketch_line:
        return Message(Place(shown(book), parting.book_line), "warning", text)
    message = Message(Place(shown(sketch), parting.sketch_line), "warning", text)
    if parting.book_line:
        message.related.append(Message(Place(shown(book), parting.book_line), "note", "the book is here"))
    return message
