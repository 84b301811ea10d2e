"""Reads a book again after a change: what was read before, and reads the same, is taken over."""

from __future__ import annotations

import copy
from dataclasses import dataclass
from functools import lru_cache

from .reading import BookReader
from .script import Block, Book, Cases, Claim, Item, Step, Superpose, Theorem
from .statements import Known, Statement
from .syntax import SourceLine, lines_in

Meaning = tuple[tuple[str, Statement | None, Statement | None], ...]


@dataclass
class Kept:
    """An item that was read, and what the titles on its lines meant then."""

    meaning: Meaning
    item: Item


class Rereader:
    """Reads one book after the other, each mostly like the one before."""

    def __init__(self) -> None:
        self.kept: dict[str, Kept] = {}

    def read(self, lines: list[SourceLine]) -> Book:
        """The book of these lines."""
        reader = KeepingReader(lines, self.kept)
        book = reader.read()
        self.kept = reader.now
        return book


class KeepingReader(BookReader):
    """A reader that takes over items with the same text and the same meaning of titles."""

    def __init__(self, lines: list[SourceLine], kept: dict[str, Kept]) -> None:
        super().__init__(lines, Known())
        self.kept, self.now = kept, dict[str, Kept]()

    def item(self, lines: list[SourceLine], head: SourceLine) -> None:
        """Reads one item, or takes it over."""
        text = text_of(lines)
        known = self.kept.get(text)
        meaning = meaning_of(lines, self.book.known)
        if text in self.now or known is None or not is_same_meaning(known.meaning, meaning):
            super().item(lines, head)
        else:
            self.put(shifted(known.item, lines))
        self.now[text] = Kept(meaning, self.book.items[-1])


def text_of(lines: list[SourceLine]) -> str:
    """The text of some lines."""
    return "\n".join(line.text for line in lines)


def titles_in(lines: list[SourceLine]) -> tuple[str, ...]:
    """The titles that an item may speak of: its own, those applied, and the words after `as`."""
    return titles_of(text_of(lines))


@lru_cache(maxsize=4096)
def titles_of(text: str) -> tuple[str, ...]:
    """The same, of its text."""
    found: dict[str, None] = {}
    for line in lines_in(text):
        words = line.words
        if not words:
            continue
        if words[0] in ("theorem", "define", "apply"):
            found.update(dict.fromkeys(words[1:2]))
        if words[0] == "superpose":
            words = words[words.index("show") :] if "show" in words else ()
        if words[:1] and words[0] in ("given", "show", "claim"):
            found.update(dict.fromkeys(after for word, after in zip(words, words[1:]) if word == "as"))
    return tuple(found)


def meaning_of(lines: list[SourceLine], known: Known) -> Meaning:
    """What the titles on these lines mean."""
    return tuple((title, known.theorems.get(title), known.definitions.get(title)) for title in titles_in(lines))


def is_same_meaning(one: Meaning, other: Meaning) -> bool:
    """Whether titles mean the very same statements."""
    return len(one) == len(other) and all(
        a == b and x is y and p is q for (a, x, p), (b, y, q) in zip(one, other))


def shifted(item: Item, lines: list[SourceLine]) -> Item:
    """The item at other lines of the same text; the same where these are its own."""
    if lines[0].number == item.lines[0].number:
        return item
    return Shift(item.lines[0].number, lines).item(item)


class Shift:
    """Puts an item at other lines of the same text."""

    def __init__(self, first: int, lines: list[SourceLine]) -> None:
        self.first, self.lines = first, lines

    def line(self, line: SourceLine) -> SourceLine:
        """The new line for an old one."""
        return self.lines[line.number - self.first]

    def item(self, item: Item) -> Item:
        """The item there."""
        moved = copy.copy(item)
        moved.lines = self.lines
        moved.head = self.line(item.head)
        moved.fault_line = self.line(item.fault_line) if item.fault_line else None
        if isinstance(moved, Theorem):
            moved.proof_line = self.line(moved.proof_line) if moved.proof_line else None
            moved.proof = self.block(moved.proof)
        return moved

    def block(self, block: Block) -> Block:
        """Its steps there."""
        return Block([self.step(step) for step in block.steps])

    def step(self, step: Step) -> Step:
        """A step there, and the blocks inside it."""
        moved: Step = object.__new__(type(step))
        moved.__dict__.update(step.__dict__)
        moved.line = self.line(step.line)
        if isinstance(moved, (Claim, Superpose)):
            moved.block = self.block(moved.block)
        elif isinstance(moved, Cases):
            moved.first, moved.other = self.block(moved.first), self.block(moved.other)
            moved.otherwise = self.line(moved.otherwise) if moved.otherwise else None
        return moved
