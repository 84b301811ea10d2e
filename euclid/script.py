"""Books as trees: theorems with statements and proofs, definitions, and what does not read.

The reader goes on after a fault, at the next `theorem` or `define`. It is made for people who are
in the middle of writing: what it says of a fault is a help; which fault a book has is said by
`elements` alone.
"""

from __future__ import annotations

from collections.abc import Iterator
from dataclasses import dataclass, field

from .literals import Literal, Sort
from .rules import Construction
from .statements import Known, Objects, Statement
from .syntax import Fault, SourceLine


@dataclass
class Step:
    """A numbered line of a proof."""

    number: int
    line: SourceLine

    def blocks(self) -> list[Block]:
        """The blocks inside it, in order."""
        return []

    @property
    def word(self) -> str:
        """Its first word."""
        return self.line.words[0]


@dataclass
class Block:
    """Steps, of which the last is a close, where the block is whole."""

    steps: list[Step] = field(default_factory=list)

    def all_steps(self) -> Iterator[Step]:
        """Its steps and those of the blocks inside, in the order of the text."""
        for step in self.steps:
            yield step
            for block in step.blocks():
                yield from block.all_steps()


@dataclass
class By(Step):
    """`by RULE NAMES : LITERAL`."""

    rule: str
    names: list[str]
    literal: Literal


@dataclass
class Hence(Step):
    """`hence LITERAL`."""

    literal: Literal


@dataclass
class Let(Step):
    """`let ..`: a construction, the objects of its letters, its new objects, and what it avoids."""

    construction: Construction
    letters: dict[str, str]
    new: Objects
    avoided: Objects


@dataclass
class Apply(Step):
    """`apply TITLE ARGUMENTS as NAMES`; a blank is `_`."""

    title: str
    arguments: list[str]
    new: Objects


@dataclass
class Claim(Step):
    """`claim LITERALS` with its block."""

    literals: list[Literal]
    block: Block

    def blocks(self) -> list[Block]:
        return [self.block]


@dataclass
class Superpose(Step):
    """`superpose ..` with its block: the objects of its letters, the two copies."""

    letters: dict[str, str]
    new: Objects
    literals: list[Literal]
    block: Block

    def blocks(self) -> list[Block]:
        return [self.block]


@dataclass
class Qed(Step):
    """`qed NAMES`."""

    names: list[str]


@dataclass
class Contradiction(Step):
    """`contradiction`."""


@dataclass
class Cases(Step):
    """`cases LITERAL` with its two blocks; the line `else` between them."""

    literal: Literal
    first: Block
    other: Block
    otherwise: SourceLine | None = None

    def blocks(self) -> list[Block]:
        return [self.first, self.other]


CLOSES = (Qed, Contradiction, Cases)


@dataclass
class Item:
    """A part of a book: from its first comment to its last line."""

    title: str
    lines: list[SourceLine]  # those of the comment before it too
    head: SourceLine
    statement: Statement
    fault: Fault | None = None
    fault_line: SourceLine | None = None  # none where the text ends too early
    scope: dict[str, Sort] = field(default_factory=dict)  # the objects at its fault

    @property
    def comment(self) -> str:
        """The comment directly before it, in one line."""
        found: list[str] = []
        for line in self.lines:
            if line.number >= self.head.number:
                break
            if line.is_comment():
                found.append(line.text.strip().lstrip("#").strip())
            else:
                found.clear()
        return " ".join(found)

    def is_said(self) -> bool:
        """Whether its statement was read whole, so that others may speak of it."""
        return self.fault is None

    @property
    def first(self) -> int:
        """The number of its first line, its comment left out."""
        return self.head.number

    @property
    def last(self) -> int:
        """The number of its last line."""
        return self.lines[-1].number


@dataclass
class Definition(Item):
    """A definition."""


@dataclass
class Theorem(Item):
    """A theorem, with as much of its proof as could be read."""

    proof: Block = field(default_factory=Block)
    proof_line: SourceLine | None = None

    def is_said(self) -> bool:
        return self.proof_line is not None

    def steps(self) -> list[Step]:
        """All steps, in order: the first has number 1."""
        return list(self.proof.all_steps())

    def step_at_line(self, number: int) -> Step | None:
        """The step on a line, or the next one after it."""
        return next((step for step in self.steps() if step.line.number >= number), None)


@dataclass
class Book:
    """A text that was read: its items in order, what comes between them, and what is known after."""

    lines: list[SourceLine]
    items: list[Item]
    known: Known
    stray: list[tuple[SourceLine, Fault]] = field(default_factory=list)

    def theorems(self) -> list[Theorem]:
        """The theorems in order."""
        return [item for item in self.items if isinstance(item, Theorem)]

    def theorem(self, title: str) -> Theorem | None:
        """The theorem of a title."""
        return next((each for each in self.theorems() if each.title == title), None)

    def item_at_line(self, number: int) -> Item | None:
        """The item that has a line."""
        return next((item for item in self.items if item.lines[0].number <= number <= item.last), None)

    def known_before(self, item: Item) -> Known:
        """What is known where an item begins."""
        known = Known()
        for each in self.items:
            if each is item:
                break
            if each.is_said():
                kind = known.theorems if isinstance(each, Theorem) else known.definitions
                kind[each.title] = each.statement
        return known
