"""What `elements` says of each item of a book, going on after an error.

A theorem that is refused or faulty is left out of the next run, with all that rest on it, until what
is left is accepted. Lines that are left out become empty ones, so that numbers of lines stay.
"""

from __future__ import annotations

from dataclasses import dataclass, field
from enum import StrEnum
from functools import cached_property, lru_cache

from .answers import Answer, check
from .derivation import Part, read_derivation
from .rereading import text_of, titles_in
from .script import Book, Item, Theorem
from .syntax import SourceLine, lines_in

MOST_KEPT = 400  # items of a book for which verdicts are kept; with more its limits come into play
WHOLE = ("limit theorems", "limit bytes", "limit notions")  # faults of the book as a whole


class Verdict(StrEnum):
    """What became of an item."""

    ACCEPTED = "accepted"
    REFUSED = "refused"  # or too wide
    FAULTY = "faulty"
    RESTS = "rests"  # left out, since it rests on one that is refused or faulty


@dataclass
class Written:
    """The block of an accepted theorem in a derivation text, which is taken apart when it is asked for."""

    title: str
    text: str

    @cached_property
    def part(self) -> Part:
        """Its lines and certificates."""
        return read_derivation(self.text).parts[self.title]


@dataclass
class Outcome:
    """What became of an item, and why."""

    verdict: Verdict
    answer: Answer | None = None  # where it is refused, too wide or faulty
    on: str = ""  # the title of the refused or faulty one that it rests on
    written: Written | None = None  # where it is an accepted theorem

    @property
    def part(self) -> Part | None:
        """Its block of the derivation text, where it is an accepted theorem."""
        return self.written.part if self.written else None


@dataclass
class Stray:
    """Lines between items that say something, and the fault that the first one is."""

    lines: list[SourceLine]
    answer: Answer


@dataclass
class Outcomes:
    """What became of the items of a book, in order, and of what stands between them."""

    items: list[Outcome]
    strays: list[Stray] = field(default_factory=list)
    runs: int = 0  # of `elements`

    def is_accepted(self) -> bool:
        """Whether the whole book is accepted."""
        return not self.strays and all(each.verdict == Verdict.ACCEPTED for each in self.items)


class Checker:
    """Checks one book after the other; what was accepted before, and is the same, is not run again."""

    def __init__(self) -> None:
        self.accepted: dict[str, Written | None] = {}

    def check(self, book: Book) -> Outcomes:
        """What becomes of each item."""
        run = Run(book, self.accepted if len(book.items) <= MOST_KEPT else {})
        outcomes = run.all_outcomes()
        if len(book.items) <= MOST_KEPT:
            self.accepted = run.accepted
        return outcomes


class Run:
    """One check of a book, in as many runs of `elements` as it takes."""

    def __init__(self, book: Book, before: dict[str, Written | None]) -> None:
        self.book, self.items = book, book.items
        self.texts = [line.text for line in book.lines]
        self.start = book.lines[0].number if book.lines else 1
        self.outcomes: list[Outcome | None] = [None] * len(self.items)
        self.strays: list[Stray] = []
        self.accepted: dict[str, Written | None] = {}
        self.runs = 0
        self.uses = uses_of(self.items)
        self.keys = keys_of(self.items, self.uses)
        self.left_strays: set[int] = set()
        for at, key in enumerate(self.keys):
            if key in before and self.is_sound(at):
                self.accept(at, before[key])

    def is_sound(self, at: int) -> bool:
        """Whether all that an item uses is accepted."""
        found = (self.outcomes[used] for used in self.uses[at])
        return all(each is not None and each.verdict == Verdict.ACCEPTED for each in found)

    def accept(self, at: int, written: Written | None) -> None:
        """Notes that an item is accepted."""
        self.outcomes[at] = Outcome(Verdict.ACCEPTED, written=written)
        self.accepted[self.keys[at]] = written

    def all_outcomes(self) -> Outcomes:
        """Runs until all is known."""
        is_empty = not self.items and not self.book.stray
        while any(each is None for each in self.outcomes) or self.first_stray() is not None or is_empty and not self.runs:
            before = self.known()
            answer = check(self.text())
            self.runs += 1
            self.take(answer)
            if self.known() == before and not answer.is_accepted():
                break  # an answer that says nothing new; it never comes, and would come for ever
        return Outcomes([each or Outcome(Verdict.FAULTY) for each in self.outcomes], self.strays, self.runs)

    def known(self) -> tuple[int, int]:
        """How much is known."""
        return sum(each is not None for each in self.outcomes), len(self.left_strays)

    def first_stray(self) -> SourceLine | None:
        """The first line between items that is not left out."""
        return next((line for line, _ in self.book.stray if line.number not in self.left_strays), None)

    def text(self) -> str:
        """The text of what has to be run: what is open, and what that uses; other lines are empty."""
        wanted = [each is None for each in self.outcomes]
        for at in range(len(self.items) - 1, -1, -1):
            if wanted[at]:
                for used in self.uses[at]:
                    wanted[used] = True
        texts = list(self.texts)
        for at, item in enumerate(self.items):
            if not wanted[at]:
                for line in item.lines:
                    texts[line.number - self.start] = ""
        for number in self.left_strays:
            texts[number - self.start] = ""
        return "\n".join([*texts, ""])

    def take(self, answer: Answer) -> None:
        """Takes what a run says."""
        blocks = blocks_of(answer.derivation)
        stop = self.stop_of(answer)
        for at, item in enumerate(self.items):
            if self.outcomes[at] is None and (stop is None or at < stop):
                self.accept(at, blocks.get(item.title) if isinstance(item, Theorem) else None)
        if answer.is_accepted():
            return
        number = self.start + answer.line - 1
        if answer.kind == "fault" and self.is_stray(number):
            self.leave_strays(number, answer)
            return
        if stop is not None and stop < len(self.items):
            kind = Verdict.FAULTY if answer.kind == "fault" else Verdict.REFUSED
            self.outcomes[stop] = Outcome(kind, answer)
            self.leave_users(stop, answer.fault in WHOLE)

    def stop_of(self, answer: Answer) -> int | None:
        """The item at which a run stopped: of all before it nothing is wrong."""
        if answer.is_accepted():
            return None
        if answer.kind != "fault":
            found = (at for at, item in enumerate(self.items)
                     if isinstance(item, Theorem) and item.title == answer.title and self.outcomes[at] is None)
            return next(found, len(self.items))
        number = self.start + answer.line - 1
        open_ones = [at for at, each in enumerate(self.outcomes) if each is None]
        before = [at for at in open_ones if self.items[at].head.number <= number]
        if not before or self.is_stray(number):
            return next((at for at in open_ones if self.items[at].head.number > number), len(self.items))
        last = before[-1]
        if self.items[last].head.number == number and len(before) > 1 and not is_ended(self.items[before[-2]]):
            return before[-2]  # the line after an item without `end` is that of the next one
        return last

    def is_stray(self, number: int) -> bool:
        """Whether a line is between items."""
        return any(line.number == number for line, _ in self.book.stray)

    def leave_strays(self, number: int, answer: Answer) -> None:
        """Leaves out a line between items, and those after it up to the next item."""
        following = [item.head.number for item in self.items if item.head.number > number]
        end = min(following, default=number + len(self.texts))
        lines = [line for line, _ in self.book.stray if number <= line.number < end]
        self.left_strays |= {line.number for line in lines}
        self.strays.append(Stray(lines, answer))

    def leave_users(self, at: int, is_whole: bool) -> None:
        """Leaves out all that rest on an item; all after it where the book as a whole is too large."""
        gone = {at}
        for later in range(at + 1, len(self.items)):
            if self.outcomes[later] is None and (is_whole or gone & set(self.uses[later])):
                gone.add(later)
                self.outcomes[later] = Outcome(Verdict.RESTS, on=self.items[at].title)


def blocks_of(text: str) -> dict[str, Written]:
    """The blocks of a derivation text, by their titles."""
    head, *blocks = text.replace("\nend\n", "\nend\n\0").split("\0")
    blocks = [head.partition("\n")[2], *blocks]
    found = {}
    for block in blocks:
        first, _, rest = block.partition("\n")
        if first.startswith("theorem ") and rest.endswith("end\n"):
            title = first.removeprefix("theorem ")
            found[title] = Written(title, f"derivation 1\n{block}")
    return found


def is_ended(item: Item) -> bool:
    """Whether an item has its line `end`."""
    said = [line for line in item.lines if not line.is_skipped()]
    return bool(said) and said[-1].words == ("end",)


def uses_of(items: list[Item]) -> list[list[int]]:
    """For each item those before it of which it speaks, or that have its title already."""
    places: dict[str, int] = {}
    found = []
    for at, item in enumerate(items):
        found.append(sorted({places[title] for title in titles_in(item.lines) if title in places}))
        places.setdefault(item.title, at)
    return found


def keys_of(items: list[Item], uses: list[list[int]]) -> list[str]:
    """For each item a text that is another where its verdict may be: its lines and the statements that it uses."""
    found, statements = [], list[str]()
    for at, item in enumerate(items):
        said, front = said_in(text_of(item.lines))
        found.append("\n".join([said, "", *(statements[each] for each in uses[at])]))
        definitions = [statements[each] for each in uses[at] if items[each].head.words[0] == "define"]
        statements.append("\n".join([front, *definitions]))
    return found


@lru_cache(maxsize=4096)
def said_in(text: str) -> tuple[str, str]:
    """What a text says, without comments and more blanks than one; and the part of it before the proof."""
    lines = [" ".join(line.words) for line in lines_in(text) if not line.is_skipped()]
    front = lines[: lines.index("proof")] if "proof" in lines else lines
    return "\n".join(lines), "\n".join(front)
