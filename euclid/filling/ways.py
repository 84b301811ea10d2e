"""Ways to a literal that a step lacks: lines to be put before it, listed for the author to choose."""

from __future__ import annotations

from dataclasses import dataclass, field, replace

from ..clock import Clock, OutOfTime
from ..codes import Coded, Unknown
from ..contexts import Filled, situation_at
from ..literals import Literal
from ..reach import Reach
from ..reading import read_lines
from ..scratch import Scratch, Untried
from ..script import Book, By, Contradiction, Theorem
from ..statements import Known
from ..syntax import source_line
from .applying import Applier
from .page import Page
from .supply import Supplier
from .theorems import Catalogue
from .walk import ProofFiller

MOST_WAYS, SECONDS = 10, 20.0
ABSURD = ["claim right = 0", "  contradiction"]  # accepted where the facts are absurd


@dataclass
class Way:
    """Lines that go before the step, and the `apply` line among them, or nothing; whether
    `elements` accepts them there, and then the literal."""

    lines: list[str]
    applied: str = ""
    is_ready: bool = False


@dataclass
class Ways:
    """What a step lacks first, as `elements` words it, and ways to it."""

    wanted: str
    ways: list[Way] = field(default_factory=list)
    before: list[str] = field(default_factory=list)  # lines that earlier steps lack
    stopped: str = ""  # why there may be more


def ways_at(book: Book, theorem: Theorem, number: int, wanted: Literal | None = None, *, most: int = MOST_WAYS,
            seconds: float | None = SECONDS, catalogue: Catalogue | None = None) -> Ways:
    """Ways to a literal at a step of a theorem of the book, or to the first one that the step lacks.

    Each is lines to be put before the step: `by` and `hence` lines alone where these give it, then
    uses of earlier theorems. Those that `elements` accepts there come first, and only these are
    called ready. What earlier steps lack is filled in first, and told.
    """
    known = book.known_before(theorem)
    whole, at, before = filled_before(theorem, known, number, Clock(seconds))
    items = book.items[: book.items.index(theorem)]
    scratch = Scratch(replace(book, items=[*items, whole]), whole, at)
    try:
        filled = scratch.filled()
    except Untried as cause:
        return Ways("", stopped=str(cause))
    found = ways_to(whole, known, at, wanted, filled=filled, most=most, seconds=seconds, catalogue=catalogue)
    found.before = before
    ready = tried(scratch, found)
    for way, is_ready in zip(found.ways, ready):
        way.is_ready = is_ready
    found.ways.sort(key=lambda way: not way.is_ready)
    return found


def tried(scratch: Scratch, found: Ways) -> list[bool]:
    """What `elements` says of each way."""
    last = ABSURD if found.wanted == "contradiction" else [f"hence {found.wanted}"]
    try:
        return scratch.ready([[*way.lines, *last] for way in found.ways])
    except Untried as cause:
        found.stopped = str(cause)
        return [False] * len(found.ways)


def ways_to(theorem: Theorem, known: Known, number: int, wanted: Literal | None = None, *,
            filled: Filled | None = None, most: int = MOST_WAYS, seconds: float | None = SECONDS,
            catalogue: Catalogue | None = None) -> Ways:
    """The same without `elements`: none is called ready, and earlier steps have to be whole."""
    situation = situation_at(theorem, known, number, filled)
    if situation is None:
        return Ways("", stopped=f"`{theorem.title}` has no step {number}")
    finder = Finder(Reach.of(situation.context, Clock(seconds)), known, catalogue or Catalogue())
    try:
        if wanted is not None:
            return finder.ways(finder.reach.code(wanted), False, most)
        if isinstance(situation.step, Contradiction):
            return finder.ways(None, False, most)
        is_fact = isinstance(situation.step, By)
        for literal in situation.needs:
            item = finder.reach.code(literal)
            if not finder.is_there(item, is_fact):
                return finder.ways(item, is_fact, most)
    except (Unknown, OutOfTime, RecursionError) as cause:
        return Ways("", stopped=str(cause))
    return Ways("")


class Finder:
    """Looks for ways at one place."""

    def __init__(self, reach: Reach, known: Known, catalogue: Catalogue) -> None:
        self.reach, self.page = reach, Page()
        clock = reach.closure.clock
        self.supplier = Supplier(reach, self.page, clock)
        self.applier = Applier(catalogue, known, reach, self.page, self.supplier)

    def is_there(self, item: Coded, as_fact: bool) -> bool:
        """Whether a need is met as the book stands."""
        return self.reach.has(item) if as_fact else self.supplier.is_allowed(item)

    def ways(self, item: Coded | None, as_fact: bool, most: int) -> Ways:
        """The lines without a theorem, and uses of theorems."""
        found = Ways("contradiction" if item is None else self.reach.spell(item))
        try:
            plain = self.applier.attempt(lambda: self.applier.reached(item, as_fact))
            if plain is not None:
                found.ways.append(Way(plain))
                self.applier.ways = 2  # any theorem would do for the third
            left = most - len(found.ways)
            self.applier.listed(item, lambda: self.applier.reached(item, as_fact), left)
        except OutOfTime as cause:
            found.stopped = str(cause)
        for good in self.applier.good:
            found.ways.append(Way(good.lines, "apply " + self.applier.spelled(good.use)))
        return found


def filled_before(theorem: Theorem, known: Known, number: int, clock: Clock) -> tuple[Theorem, int, list[str]]:
    """The theorem with what the steps before one lack, the number of that step in it, and these
    lines."""
    filler = ProofFiller(theorem, known, clock)
    lines = filler.run_to(number)
    put = [line.text for line in lines if not line.own]
    if not put:
        return theorem, number, []
    numbered = [source_line(at, line.text) for at, line in enumerate(lines, 1)]
    again = read_lines(numbered, known).items[0]
    assert isinstance(again, Theorem)
    step = next((step for step in theorem.steps() if step.number == number), None)
    place = next((at for at, line in enumerate(lines, 1) if step and line.own == step.line.number), 0)
    found = next((each.number for each in again.steps() if each.line.number == place), number)
    return again, found, put
