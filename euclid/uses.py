"""Which earlier theorems may be applied before a step: at what objects, what each lacks and what it shows.

Theorems of any number of objects are looked at, also those that make some. What is said here is a
help: a line is ready where `elements` accepted it (scratch.py). All limits count work, but for the
clock, after which what was found so far is all.
"""

from __future__ import annotations

from collections.abc import Iterable, Iterator, Sequence
from dataclasses import dataclass
from itertools import islice

from .clock import OutOfTime
from .codes import Coded, Comparison, coded, sum_at
from .contexts import turned
from .filling.candidates import Candidates, TooMuch, shown_as
from .filling.page import Page
from .filling.supply import Supplier
from .filling.theorems import Catalogue, Shape, split
from .literals import Literal, Sort, is_same, names_in, spell
from .reach import Reach
from .statements import Known, Statement
from .syntax import is_name
from .transfers import Bound
from .ways import Search, is_hopeless

NODES, SHARE, WORK = 700, 3000, 400_000  # for one join, for one theorem, for all of them
MOST_OF_THEOREM = 40  # uses of one theorem
NEAR_NODES = 400
MOST_NEAR_OF_THEOREM = 6
MOST_UNKNOWN = 3  # of the given literals, where nothing lacks less than two


@dataclass(frozen=True)
class Use:
    """A theorem at objects before a step."""

    line: str
    title: str
    number: int  # among the theorems
    lacks: tuple[Literal, ...]  # given literals that are no facts and are not quickly seen to hold
    unknown: tuple[Literal, ...]  # those of them that the diagram does not show, as far as is known
    lines: int  # about how many lines it takes until the others are facts
    shows: tuple[Literal, ...]
    new: int  # how many of these are no facts
    twice: int  # how many arguments are there before
    reaches: bool  # whether it shows something that is wanted

    def key(self) -> tuple[int, bool, int, int, int, str]:
        """The most useful one comes first, degenerate ones last."""
        return (len(self.unknown), bool(self.twice), 0 if self.reaches else 1, self.lines, -self.number, self.line)


@dataclass(frozen=True)
class Entry:
    """An earlier theorem with its given literals as patterns."""

    shape: Shape
    statement: Statement


class Finder:
    """Looks for uses before one step."""

    def __init__(self, reach: Reach, known: Known, wanted: Sequence[Literal]) -> None:
        self.reach, self.known = reach, known
        self.wanted_codes = {reach.code(each) for literal in wanted if self.is_here(literal)
                             for each in [literal, *turned(literal)]}
        self.supplier = Supplier(reach, Page(), reach.closure.clock)
        self.candidates = Candidates(Catalogue(), known, reach, self.supplier)
        self.entries = [Entry(shape_of(title, number, statement), statement)
                        for number, (title, statement) in enumerate(known.theorems.items())]
        self.is_whole = True  # whether nothing was cut short

    def all(self, titles: Sequence[str] = ()) -> list[Use]:
        """What may be applied, what lacks something last; perhaps of these theorems alone."""
        entries = [entry for entry in reversed(self.entries) if not titles or entry.shape.title in titles]
        return self.gathered((entry, [{}]) for entry in entries)

    def showing(self, literal: Literal) -> list[Use]:
        """The uses that show a literal, or one that says the same."""
        same = [literal, *turned(literal)]
        codes = [self.reach.code(each) for each in same]
        uses = self.gathered((entry, [bound for code in codes for bound in shown_at(entry, code)])
                             for entry in reversed(self.entries))
        return [use for use in uses if not any(is_same(each, one) for each in use.unknown for one in same)]

    def gathered(self, starts: Iterable[tuple[Entry, list[Bound]]]) -> list[Use]:
        """The uses with these objects at their places."""
        found: dict[str, Use] = {}
        pairs = [(entry, bounds) for entry, bounds in starts if bounds]
        for gather in (self.whole, self.near):
            self.begin()
            try:
                for entry, bounds in pairs:
                    for use in gather(entry, bounds):
                        found.setdefault(use.line, use)
            except (OutOfTime, TooMuch):
                self.is_whole = False
        uses = sorted((use for use in found.values() if use.new), key=Use.key)
        return [use for use in uses if len(use.unknown) <= 1] or [use for use in uses if len(use.unknown) <= MOST_UNKNOWN]

    def begin(self) -> None:
        """Begins a search."""
        self.candidates.start()
        self.candidates.nodes, self.candidates.share, self.candidates.work = NODES, SHARE, WORK

    def whole(self, entry: Entry, bounds: list[Bound]) -> Iterator[Use]:
        """The uses whose given literals the diagram shows, and whose sums hold, but for one."""
        uses = self.candidates.uses(entry.shape, bounds)
        for use in islice(uses, MOST_OF_THEOREM):
            yield self.use(entry, use.objects)
        self.is_whole &= next(uses, None) is None and not self.candidates.cut

    def near(self, entry: Entry, bounds: list[Bound]) -> Iterator[Use]:
        """The uses that lack one literal of the diagram that does not follow."""
        count = 0
        for bound in bounds:
            self.supplier.clock.check()
            search = Search(self.reach, entry.shape.sorts, entry.shape.given, 1, NEAR_NODES)
            for objects in search.solutions(bound):
                use = self.use(entry, objects)
                if not any(is_hopeless(each, each) for each in use.unknown):
                    yield use
                    count += 1
                if count >= MOST_NEAR_OF_THEOREM:
                    return

    def use(self, entry: Entry, objects: tuple[int, ...]) -> Use:
        """The theorem at these objects."""
        shape, statement = entry.shape, entry.statement
        needs: list[Coded] = [coded(pattern, objects) for pattern in shape.given]
        needs += [sum_at(pattern, objects) for pattern in shape.given_sums]
        lacking = [item for item in dict.fromkeys(needs) if not self.is_there(item)]
        unknown = [item for item in lacking if isinstance(item, Comparison) or not self.reach.closure.knows(item)]
        names = [self.reach.scope.names[sort][number] for sort, number in zip(shape.sorts, objects)]
        made = fresh_names(statement, self.reach.scope.sorts)
        shows = statement.gives_at(names, made)
        new = [each for each in shows if not self.is_old(each)]
        line = " ".join(["apply", shape.title, *names, *(["as", *made] if made else [])])
        cost = sum(self.reach.closure.costs[item] for item in lacking if isinstance(item, int) and item not in unknown)
        return Use(line, shape.title, shape.number, tuple(map(self.reach.literal, lacking)),
                   tuple(map(self.reach.literal, unknown)), cost, tuple(shows), len(new),
                   len(objects) - len(set(zip(shape.sorts, objects))), self.is_wanted(shows))

    def is_there(self, item: Coded) -> bool:
        """Whether a given literal is allowed here, as far as is quickly seen."""
        if self.reach.has(item) or self.supplier.is_turned_fact(item):
            return True
        return isinstance(item, Comparison) and self.candidates.holds(item)

    def is_old(self, literal: Literal) -> bool:
        """Whether a literal that is shown is known here anyway."""
        if not self.is_here(literal):
            return False
        item = self.reach.code(literal)
        if isinstance(item, Comparison):
            return self.reach.has(item) or not item.form
        return self.reach.closure.knows(item)

    def is_wanted(self, shows: Iterable[Literal]) -> bool:
        """Whether one of these literals is wanted."""
        return any(self.reach.code(each) in self.wanted_codes for each in shows if self.is_here(each))

    def is_here(self, literal: Literal) -> bool:
        """Whether its objects are in scope."""
        return all(name in self.reach.scope.sorts for name in names_in(literal))


def shape_of(title: str, number: int, statement: Statement) -> Shape:
    """A theorem as a pattern: what it shows of its declared objects alone."""
    variables = [name for name, _ in statement.declared]
    sorts = tuple(sort for _, sort in statement.declared)
    own = [each for each in statement.shown if set(names_in(each)) <= set(variables)]
    return Shape(title, number, sorts, *split(statement.given, variables, sorts), *split(own, variables, sorts))


def shown_at(entry: Entry, code: Coded) -> Iterator[Bound]:
    """Objects with which a theorem shows a literal."""
    return shown_as(entry.shape, code)


def fresh_names(statement: Statement, sorts: dict[str, Sort]) -> list[str]:
    """Names for what a theorem makes: its own where they are free."""
    found: list[str] = []
    for name, _ in statement.made:
        choices = [name, *(f"{name}{number}" for number in range(1, 100)), *(f"x{number}" for number in range(1, 400))]
        found.append(next(each for each in choices if is_name(each) and each not in sorts and each not in found))
    return found


def spelled(literals: Iterable[Literal]) -> str:
    """Literals with `;` between them."""
    return " ; ".join(map(spell, literals))
