"""Puts in one use of an earlier theorem with which a literal that a step needs is found.

At most twelve candidates are tried; the fewest lines win, then no argument twice, then the later
theorem. A use stands before the outermost block that it can.
"""

from __future__ import annotations

from collections.abc import Callable, Iterable
from dataclasses import dataclass
from functools import partial

from ..codes import Coded, Comparison, coded, encode, sum_at
from ..magnitudes import follows
from ..reach import POINTS_EQUAL, Reach
from ..statements import Known
from .candidates import EFFORTS, Candidates, mirrored
from .page import Page
from .supply import HARVESTS, Supplier
from .theorems import Catalogue, Use

MOST_TRIED, MOST_GOOD = 12, 5  # uses that are tried, and good ones among which one is chosen
MOST_TRIED_OPEN, MOST_LISTED = 4, 30
MOST_CHAINS = 4  # chains of sums for what uses need, where one was good already
Reached = Callable[[], bool]
Place = tuple[int, Coded | None]  # a step, and what it needs


@dataclass(frozen=True)
class Good:
    """A use with which a literal is reached, and the lines that it takes."""

    use: Use
    lines: list[str]

    def key(self) -> tuple[int, int, int, tuple[int, ...]]:
        """The fewest lines come first."""
        _, _, twice, number, objects = self.use.key()
        return len(self.lines), twice, number, objects


class Applier:
    """Looks for uses at the place where a proof is, and puts them in."""

    def __init__(self, catalogue: Catalogue, known: Known, reach: Reach, page: Page, supplier: Supplier) -> None:
        self.reach, self.page, self.supplier = reach, page, supplier
        self.closure = reach.closure
        self.candidates = Candidates(catalogue, known, reach, supplier)
        self.written: list[str] = []  # the lines that were put in
        self.at: Place | None = None  # where one was needed first
        self.first: Use | None = None  # the use to put in there
        self.others: list[Use] = []  # those that would have done there
        self.good: list[Good] = []  # what was found at the last place
        self.ways = 3  # how many ways are tried
        self.way = self.from_way = 0  # the way that was successful; the first one to be tried

    def need(self, place: Place, as_fact: bool = False) -> bool:
        """Makes a literal allowed, or for None the facts absurd, by one theorem."""
        reached = partial(self.reached, place[1], as_fact)
        if self.written:
            uses = self.uses(place[1], reached)[:1]
        elif self.first is None:
            uses = self.uses(place[1], reached)
            self.at, self.from_way = place, 0
            self.first, self.others = (uses[0], uses[1:]) if uses else (None, [])
        else:
            uses = [self.first]
        return bool(uses) and self.put(uses[0]) and reached()

    def uses(self, item: Coded | None, reached: Reached) -> list[Use]:
        """The best uses, found with all that magnitudes may say of the diagram."""
        self.with_all(lambda: self.find(item, reached))
        return [each.use for each in self.good]

    def with_all(self, find: Callable[[], None]) -> None:
        """Looks for uses with all that magnitudes may say of the diagram; they are not put in."""
        def action() -> bool:
            for _ in range(HARVESTS):
                if not self.supplier.harvest_all() | self.supplier.harvest():
                    break
            self.candidates.start()
            self.supplier.is_deep = False
            find()
            return False

        self.good = []
        try:
            self.supplier.tried(action)
        finally:
            self.supplier.is_deep = True

    def reached(self, item: Coded | None, as_fact: bool) -> bool:
        """Makes it allowed without a theorem."""
        if item is None:
            return self.supplier.contradiction()
        return self.supplier.fact(item) if as_fact else self.supplier.need(item)

    def find(self, item: Coded | None, reached: Reached) -> None:
        """The uses with which it is reached, those of the fewest lines first: all of the first way that
        has any."""
        found = self.candidates
        seen: dict[Use, None] = {}
        for effort in range(len(EFFORTS)):
            found.begin(effort)
            for number in range(self.from_way, self.ways):
                uses = [use for use in found.by_way(number, item) if use not in seen]
                seen |= dict.fromkeys(uses)
                self.try_all((use for use in uses if not use.open), reached, MOST_GOOD)
                if self.good:
                    self.way = number
                    return
            if found.gave_up or not found.cut:
                break
        self.supplier.is_deep = True
        for is_open in (True, False):
            if not self.good:
                self.try_all((use for use in seen if bool(use.open) == is_open), reached, 1, MOST_TRIED_OPEN)

    def listed(self, item: Coded | None, reached: Reached, most: int) -> None:
        """Uses by all ways with which it is reached, up to so many, the plainest first; of those of one
        theorem at the same objects only the plainest, where there are others."""
        def find() -> None:
            found = self.candidates
            for effort in range(len(EFFORTS)):
                found.begin(effort)
                ways = [found.by_way(number, item) for number in range(self.ways)]
                place = {use: -number for number, uses in enumerate(reversed(ways)) for use in uses}
                self.try_list(sorted(place, key=lambda use: (use.open, use.lines, place[use], use.key())), reached, most)
                if self.good or found.gave_up or not found.cut:
                    break

        self.with_all(find)
        self.good.sort(key=Good.key)

    def try_list(self, uses: list[Use], reached: Reached, most: int) -> None:
        """Adds those of some candidates, in this order but for more at the same objects."""
        firsts: dict[tuple[object, ...], Use] = {}
        for use in uses:
            firsts.setdefault((use.shape.title, frozenset(zip(use.shape.sorts, use.objects))), use)
        others, chains = set(uses) - set(firsts.values()), self.supplier.chains
        chosen = [*firsts.values(), *(use for use in uses if use in others)]
        is_sure = [use for use in chosen if not use.open][:MOST_LISTED]
        for use in is_sure + [use for use in chosen if use.open][:MOST_TRIED_OPEN]:
            if self.good and (use.open or self.supplier.chains - chains > 2 * MOST_CHAINS):
                return
            lines = self.attempt(lambda: self.put(use) and reached())
            if lines is not None:
                self.good.append(Good(use, lines))
                if len(self.good) >= most:
                    return

    def try_all(self, uses: Iterable[Use], reached: Reached, most: int, most_tried: int = MOST_TRIED) -> None:
        """Adds those of some candidates with which it is reached, up to so many in all. Of those that
        show the same by one theorem only the plainest is tried."""
        start, chains = len(self.good), self.supplier.chains
        for use in ideas(uses)[: max(most_tried, 2 * (most - start))]:
            if self.good and self.supplier.chains - chains > MOST_CHAINS:
                break
            lines = self.attempt(lambda: self.put(use) and reached())
            if lines is not None:
                self.good.append(Good(use, lines))
                if len(self.good) >= most:
                    break
        self.good[start:] = sorted(self.good[start:], key=Good.key)

    def put(self, use: Use) -> bool:
        """Writes the use with the lines that it needs."""
        shape, objects = use.shape, use.objects
        for pattern in shape.given:
            if not self.supplier.need(coded(pattern, objects)):
                return False
        for each in shape.given_sums:
            item = sum_at(each, objects)
            if not (self.supplier.is_allowed(item) or self.supplier.need_metric(item)):
                return False
        text = "apply " + self.spelled(use)
        level = self.level(use)
        self.page.put(text, level)
        self.written.append(text)
        for pattern in shape.shown:
            self.reach.add(coded(pattern, objects), level)
        for each in shape.shown_sums:
            self.reach.add(sum_at(each, objects), level)
        return True

    def level(self, use: Use) -> int:
        """The level of the block before which a use may stand whose given literals are allowed."""
        shape, objects = use.shape, use.objects
        facts = self.closure.facts
        level = max((self.closure.births[pair] for pair in zip(shape.sorts, objects)), default=0)
        for pattern in shape.given:
            level = max(level, facts.get(coded(pattern, objects), self.closure.level))
        for each in shape.given_sums:
            item = sum_at(each, objects)
            while level < self.closure.level and not self.follows_at(item, level):
                level += 1
        return level

    def follows_at(self, item: Comparison, level: int) -> bool:
        """Whether a sum follows from the metric facts before the block inside one of a level."""
        def apart(a: int, b: int) -> bool:
            codes = encode(POINTS_EQUAL, False, (a, b)), encode(POINTS_EQUAL, False, (b, a))
            return any(self.closure.facts.get(code, level + 1) <= level for code in codes)

        facts = [fact for fact, born in self.reach.metric.items() if born <= level]
        return follows(item, facts, apart)

    def spelled(self, use: Use) -> str:
        """The title and the names."""
        names = self.reach.scope.names
        return " ".join([use.shape.title, *(names[sort][number] for sort, number
                                            in zip(use.shape.sorts, use.objects))])

    def attempt(self, action: Callable[[], bool]) -> list[str] | None:
        """The lines that an action writes, or None where it fails; all is undone."""
        written = len(self.written)
        try:
            return self.supplier.tried(action)
        finally:
            del self.written[written:]


def ideas(uses: Iterable[Use]) -> list[Use]:
    """The plainest of the uses that show the same by one theorem, the plainest of all first."""
    found: dict[tuple[object, ...], Use] = {}
    for use in sorted(set(uses), key=Use.key):
        found.setdefault(idea(use), use)
    return list(found.values())


def idea(use: Use) -> tuple[object, ...]:
    """A theorem and what it shows: the same for its objects in another order."""
    shape = use.shape
    diagram = {min(mirrored(coded(pattern, use.objects))) for pattern in shape.shown}
    return shape.title, frozenset(diagram), frozenset(sum_at(pattern, use.objects) for pattern in shape.shown_sums)
