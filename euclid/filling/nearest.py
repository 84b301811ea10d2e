"""What comes nearest to a literal that cannot be had: rules of which one premise is missing."""

from __future__ import annotations

from collections.abc import Iterator
from itertools import islice
from typing import NamedTuple

from ..clock import Clock
from ..codes import SIGN, Clause, Coded, Comparison, Pattern, SumPattern, clauses, coded, sum_at
from ..literals import Sort
from ..reach import Reach
from ..transfers import Bound, Transfer, matches, placed_at, transfer_rules

MOST_SEEN, MOST_TOLD = 60, 3


class Near(NamedTuple):
    """A rule at objects that gives the literal but for one premise; about how many lines the others
    take."""

    lines: int
    rule: str
    names: list[str]
    lacks: Coded

    def key(self) -> tuple[int, int, str, list[str]]:
        """The plainest comes first: few names twice, then few lines."""
        return len(self.names) - len(set(self.names)), self.lines, self.rule, self.names


def nearest(item: Coded | None, reach: Reach, clock: Clock) -> list[str]:
    """The nearest ways, in words, the plainest first."""
    if item is None:
        return []
    reach.closure.saturate()
    found: dict[Coded, Near] = {}
    for near in near_ways(item, reach, clock):
        kept = found.get(near.lacks)
        if near.lacks != item and (kept is None or near.key() < kept.key()):
            found[near.lacks] = near
    best = sorted(found.values(), key=Near.key)
    return [f"`{' '.join([near.rule, *near.names])}` would give it, with `{reach.spell(near.lacks)}`"
            for near in best[:MOST_TOLD]]


def near_ways(item: Coded, reach: Reach, clock: Clock) -> Iterator[Near]:
    """Each rule with one premise missing, some of each."""
    rules: list[Clause | Transfer] = [*clauses(), *transfer_rules()]
    for rule in rules:
        clock.check()
        yield from islice(RuleNear(rule, item, reach).ways(), MOST_SEEN)


class RuleNear:
    """One rule, and a literal that it may give."""

    def __init__(self, rule: Clause | Transfer, item: Coded, reach: Reach) -> None:
        self.rule, self.item, self.reach, self.closure = rule, item, reach, reach.closure
        self.sums: tuple[SumPattern, ...] = rule.sums if isinstance(rule, Transfer) else ()

    def ways(self) -> Iterator[Near]:
        """The instances in which one premise is missing."""
        for bound, start in self.starts():
            patterns = [pattern for pattern in self.rule.patterns if pattern is not start]
            sums = [pattern for pattern in self.sums if pattern is not start]
            for lacking in patterns:
                rest = [pattern for pattern in patterns if pattern is not lacking]
                for full in self.solutions(rest, bound):
                    code = coded(lacking, full) ^ SIGN
                    if not self.closure.knows(code) and not self.closure.knows(code ^ SIGN) and self.hold(sums, full):
                        yield self.near(rest, full, code)
            for each in sums:
                others = [pattern for pattern in sums if pattern is not each]
                for full in self.solutions(patterns, bound):
                    item = sum_at(each, full).negation()
                    if item.form and self.is_open(item) and self.hold(others, full):
                        yield self.near(patterns, full, item)

    def starts(self) -> Iterator[tuple[Bound, Pattern | SumPattern]]:
        """The literals of the rule that are the wanted one, with their objects."""
        if isinstance(self.item, Comparison):
            for each in self.sums:
                for bound in matches(each, self.item):
                    yield bound, each
            return
        for pattern in self.rule.patterns:
            found = placed_at(pattern, self.item)
            if found is not None:
                yield found, pattern

    def is_open(self, item: Comparison) -> bool:
        """Whether neither a literal of magnitudes nor its negation follows."""
        return not self.reach.will_follow(item) and not self.reach.will_follow(item.negation())

    def hold(self, sums: list[SumPattern], full: Bound) -> bool:
        """Whether the other premises of magnitudes follow."""
        return all(self.reach.will_follow(sum_at(pattern, full).negation()) for pattern in sums)

    def near(self, patterns: list[Pattern], full: Bound, lacks: Coded) -> Near:
        """The instance at these objects."""
        codes = [coded(pattern, full) ^ SIGN for pattern in patterns]
        scope = self.reach.scope
        names = [scope.names[sort][full[place]] for place, sort in enumerate(self.rule.sorts)]
        return Near(self.closure.lines_of(codes), self.rule.name, names, lacks)

    def solutions(self, patterns: list[Pattern], bound: Bound) -> Iterator[Bound]:
        """The objects with which these literals are known not to hold; each variable has to be in
        one of them, or bound."""
        done = [pattern for pattern in patterns if bound.keys() >= set(pattern.places)]
        if not all(self.closure.knows(coded(pattern, bound) ^ SIGN) for pattern in done):
            return
        if len(bound) == len(self.rule.sorts):
            yield bound
            return
        open_ones = [pattern for pattern in patterns if not bound.keys() >= set(pattern.places)]
        if not open_ones:
            return
        place = self.next_place(open_ones, bound)
        objects = self.domain(place, self.rule.sorts[place], open_ones, bound)
        while objects:
            number = (objects & -objects).bit_length() - 1
            objects &= objects - 1
            yield from self.solutions(patterns, {**bound, place: number})

    def next_place(self, patterns: list[Pattern], bound: Bound) -> int:
        """An open place of the literal with the fewest of them."""
        places = min(({place for place in pattern.places if place not in bound} for pattern in patterns), key=len)
        return min(places)

    def domain(self, place: int, sort: Sort, patterns: list[Pattern], bound: Bound) -> int:
        """The objects that may stand at a place."""
        objects = self.closure.objects[sort]
        for pattern in patterns:
            if place in pattern.places and bound.keys() >= set(pattern.places) - {place}:
                at = pattern.places.index(place)
                others = [bound[other] for i, other in enumerate(pattern.places) if i != at]
                objects &= self.closure.beside(pattern.predicate ^ 1, at, others)
        return objects
