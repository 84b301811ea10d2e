"""The objects for the blanks of an `apply` line."""

from __future__ import annotations

from collections.abc import Callable, Iterator
from itertools import islice

from ..codes import Coded, Pattern, SumPattern, coded, sum_at
from ..contexts import BLANK
from ..reach import Reach
from ..statements import Statement
from ..transfers import Bound
from .theorems import places_of, split

Judge = Callable[[Coded], bool]


def match(used: Statement, arguments: list[str], reach: Reach, may: Judge, most: int = 1) -> list[list[str]]:
    """The arguments with the least choices for the blanks of which each given literal is judged
    good, up to so many."""
    return list(islice(Matcher(used, arguments, reach, may).matches(), most))


class Matcher:
    """Goes through the choices in order, as `elements` does."""

    def __init__(self, used: Statement, arguments: list[str], reach: Reach, may: Judge) -> None:
        self.arguments, self.reach, self.may = arguments, reach, may
        self.sorts = [sort for _, sort in used.declared]
        given, sums = split(used.given, [name for name, _ in used.declared], self.sorts)
        self.given: list[tuple[Pattern | SumPattern, frozenset[int]]] = []
        self.given += [(pattern, frozenset(pattern.places)) for pattern in given]
        self.given += [(pattern, places_of(pattern)) for pattern in sums]
        self.blanks = [place for place, name in enumerate(arguments) if name == BLANK]

    def matches(self) -> Iterator[list[str]]:
        """The arguments without blanks."""
        bound = {place: self.reach.scope.numbers[name] for place, name in enumerate(self.arguments) if name != BLANK}
        for found in self.rest(self.blanks, bound):
            yield [self.reach.scope.names[sort][found[place]] for place, sort in enumerate(self.sorts)]

    def rest(self, blanks: list[int], bound: Bound) -> Iterator[Bound]:
        """The choices for the blanks that are left."""
        if not blanks:
            yield bound
            return
        place, *later = blanks
        ready = [pattern for pattern, places in self.given if place in places <= bound.keys() | {place}]
        for number in range(len(self.reach.scope.names[self.sorts[place]])):
            tried = {**bound, place: number}
            if all(self.may(item_at(pattern, tried)) for pattern in ready):
                yield from self.rest(later, tried)


def item_at(pattern: Pattern | SumPattern, bound: Bound) -> Coded:
    """A literal of a theorem at these objects."""
    return coded(pattern, bound) if isinstance(pattern, Pattern) else sum_at(pattern, bound)
