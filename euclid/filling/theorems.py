"""Earlier theorems that make nothing, as rules: what they need and what they show."""

from __future__ import annotations

from collections.abc import Iterable, Sequence
from dataclasses import dataclass, replace
from functools import cached_property

from ..codes import Pattern, SumPattern, pattern_of, sum_of
from ..literals import Diagram, Literal, Metric, Sort
from ..statements import Known, Statement


@dataclass(frozen=True, eq=False)
class Shape:
    """A theorem, over the places of its objects."""

    title: str
    number: int  # among the theorems
    sorts: tuple[Sort, ...]
    given: tuple[Pattern, ...]
    given_sums: tuple[SumPattern, ...]
    shown: tuple[Pattern, ...]
    shown_sums: tuple[SumPattern, ...]

    @cached_property
    def leads(self) -> list[Shape]:
        """The same with one of the sums that it shows behind its given ones, for each of them."""
        return [replace(self, given_sums=(*self.given_sums, pattern)) for pattern in self.shown_sums]

    @cached_property
    def denials(self) -> list[Shape]:
        """The same with the negation of one of the literals of diagrams that it shows given, for each."""
        return [replace(self, given=(*self.given, Pattern(pattern.predicate ^ 1, pattern.places)))
                for pattern in self.shown]

    @cached_property
    def at(self) -> list[tuple[list[int], list[int]]]:
        """For each place the numbers of the given literals that have it, and of the given sums."""
        return [([n for n, pattern in enumerate(self.given) if place in pattern.places],
                 [n for n, pattern in enumerate(self.given_sums) if place in places_of(pattern)])
                for place in range(len(self.sorts))]

    @cached_property
    def counts(self) -> tuple[list[int], list[int]]:
        """How many places each given literal has, and each given sum."""
        return [len(set(each.places)) for each in self.given], [len(places_of(each)) for each in self.given_sums]


@dataclass(frozen=True, slots=True)
class Use:
    """A theorem at objects. `lines` is about how many lines it takes to put it in, `open` how many
    given sums do not hold as far as is quickly seen, `twice` how many arguments are there before."""

    lines: int
    open: int
    twice: int
    shape: Shape
    objects: tuple[int, ...]

    def key(self) -> tuple[int, int, int, int, tuple[int, ...]]:
        """The plainest use comes first."""
        return self.open, self.lines, self.twice, -self.shape.number, self.objects


class Catalogue:
    """The shapes of theorems, each made once."""

    def __init__(self) -> None:
        self.known: dict[str, tuple[Statement, Shape | None]] = {}

    def shapes(self, known: Known) -> list[Shape]:
        """The theorems that make nothing, the latest first."""
        found = []
        for number, (title, statement) in enumerate(known.theorems.items()):
            kept = self.known.get(title)
            if kept is None or kept[0] is not statement or (kept[1] and kept[1].number != number):
                kept = statement, None if statement.made else shape_of(title, number, statement)
                self.known[title] = kept
            if kept[1]:
                found.append(kept[1])
        return found[::-1]


def shape_of(title: str, number: int, statement: Statement) -> Shape:
    """A theorem as a rule."""
    variables = [name for name, _ in statement.declared]
    sorts = tuple(sort for _, sort in statement.declared)
    return Shape(title, number, sorts, *split(statement.given, variables, sorts),
                 *split(statement.shown, variables, sorts))


def split(literals: Iterable[Literal], variables: Sequence[str],
          sorts: Sequence[Sort]) -> tuple[tuple[Pattern, ...], tuple[SumPattern, ...]]:
    """The literals of diagrams and those of magnitudes, over the places of the variables."""
    literals = list(literals)
    return (tuple(pattern_of(each, variables, sorts) for each in literals if isinstance(each, Diagram)),
            tuple(sum_of(each, variables) for each in literals if isinstance(each, Metric)))


def places_of(pattern: SumPattern) -> frozenset[int]:
    """The places that a sum has."""
    return frozenset(place for _, _, points in pattern.monomials for place in points)
