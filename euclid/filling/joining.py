"""The objects of a theorem with which its given literals hold: a join with a look ahead."""

from __future__ import annotations

from collections.abc import Callable, Iterator
from dataclasses import dataclass

from ..closure import Closure
from ..codes import Comparison, coded, quantity, sum_at
from ..magnitudes import Form
from ..transfers import Bound
from .theorems import Shape
from .ties import Ties

NOBODY = 64  # stands at no place
FREE = -1  # at a place that is not bound
MOST_POINTS = 3  # of one term
Choice = list[tuple[int, int]]  # places, each with an object
Monomial = tuple[int, int, tuple[int, ...]]


class Undo:
    """What binding a place has changed."""

    def __init__(self, place: int, is_open: int) -> None:
        self.place, self.open = place, is_open
        self.domains: list[tuple[int, int]] = []


@dataclass
class Lead:
    """What is asked of the last given sum of a shape, which is one that the theorem shows: whether it
    may give what is wanted; and the terms that are equal where it is true, if it has to be an equation."""

    may_give: Callable[[Comparison], bool]
    ties: Ties | None = None


class Join:
    """The objects of a theorem with which its given literals hold. Where all places but one of a
    literal of diagrams are bound, the objects that may stand there are cut down at once."""

    def __init__(self, shape: Shape, closure: Closure, ties: Ties, holds: Callable[[Comparison], bool], nodes: int,
                 most_open: int, lead: Lead | None = None) -> None:
        self.shape, self.closure, self.ties, self.holds = shape, closure, ties, holds
        self.lead = lead
        self.led = len(shape.given_sums) - 1 if lead else -1
        self.nodes, self.most_open, self.open = nodes, most_open, 0
        self.bound = [FREE] * len(shape.sorts)
        self.domains = [self.closure.objects[sort] for sort in shape.sorts]
        self.left, self.left_sums = list(shape.counts[0]), list(shape.counts[1])

    def solutions(self, bound: Bound) -> Iterator[tuple[tuple[int, ...], int]]:
        """All objects with these at their places; and how many given sums do not hold."""
        if all(self.bind(place, number, []) for place, number in bound.items()):
            yield from self.rest()

    def rest(self) -> Iterator[tuple[tuple[int, ...], int]]:
        """All ways to bind the places that are open."""
        if self.nodes < 0:
            return
        place, cost = self.narrowest()
        if place is None:
            yield tuple(self.bound), self.open
            return
        for choice in (cost > 3 and self.tied(cost)) or self.choices(place):
            undone: list[Undo] = []
            if all(self.put(*pair, undone) for pair in choice):
                yield from self.rest()
            self.undo(undone)

    def choices(self, place: int) -> Iterator[Choice]:
        """Each object for one place."""
        objects = self.domains[place]
        while objects:
            yield [(place, (objects & -objects).bit_length() - 1)]
            objects &= objects - 1

    def put(self, place: int, number: int, undone: list[Undo]) -> bool:
        """Puts an object at a place that may be bound; false where that is impossible."""
        if self.bound[place] != FREE:
            return self.bound[place] == number
        return self.bind(place, number, undone)

    def tied(self, most: float) -> list[Choice]:
        """The ways to put a term for the only one of a given equation that is not bound, if they are
        fewer than so many for each place."""
        best: list[Choice] = []
        for index, pattern in enumerate(self.shape.given_sums):
            ties = self.ties if index != self.led or not self.lead else self.lead.ties
            if ties is None or not 0 < self.left_sums[index] <= MOST_POINTS or pattern.says != "=":
                continue
            opened = [each for each in pattern.monomials if any(self.bound[place] == FREE for place in each[2])]
            if len(opened) == 1:
                free = {place for place in opened[0][2] if self.bound[place] == FREE}
                ways = self.ways(opened[0], [each for each in pattern.monomials if each is not opened[0]], ties)
                if len(ways) < most ** len(free) and (not best or len(ways) < len(best)):
                    best = ways or [[(opened[0][2][0], NOBODY)]]
        return best

    def ways(self, other: Monomial, bound: list[Monomial], ties: Ties) -> list[Choice]:
        """The ways to put a term at one monomial, where the others are bound."""
        form: Form = {}
        for c, word, places in bound:
            part = quantity(word, [self.bound[place] for place in places])
            form[part] = form.get(part, 0) + (c if other[0] < 0 else -c)
        form, places = {part: c for part, c in form.items() if c}, other[2]
        fixed = [(n, self.bound[place]) for n, place in enumerate(places) if self.bound[place] != FREE]
        return [list(zip(places, points)) for points in ties.points_of(form, other[1])
                if all(points[n] == number for n, number in fixed)]

    def bind(self, place: int, number: int, undone: list[Undo]) -> bool:
        """Puts an object at a place; false where a given literal fails then."""
        self.nodes -= 1
        undo = Undo(place, self.open)
        undone.append(undo)
        self.bound[place] = number
        given, sums = self.shape.at[place]
        for index in given:
            self.left[index] -= 1
        for index in sums:
            self.left_sums[index] -= 1
        if number == NOBODY or not self.domains[place] >> number & 1:
            return False
        for index in given:
            if self.left[index] < 2 and not self.may_hold(index, undo):
                return False
        for index in sums:
            if self.left_sums[index] == 0 and not self.may_be(index):
                return False
        return True

    def may_hold(self, index: int, undo: Undo) -> bool:
        """Whether a given literal of the diagram, with at most one open place, may still hold; cuts
        down what that place may have."""
        pattern, bound = self.shape.given[index], self.bound
        if self.left[index] == 0:
            return self.closure.knows(coded(pattern, bound))
        target = at = -1
        key = 0
        for n, place in enumerate(pattern.places):
            if bound[place] != FREE:
                key = key << 6 | bound[place]
            elif at >= 0:
                return True
            else:
                target, at = place, n
        old = self.domains[target]
        new = old & self.closure.places[pattern.predicate][at][key]
        if new != old:
            undo.domains.append((target, old))
            self.domains[target] = new
        return bool(new)

    def may_be(self, index: int) -> bool:
        """Whether a given sum holds all of whose places are bound, or not too many do not."""
        pattern = self.shape.given_sums[index]
        if index == self.led and self.lead:
            return self.lead.may_give(sum_at(pattern, self.bound))
        if self.holds(sum_at(pattern, self.bound)):
            return True
        self.open += 1
        return self.open <= self.most_open

    def undo(self, undone: list[Undo]) -> None:
        """Takes back what was bound."""
        for each in reversed(undone):
            for target, old in reversed(each.domains):
                self.domains[target] = old
            self.open, self.bound[each.place] = each.open, FREE
            given, sums = self.shape.at[each.place]
            for index in given:
                self.left[index] += 1
            for index in sums:
                self.left_sums[index] += 1

    def narrowest(self) -> tuple[int | None, float]:
        """The place to bind next, and about how many objects it may have."""
        best, best_cost = None, 1e9
        for place, domain in enumerate(self.domains):
            if self.bound[place] != FREE:
                continue
            given, sums = self.shape.at[place]
            cost = float(domain.bit_count())
            if cost > 2:
                for index in sums:
                    if self.left_sums[index] == 1:
                        cost = 1.5 + cost / 4
                        break
            cost -= 0.01 * len(given)
            if cost < best_cost:
                best, best_cost = place, cost
        return best, best_cost
