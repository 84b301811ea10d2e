"""Objects for the arguments of an `apply` step that is refused: the choices that come nearest."""

from __future__ import annotations

from collections.abc import Callable, Iterator
from dataclasses import dataclass
from itertools import permutations, product

from .clock import Clock, OutOfTime
from .codes import Coded, Pattern, SumPattern, coded, decode, encode, sum_at, turned_round
from .contexts import BLANK
from .filling.theorems import places_of, split
from .literals import Literal
from .reach import POINTS_EQUAL, Reach
from .script import Apply
from .statements import Statement
from .transfers import Bound, joined

Judge = Callable[[Coded], bool]
MOST_CHOICES = 3
MOST_MOVED = 3  # arguments that are exchanged


@dataclass
class Choice:
    """Arguments, blanks where no object was found, and the first given literal that is not allowed."""

    arguments: list[str]
    lacks: Literal | None  # none where all are allowed
    at: int  # the number of that given literal, from 1

    def is_whole(self) -> bool:
        """Whether it has no blanks."""
        return BLANK not in self.arguments


class Chooser:
    """Goes through the given literals of a theorem in order, with the facts that may be meant."""

    def __init__(self, step: Apply, used: Statement, reach: Reach, may: Judge, clock: Clock) -> None:
        self.step, self.used, self.reach, self.may, self.clock = step, used, reach, may, clock
        self.names = [name for name, _ in used.declared]
        self.sorts = [sort for _, sort in used.declared]
        self.given = [self.pattern(literal) for literal in used.given]
        self.best: list[tuple[int, Bound]] = []

    def pattern(self, literal: Literal) -> Pattern | SumPattern:
        """A given literal over the places of the arguments."""
        diagram, metric = split([literal], self.names, self.sorts)
        return diagram[0] if diagram else metric[0]

    def nearest(self) -> list[Choice]:
        """The choices for the blanks that fail at the latest given literal."""
        numbers = self.reach.scope.numbers
        bound = {place: numbers[name] for place, name in enumerate(self.step.arguments) if name != BLANK}
        try:
            self.go(0, bound)
        except OutOfTime:
            pass
        latest = max((depth for depth, _ in self.best), default=0)
        found = [self.choice(depth, bound) for depth, bound in self.best if depth == latest]
        found.sort(key=lambda each: (not each.is_whole(), len(each.arguments) - len(set(each.arguments))))
        return list({tuple(each.arguments): each for each in found}.values())[:MOST_CHOICES]

    def go(self, depth: int, bound: Bound) -> None:
        """From one given literal on."""
        self.clock.check()
        if depth == len(self.given):
            self.best.append((depth, bound))
            return
        extended = False
        for more in self.extensions(self.given[depth], bound):
            extended = True
            self.go(depth + 1, more)
        if not extended and depth >= max((each for each, _ in self.best), default=0):
            others = list(self.turned(self.given[depth], bound))
            self.best += [(depth, more) for more in others or [bound]]

    def extensions(self, pattern: Pattern | SumPattern, bound: Bound) -> Iterator[Bound]:
        """The objects with which a given literal may be allowed."""
        places = frozenset(pattern.places) if isinstance(pattern, Pattern) else places_of(pattern)
        left = [place for place in places if place not in bound]
        if not left:
            if self.may(item_at(pattern, bound)):
                yield bound
        elif isinstance(pattern, Pattern):
            for code in self.facts_like(pattern.predicate):
                more = joined(bound, pattern.places, decode(code)[2])
                if more is not None:
                    yield more
        else:
            for numbers in product(*(range(len(self.reach.scope.names[self.sorts[place]])) for place in left)):
                self.clock.check()
                more = bound | dict(zip(left, numbers))
                if self.may(sum_at(pattern, more)):
                    yield more

    def turned(self, pattern: Pattern | SumPattern, bound: Bound) -> Iterator[Bound]:
        """The objects with which the fact is there the other way round."""
        if not isinstance(pattern, Pattern):
            return
        for code in self.facts_like(pattern.predicate):
            for other in turned_round(code):
                more = joined(bound, pattern.places, decode(other)[2])
                if more is not None:
                    yield more

    def facts_like(self, predicate: int) -> list[int]:
        """The facts of a predicate; that two points differ is taken in both orders."""
        found = [code for code in self.reach.closure.facts if code >> 18 == predicate]
        if predicate == encode(POINTS_EQUAL, False, (0, 0)) >> 18:
            found += [encode(POINTS_EQUAL, False, decode(code)[2][::-1]) for code in found]
        return list(dict.fromkeys(found))

    def choice(self, depth: int, bound: Bound) -> Choice:
        """A choice with what it lacks."""
        names = self.reach.scope.names
        arguments = [names[sort][bound[place]] if place in bound else BLANK for place, sort in enumerate(self.sorts)]
        whole = depth < len(self.given) and BLANK not in arguments
        lacks = self.used.needs_at(arguments)[depth] if whole else None
        return Choice(arguments, lacks, depth + 1)

    def reordered(self) -> Iterator[list[str]]:
        """The arguments with two or three of them exchanged, where all given literals are allowed then."""
        own = self.step.arguments
        for count in range(2, MOST_MOVED + 1):
            for moved in exchanges(len(own), count):
                arguments = list(own)
                for old, new in moved:
                    arguments[new] = own[old]
                if arguments != own and all(self.sorts[old] == self.sorts[new] for old, new in moved):
                    self.clock.check()
                    bound = {place: self.reach.scope.numbers[name] for place, name in enumerate(arguments)}
                    if all(self.may(item_at(pattern, bound)) for pattern in self.given):
                        yield arguments


def exchanges(size: int, count: int) -> Iterator[list[tuple[int, int]]]:
    """The ways to move so many places in a circle."""
    for places in permutations(range(size), count):
        if places[0] == min(places):
            yield list(zip(places, (*places[1:], places[0])))


def item_at(pattern: Pattern | SumPattern, bound: Bound) -> Coded:
    """A given literal at these objects."""
    return coded(pattern, bound) if isinstance(pattern, Pattern) else sum_at(pattern, bound)
