"""Instances of the transfer rules, which carry facts between diagrams and magnitudes."""

from __future__ import annotations

from collections.abc import Collection, Iterator, Mapping, Sequence
from functools import lru_cache
from itertools import permutations
from typing import NamedTuple

from .closure import Closure
from .codes import (AREA, SIGN, Coded, Comparison, Pattern, Quantity, Scope, SumPattern, coded, decode, pattern_of,
                    sum_at, sum_of)
from .literals import Diagram, Literal, Metric, Sort, renamed
from .rules import tables

Bound = dict[int, int]  # objects for some of the places of a rule


class Transfer(NamedTuple):
    """A transfer rule, over the places of its variables."""

    name: str
    sorts: tuple[Sort, ...]
    patterns: tuple[Pattern, ...]
    sums: tuple[SumPattern, ...]


class Instance(NamedTuple):
    """A literal by one transfer rule: what it needs of diagrams, and of magnitudes."""

    rule: Transfer
    objects: tuple[int, ...]
    item: Coded
    diagram: tuple[int, ...]
    metric: tuple[Comparison, ...]


@lru_cache(maxsize=None)
def transfer_rules() -> tuple[Transfer, ...]:
    """The transfer rules, in order."""
    found = []
    for name, rule in tables().transfer.items():
        diagram = tuple(pattern_of(each, rule.variables, rule.sorts) for each in rule.clause if isinstance(each, Diagram))
        sums = tuple(sum_of(each, rule.variables) for each in rule.clause if isinstance(each, Metric))
        found.append(Transfer(name, rule.sorts, diagram, sums))
    return tuple(found)


def instances(item: Coded, closure: Closure, names: Collection[str] | None = None) -> Iterator[Instance]:
    """All instances, perhaps of these rules alone, that have the literal and whose other literals
    of diagrams are known not to hold, so that it follows where the metric ones do not."""
    for rule in transfer_rules():
        if names is not None and rule.name not in names:
            continue
        for bound, skipped in starts(rule, item):
            for objects in solutions(rule, bound, skipped, closure):
                made = instance(rule, objects, item, skipped)
                if made:
                    yield made


def starts(rule: Transfer, item: Coded) -> Iterator[tuple[Bound, Pattern | SumPattern]]:
    """The ways to put the literal at a place of the rule: objects for some variables."""
    if isinstance(item, Comparison):
        for pattern in rule.sums:
            for bound in matches(pattern, item):
                yield bound, pattern
        return
    for each in rule.patterns:
        found = placed_at(each, item)
        if found is not None:
            yield found, each


def placed_at(pattern: Pattern, code: int) -> Bound | None:
    """Objects for the variables of a literal of a clause with which it is the literal."""
    if pattern.predicate != code >> 18:
        return None
    return joined({}, pattern.places, decode(code)[2])


def matches(pattern: SumPattern, item: Comparison) -> Iterator[Bound]:
    """Objects for the variables of a metric literal of a rule with which it is the literal."""
    if pattern.says != item.says:
        return
    seen = set()
    for sign in (1, -1) if item.says in ("=", "!=") else (1,):
        left = {part: sign * c for part, c in sorted(item.form)}
        for bound in matched(pattern.monomials, left, {}):
            key = tuple(sorted(bound.items()))
            if key not in seen:
                seen.add(key)
                yield bound


def matched(monomials: Sequence[tuple[int, int, tuple[int, ...]]], left: dict[Quantity, int],
            bound: Bound) -> Iterator[Bound]:
    """The ways to put the terms that are left at the monomials, one for each."""
    if not monomials:
        if not left:
            yield bound
        return
    (coefficient, word, places), *rest = monomials
    for part, c in left.items():
        if part[0] != word or c != coefficient:
            continue
        remaining = {other: value for other, value in left.items() if other != part}
        for points in orders(part):
            new = joined(bound, places, points)
            if new is not None:
                yield from matched(rest, remaining, new)


@lru_cache(maxsize=20_000)
def orders(part: Quantity) -> list[tuple[int, ...]]:
    """The orders of its points in which a term may be written."""
    word, *points = part
    if word == AREA:
        return sorted(set(permutations(points)))
    return sorted({tuple(points), tuple(points[::-1])})


def joined(bound: Bound, places: Sequence[int], objects: Sequence[int]) -> Bound | None:
    """The objects with these put at these places as well, where they agree."""
    new = dict(bound)
    for place, number in zip(places, objects):
        if new.setdefault(place, number) != number:
            return None
    return new


class Variable(NamedTuple):
    """An open variable of a rule, and the literals that restrict it: of each the predicate, the place
    of the variable in it, and the variables at its other places."""

    place: int
    sort: Sort
    sets: tuple[tuple[int, int, tuple[int, ...]], ...]


class Plan:
    """The order in which the variables of some literals of diagrams are bound."""

    def __init__(self, sorts: tuple[Sort, ...], patterns: tuple[Pattern, ...]) -> None:
        self.sorts, self.patterns = sorts, patterns
        self.known: dict[int, tuple[Variable, ...]] = {}

    def open(self, bound: int) -> tuple[Variable, ...]:
        """The open variables, where some are bound (a set: one bit for each)."""
        if bound not in self.known:
            self.known[bound] = tuple(self.variable(place, bound) for place in range(len(self.sorts))
                                      if not bound >> place & 1)
        return self.known[bound]

    def variable(self, place: int, bound: int) -> Variable:
        """One of them."""
        ready = [each for each in self.patterns if place in each.places
                 and all(other == place or bound >> other & 1 for other in each.places)]
        sets = [(each.predicate ^ 1, each.places.index(place), tuple(other for other in each.places if other != place))
                for each in ready]
        return Variable(place, self.sorts[place], tuple(sets))

    def rest(self, bound: int, objects: list[int], closure: Closure) -> Iterator[list[int]]:
        """All ways to bind the open variables, the one with the fewest objects first."""
        variables = self.open(bound)
        if not variables:
            yield list(objects)
            return
        best, chosen, fewest, tables = variables[0], 0, -1, closure.places
        for variable in variables:
            left = closure.objects[variable.sort]
            for predicate, at, others in variable.sets:
                index = objects[others[0]]
                left &= tables[predicate][at][index if len(others) == 1 else index << 6 | objects[others[1]]]
            if fewest < 0 or left.bit_count() < fewest:
                best, chosen, fewest = variable, left, left.bit_count()
        while chosen:
            objects[best.place] = (chosen & -chosen).bit_length() - 1
            chosen &= chosen - 1
            yield from self.rest(bound | 1 << best.place, objects, closure)


plan = lru_cache(maxsize=None)(Plan)


def solutions(rule: Transfer, bound: Bound, skipped: Pattern | SumPattern, closure: Closure) -> Iterator[list[int]]:
    """All ways to bind the other variables so that the other literals of diagrams are false."""
    patterns = [pattern for pattern in rule.patterns if pattern is not skipped]
    done = [pattern for pattern in patterns if bound.keys() >= set(pattern.places)]
    if not all(closure.knows(coded(pattern, bound) ^ SIGN) for pattern in done):
        return
    objects = [bound.get(place, 0) for place in range(len(rule.sorts))]
    yield from plan(rule.sorts, tuple(patterns)).rest(sum(1 << place for place in bound), objects, closure)


def instance(rule: Transfer, objects: Sequence[int], item: Coded, skipped: Pattern | SumPattern) -> Instance | None:
    """The instance at these objects, where it has the literal."""
    diagram = tuple(coded(p, objects) ^ SIGN for p in rule.patterns if p is not skipped)
    sums = [(p, sum_at(p, objects)) for p in rule.sums]
    if isinstance(item, Comparison) and not any(made == item for p, made in sums if p is skipped):
        return None
    needs = tuple(made.negation() for p, made in sums if p is not skipped and made != item)
    return Instance(rule, tuple(objects), item, diagram, needs)


def touching(part: Quantity, names: Collection[str], closure: Closure) -> Iterator[Instance]:
    """All instances of these rules whose metric conclusion has the term and whose diagram is
    known."""
    for rule in transfer_rules():
        if rule.name not in names:
            continue
        pattern = rule.sums[-1]
        for bound in placed(pattern, part):
            for objects in solutions(rule, bound, pattern, closure):
                made = instance(rule, objects, sum_at(pattern, objects), pattern)
                if made:
                    yield made


# Rules that carry magnitudes into a diagram, and the place of what they give, from the end.
INTO_DIAGRAMS = {"ms1": 1, "ms2": 1, "mr1": 1, "ds2": 1, "ds3a": 1, "ds3b": 1, "ds4a": 1, "ds4b": 1,
                 "da1a": 2, "da1b": 1, "da1c": 1, "da2b": 1, "da2c": 1, "da5a": 1, "da5b": 1,
                 "dr1a": 1, "dr1b": 1, "dr2b": 1}


FURTHER = INTO_DIAGRAMS | {"ms3": 1}


def into_diagrams(parts: set[Quantity], closure: Closure, places: Mapping[str, int] = INTO_DIAGRAMS) -> Iterator[Instance]:
    """Instances that give a literal of diagrams that is not known, from these magnitudes."""
    for rule in transfer_rules():
        if rule.name not in places:
            continue
        target, (pattern,) = rule.patterns[-places[rule.name]], rule.sums
        starting = [{}] if rule.name == "ds2" else [bound for part in sorted(parts) for bound in placed(pattern, part)]
        for bound in starting:
            for objects in solutions(rule, bound, target, closure):
                item = coded(target, objects)
                made = instance(rule, objects, item, target)
                if made and not closure.knows(item) and parts.issuperset(made.metric[0].quantities()):
                    yield made


def placed(pattern: SumPattern, part: Quantity) -> Iterator[Bound]:
    """The ways to put a term at a monomial of a rule."""
    for _, word, places in pattern.monomials:
        if word == part[0]:
            for points in orders(part):
                bound = joined({}, places, points)
                if bound is not None:
                    yield bound


def worded(made: Instance, scope: Scope) -> Literal:
    """A metric literal as its rule words it, or one of diagrams."""
    pattern = next((p for p in made.rule.sums if sum_at(p, made.objects) == made.item), None)
    if pattern is None:
        return scope.literal(made.item)
    variables = tables().transfer[made.rule.name].variables
    names = {variable: scope.names[sort][number]
             for variable, sort, number in zip(variables, made.rule.sorts, made.objects)}
    return renamed(pattern.literal, names)
