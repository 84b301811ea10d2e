"""Instances of rules that would give a literal but for one or two others that are not known."""

from __future__ import annotations

import time
from collections.abc import Iterator
from itertools import combinations, islice
from typing import NamedTuple

from .closure import Closure
from .codes import KINDS, SIGN, Clause, Coded, Pattern, SumPattern, clauses, coded, decode
from .transfers import Bound, Transfer, placed_at, solutions, starts, transfer_rules

MOST_OF_A_RULE = 60  # instances that are looked at, for one choice of what is lacking
SECONDS = 0.4


class Near(NamedTuple):
    """An instance of a rule: its objects, and the literals of the diagram that lack."""

    name: str
    objects: tuple[int, ...]
    lacks: tuple[int, ...]
    is_forward: bool  # whether the literal is a conclusion of the rule, and no premise's negation
    is_transfer: bool


def near(item: Coded, closure: Closure, most: int = 3) -> list[Near]:
    """The nearest instances, those that lack the least first."""
    closure.saturate()
    end = time.monotonic() + SECONDS
    found: dict[tuple[int, ...], Near] = {}
    for count in (1,) if isinstance(item, int) else (1, 2):
        for each in all_near(item, closure, count):
            found.setdefault(tuple(sorted(each.lacks)), each)
            if time.monotonic() > end:
                break
        if found:
            break
    return sorted(found.values(), key=lambda each: (len(each.lacks), not each.is_forward, len(each.objects)))[:most]


def all_near(item: Coded, closure: Closure, count: int) -> Iterator[Near]:
    """Instances that lack so many literals."""
    if isinstance(item, int):
        for clause in clauses():
            for place, pattern in enumerate(clause.patterns):
                bound = placed_at(pattern, item)
                if bound is not None:
                    yield from of_clause(clause, place, bound, item, closure, count)
    for rule in transfer_rules():
        for bound, start in starts(rule, item):
            yield from of_transfer(rule, start, bound, item, closure, count)


def of_clause(clause: Clause, place: int, bound: Bound, item: int, closure: Closure, count: int) -> Iterator[Near]:
    """Instances of a rule of diagrams with the literal at a place."""
    others = [pattern for at, pattern in enumerate(clause.patterns) if at != place]
    for skipped in combinations(others, count):
        rest = Transfer(clause.name, clause.sorts, tuple(each for each in others if each not in skipped), ())
        for objects in islice(solutions(rest, bound, clause.patterns[place], closure), MOST_OF_A_RULE):
            lacks = lacking(skipped, objects, closure)
            if lacks and item not in lacks and item ^ SIGN not in lacks:
                is_forward = place == len(clause.patterns) - 1
                yield Near(clause.name, tuple(objects), lacks, is_forward, False)


def of_transfer(rule: Transfer, start: Pattern | SumPattern, bound: Bound, item: Coded, closure: Closure,
                count: int) -> Iterator[Near]:
    """Instances of a transfer rule with the literal at its start."""
    others = [pattern for pattern in rule.patterns if pattern is not start]
    for skipped in combinations(others, count):
        rest = rule._replace(patterns=tuple(each for each in others if each not in skipped))
        for objects in islice(solutions(rest, bound, start, closure), MOST_OF_A_RULE):
            lacks = lacking(skipped, objects, closure)
            if lacks and item not in lacks:
                yield Near(rule.name, tuple(objects), lacks, start in rule.sums, True)


def lacking(patterns: tuple[Pattern, ...], objects: list[int], closure: Closure) -> tuple[int, ...]:
    """What lacks, if it is not known and may still be true."""
    codes = tuple(dict.fromkeys(coded(pattern, objects) ^ SIGN for pattern in patterns))
    if any(closure.knows(code) or closure.knows(code ^ SIGN) or is_plain(code) for code in codes):
        return ()
    return codes


def is_plain(code: int) -> bool:
    """Whether nobody would mean a literal: that two objects are one, or something of one object twice."""
    kind, positive, objects = decode(code)
    word, sorts = KINDS[kind]
    return (word == "=" and positive) or any(
        one == other and sort == sorts[at] for at, one in enumerate(objects)
        for other, sort in zip(objects[:at], sorts[:at]))
