"""Equal segments and equal angles: which marks belong to which terms."""

from __future__ import annotations

from collections.abc import Iterable
from math import atan2, pi

from ..literals import Literal, Metric, Term
from .frame import Values

RIGHT = Term("right")


def classes(facts: Iterable[Literal]) -> list[list[Term]]:
    """Classes of equal terms by facts `X = Y` with one term on each side: lists of terms, the class of the right
    angle among them. A term stands with its points in one order."""
    parent: dict[Term, Term] = {}

    def root(term: Term) -> Term:
        parent.setdefault(term, term)
        while parent[term] != term:
            term = parent[term]
        return term

    for fact in facts:
        pair = simple_equation(fact)
        if pair:
            one, other = root(pair[1]), root(pair[0])
            parent[one] = other
    found: dict[Term, list[Term]] = {}
    for term in parent:
        found.setdefault(root(term), []).append(term)
    return list(found.values())


def simple_equation(fact: Literal) -> tuple[Term, Term] | None:
    """The two terms of a fact that says that they are equal, or None."""
    if not isinstance(fact, Metric) or fact.relation != "=" or len(fact.left) != 1 or len(fact.right) != 1:
        return None
    if fact.left[0][0] != fact.right[0][0]:
        return None
    first, second = fact.left[0][1].normal(), fact.right[0][1].normal()
    return (first, second) if first.word != "area" and first != second else None


def opening(term: Term, values: Values) -> tuple[tuple[float, float], float, float]:
    """The vertex of an angle, and the directions of its legs, so that it is counterclockwise from the first to the
    second, which is less than half a turn on."""
    (ax, ay), (vx, vy), (bx, by) = (values[point] for point in term.points)
    first, second = atan2(ay - vy, ax - vx), atan2(by - vy, bx - vx)
    turn = (second - first) % (2 * pi)
    if turn > pi:
        first, turn = second, 2 * pi - turn
    return (vx, vy), first, turn


def same_place(term: Term, values: Values) -> tuple[object, ...]:
    """A key that two terms share where they are one segment or one angle on paper."""
    if term.word == "ang":
        (x, y), first, turn = opening(term, values)
        return round(x, 4), round(y, 4), round(first % (2 * pi), 3) % 6.283, round(turn, 3)
    return tuple(sorted((round(values[point][0], 4), round(values[point][1], 4)) for point in term.points))
