"""Judges facts by coordinates alone, with none of the measures of the drawing.

A point is x, y; a line a point of it and its direction, of length 1; a circle its center and its radius.
"""

from __future__ import annotations

from math import acos, hypot, pi

from euclid.drawing.course import Event
from euclid.literals import Diagram, Literal, Metric, Sum, Term

NEAR = 1e-6  # of figures that are about 4 wide
Place = tuple[float, ...]
Values = dict[str, Place]


def false_facts(events: list[Event], values: Values) -> list[tuple[int, Literal]]:
    """The facts that do not hold, each with its step."""
    return [(event.step, fact) for event in events if event.kind != "undecided" for fact in event.facts
            if not is_true(fact, values)]


def is_true(fact: Literal, values: Values) -> bool:
    """Whether a fact holds."""
    if isinstance(fact, Metric):
        less = total(fact.right, values) - total(fact.left, values)
        return {"=": abs(less) < NEAR, "!=": abs(less) > NEAR, "<": less > NEAR, "<=": less > -NEAR}[fact.relation]
    return diagram(fact, [values[name] for name in fact.objects]) == fact.positive


def diagram(fact: Diagram, places: list[Place]) -> bool:
    """Whether the positive literal holds."""
    p, q = places[:2]
    if fact.word == "on":
        return abs(aside(p, q)) < NEAR if len(q) == 4 else abs(far(p, q) - q[2]) < NEAR
    if fact.word == "inside":
        return q[2] - far(p, q) > NEAR
    if fact.word == "center":
        return far(p, q) < NEAR
    if fact.word == "between":
        r = places[2]
        return abs(far(p, q) + far(q, r) - far(p, r)) < NEAR and min(far(p, q), far(q, r)) > NEAR
    if fact.word == "same-side":
        s, t = aside(p, places[2]), aside(q, places[2])
        return min(abs(s), abs(t)) > NEAR and s * t > 0
    if fact.word == "meets":
        return meets(p, q)
    if len(p) == 4:
        return abs(p[2] * q[3] - p[3] * q[2]) + abs(aside(q, p)) < NEAR
    return sum(abs(a - b) for a, b in zip(p, q)) < NEAR


def meets(p: Place, q: Place) -> bool:
    """Whether two curves cross."""
    if len(p) == 4 and len(q) == 4:
        return abs(p[2] * q[3] - p[3] * q[2]) > NEAR
    if len(p) == 4:
        return q[2] - abs(aside(q, p)) > NEAR
    return min(p[2] + q[2] - far(p, q), far(p, q) - abs(p[2] - q[2])) > NEAR


def far(p: Place, q: Place) -> float:
    """The distance of two places."""
    return hypot(p[0] - q[0], p[1] - q[1])


def aside(p: Place, line: Place) -> float:
    """The distance of a place from a line, with a sign for its side."""
    return line[2] * (p[1] - line[1]) - line[3] * (p[0] - line[0])


def total(monomials: Sum, values: Values) -> float:
    """A sum of magnitudes."""
    return sum(number * magnitude(term, values) for number, term in monomials)


def magnitude(term: Term, values: Values) -> float:
    """The magnitude of a term. An angle of which two points are one counts as 0."""
    if term.word == "right":
        return pi / 2
    p = [values[name] for name in term.points]
    if term.word == "seg":
        return far(p[0], p[1])
    if term.word == "area":
        return abs((p[1][0] - p[0][0]) * (p[2][1] - p[0][1]) - (p[1][1] - p[0][1]) * (p[2][0] - p[0][0])) / 2
    legs = far(p[0], p[1]), far(p[2], p[1])
    if min(*legs, far(p[0], p[2])) < NEAR:
        return 0.0
    product = (p[0][0] - p[1][0]) * (p[2][0] - p[1][0]) + (p[0][1] - p[1][1]) * (p[2][1] - p[1][1])
    return acos(max(-1.0, min(1.0, product / (legs[0] * legs[1]))))
