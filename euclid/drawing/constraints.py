"""What a literal asks of the numbers of a frame, and whether it holds."""

from __future__ import annotations

from collections.abc import Callable, Sequence
from functools import cached_property

from ..literals import Diagram, Literal, Metric
from .frame import NEAR, Frame, distance
from .measures import Measure, Numbers, Places, Value

MARGINS = {"length": 0.3, "angle": 0.25, "area": 0.2}  # of a bound, in figures about 4 wide
SMALL = 0.04  # the part of a margin that is kept when equations are made exact
EXACT = 1e-9
ROOM = 1e-3  # what is more than 0


class Constraint:
    """A measure that has to be 0 (`zero`), more than 0 (`more`) or at least 0 (`least`)."""

    def __init__(self, measure: Measure, kind: str, unit: str, literal: Literal) -> None:
        self.measure, self.kind, self.unit, self.literal = measure, kind, unit, literal

    @cached_property
    def value(self) -> Value:
        """Its function."""
        return self.measure.value()

    @cached_property
    def touch(self) -> Places:
        """The places at which it looks."""
        return self.measure.touch()

    def is_kept(self, x: Numbers) -> bool:
        """Whether it holds."""
        value = self.value(x)
        if self.kind == "zero":
            return abs(value) < EXACT
        return value > (ROOM if self.kind == "more" else -EXACT)


def unit_of(literal: Metric) -> str:
    """What a literal of magnitudes compares."""
    return {"seg": "length", "ang": "angle", "right": "angle", "area": "area"}[literal.terms()[0].word]


def constraints(literal: Literal, frame: Frame) -> list[Constraint]:
    """What a literal asks of the numbers: nothing, where it holds by the frame."""
    if isinstance(literal, Metric):
        return [metric_constraint(literal, frame)]
    roots = [frame.root(name) for name in literal.objects]
    found = DIAGRAM[literal.word](frame, literal, roots)
    return [Constraint(measure, kind, unit, literal) for measure, kind, unit in found]


def metric_constraint(literal: Metric, frame: Frame) -> Constraint:
    """What a literal of magnitudes asks."""
    measure, unit = frame.difference(literal), unit_of(literal)
    if literal.relation == "<":
        return Constraint(measure, "more", unit, literal)
    if literal.relation == "<=":
        return Constraint(measure, "least", unit, literal)
    if literal.relation == "=":
        return Constraint(measure, "zero", unit, literal)
    return Constraint(measure.signed("abs"), "more", unit, literal)


Asked = list[tuple[Measure, str, str]]  # a measure, what it has to be, and its unit


def of_on(frame: Frame, literal: Diagram, roots: list[str]) -> Asked:
    """A point and a line or a circle."""
    measure = frame.away(*literal.objects)
    if not literal.positive:
        return [(measure.signed("abs"), "more", "length")]
    curve, place = frame.curve(roots[1]), frame.point(roots[0])
    held = curve.at if frame.is_line(roots[1]) else curve.at[1:]
    return [] if curve.kind == "through" and place in held else [(measure, "zero", "length")]


def of_inside(frame: Frame, literal: Diagram, roots: list[str]) -> Asked:
    """A point and a circle."""
    measure = frame.away(*literal.objects)
    if literal.positive:
        return [(measure.signed("-"), "more", "length")]
    return [(measure, "more" if (roots[0], roots[1]) in frame.off else "least", "length")]


def of_center(frame: Frame, literal: Diagram, roots: list[str]) -> Asked:
    """A point and a circle."""
    if literal.positive and frame.center_of.get(roots[1]) == roots[0]:
        return []
    measure = Measure("offCenter", (frame.point(roots[0]), frame.curve(roots[1])))
    return [(measure, "zero" if literal.positive else "more", "length")]


def of_between(frame: Frame, literal: Diagram, roots: list[str]) -> Asked:
    """Three points."""
    if len(set(roots)) < 3:
        return []
    places = tuple(map(frame.point, roots))
    if literal.positive:
        return [(Measure("aside", places), "zero", "length"), (Measure("along", places), "more", "length")]
    return [(Measure("sameWay", places), "least", "length")] if frame.are_in_line(set(roots)) else []


def of_same_side(frame: Frame, literal: Diagram, roots: list[str]) -> Asked:
    """Two points and a line."""
    first, second, line = roots
    on_line = frame.on.get(line, [])
    if not literal.positive and (first in on_line or second in on_line):
        return []
    if first == second:
        return of_on(frame, Diagram("on", (first, line), not literal.positive), [first, line])
    measure = Measure("same", (frame.point(first), frame.point(second), frame.curve(line)))
    if literal.positive:
        return [(measure, "more", "length")]
    known = {(first, line), (second, line)} <= frame.off
    return [(measure.signed("-"), "more" if known else "least", "length")]


def of_meets(frame: Frame, literal: Diagram, roots: list[str]) -> Asked:
    """Two lines, a line and a circle, or two circles."""
    if roots[0] == roots[1]:
        return []
    curves = (frame.curve(roots[0]), frame.curve(roots[1]))
    if frame.is_line(roots[1]):
        measure = Measure("sine", curves)
        return [(measure.signed("abs"), "more", "angle") if literal.positive else (measure, "zero", "length")]
    depth = Measure("lineDepth" if frame.is_line(roots[0]) else "circleDepth", curves)
    if literal.positive:
        return [(depth, "more", "length")]
    common = [point for point in frame.on.get(roots[0], []) if point in frame.on.get(roots[1], [])]
    if not common:
        return [(depth.signed("-"), "least", "length")]
    # That the depth is 0 would say it too, but is a double root, where half of the digits are lost.
    slant = "lineSlant" if frame.is_line(roots[0]) else "circleSlant"
    return [(Measure(slant, (frame.point(common[0]), *curves)), "zero", "angle")]


def of_equal(frame: Frame, literal: Diagram, roots: list[str]) -> Asked:
    """Two objects of one sort."""
    if literal.positive:
        return []  # the frame has them as one object
    if roots[0] == roots[1]:
        return [(Measure("nothing"), "more", "length")]  # cannot be had
    return [(difference(frame, roots), "more", "length")]


def difference(frame: Frame, names: Sequence[str]) -> Measure:
    """How far two objects of one sort are from being one."""
    if frame.is_point(names[0]):
        return frame.apart(names[0], names[1])
    word = "twoLines" if frame.is_line(names[0]) else "twoCircles"
    return Measure(word, (frame.curve(names[0]), frame.curve(names[1])))


DIAGRAM: dict[str, Callable[[Frame, Diagram, list[str]], Asked]] = {
    "on": of_on, "inside": of_inside, "center": of_center, "between": of_between,
    "same-side": of_same_side, "meets": of_meets, "=": of_equal,
}


# Whether a literal holds, by coordinates alone: no fact of the frame is taken for granted.


def holds(literal: Literal, frame: Frame, x: Numbers, near: float = NEAR) -> bool:
    """Whether a literal holds, with `near` for what counts as 0."""
    if isinstance(literal, Metric):
        value = frame.difference(literal).value()(x)
        if literal.relation in ("=", "!="):
            return (abs(value) < near) == (literal.relation == "=")
        return value > near if literal.relation == "<" else value > -near
    return TRUE[literal.word](frame, literal.objects, x, near) == literal.positive


def place_of(frame: Frame, x: Numbers, point: str) -> tuple[float, float]:
    """The coordinates of a point."""
    at = frame.point(point)
    return x[at], x[at + 1]


Names = tuple[str, ...]


def is_on(frame: Frame, names: Names, x: Numbers, near: float) -> bool:
    """Whether a point is on a line or a circle."""
    return abs(frame.away(*names).value()(x)) < near


def is_inside(frame: Frame, names: Names, x: Numbers, near: float) -> bool:
    """Whether a point is inside a circle."""
    return frame.away(*names).value()(x) < -near


def is_center(frame: Frame, names: Names, x: Numbers, near: float) -> bool:
    """Whether a point is the center of a circle."""
    return Measure("offCenter", (frame.point(names[0]), frame.curve(names[1]))).value()(x) < near


def is_between(frame: Frame, names: Names, x: Numbers, near: float) -> bool:
    """Whether the middle point is between the others."""
    a, b, c = (place_of(frame, x, name) for name in names)
    ux, uy, wx, wy = a[0] - b[0], a[1] - b[1], c[0] - b[0], c[1] - b[1]
    long, short = max(distance(a, b), distance(b, c)), min(distance(a, b), distance(b, c))
    return short > near and abs(ux * wy - uy * wx) < near * long and ux * wx + uy * wy < 0


def is_same_side(frame: Frame, names: Names, x: Numbers, near: float) -> bool:
    """Whether two points are on one side of a line."""
    s, t = (frame.away(name, names[2]).value()(x) for name in names[:2])
    return min(s, t) > near or max(s, t) < -near


def is_meeting(frame: Frame, names: Names, x: Numbers, near: float) -> bool:
    """Whether two curves cross."""
    curves = (frame.curve(names[0]), frame.curve(names[1]))
    if frame.is_line(names[1]):
        return abs(Measure("sine", curves).value()(x)) > near
    return Measure("lineDepth" if frame.is_line(names[0]) else "circleDepth", curves).value()(x) > near


def is_equal(frame: Frame, names: Names, x: Numbers, near: float) -> bool:
    """Whether two objects are one."""
    return difference(frame, names).value()(x) < near


TRUE: dict[str, Callable[[Frame, Names, Numbers, float], bool]] = {
    "on": is_on, "inside": is_inside, "center": is_center, "between": is_between,
    "same-side": is_same_side, "meets": is_meeting, "=": is_equal,
}


def is_strict(fact: Literal) -> bool:
    """Whether a fact asks for no equation: it bounds where things are."""
    if isinstance(fact, Metric):
        return fact.relation != "="
    if fact.word == "meets":
        return fact.positive
    if fact.word == "=":
        return not fact.positive
    return not fact.positive or fact.word in ("inside", "same-side", "between")
