"""What makes a figure good to look at, as wishes for the solver: bounds that an attempt tries to keep.

Lengths are those of figures about 4 wide.
"""

from __future__ import annotations

from collections.abc import Sequence
from itertools import combinations
from math import hypot

from ..literals import Diagram, Metric, names_in
from .frame import Frame
from .measures import TINY, Curve, Numbers, Places, Value, line_at, outside, side
from .segments import Pair, points_of

APART = 0.6  # of two points
APART_DECLARED = 1.0  # of two declared points
WIDE, WIDE_SMALL = 3.6, 2.2  # at most, of two points of a body; of one of several, with few points
FEW = 3
NEARBY = 0.9  # at most, of a line and a point that only tells its sides apart
CLEAR = 0.3  # of a point and a segment or circle on which it is not
OPEN, OPEN_WELL = 0.42, 0.62  # sines of the angle of two segments at a point: 25 and 38 degrees


class Wish:
    """A function that should be more than a margin, and the places at which it looks."""

    def __init__(self, value: Value, touch: Places, margin: float) -> None:
        self.value, self.touch, self.margin = value, tuple(dict.fromkeys(touch)), margin


def spots(*points: int) -> Places:
    """The places of the numbers of points."""
    return tuple(place for point in points for place in (point, point + 1))


def wishes(frame: Frame, segments: Sequence[Pair], parts: Sequence[Sequence[str]], declared: set[str]) -> list[Wish]:
    """The wishes for a figure."""
    found: list[Wish] = []
    for part in parts:
        points = points_of(frame, part)
        crowd = min(1.0, (9 / max(len(points), 1)) ** 0.5)
        own = min(1.0, (4 / max(len(declared & set(points)), 1)) ** 0.5)
        wide = WIDE_SMALL if len(points) <= FEW and len(parts) > 1 else WIDE
        for pair in combinations(points, 2):
            measure = frame.apart(*pair)
            value, touch = measure.value(), measure.touch()
            near = APART_DECLARED * own if set(pair) <= declared else APART
            found.append(Wish(value, touch, near * crowd))
            found.append(Wish(minus(value), touch, -wide))
        found += [Wish(value, touch, CLEAR) for _, value, touch in clearances(frame, points, segments, part)]
        found += [Wish(value, touch, OPEN) for _, value, touch in openings(frame, points, segments)]
        for value, touch in line_gaps(frame, part):
            found += [Wish(value, touch, APART), Wish(minus(value), touch, -2 * APART)]
        found += [Wish(value, touch, OPEN_WELL) for value, touch in line_crossings(frame, part)]
    return found + [Wish(value, touch, -NEARBY) for value, touch in side_points(frame, declared)]


Looked = list[tuple[Value, Places]]
Keyed = list[tuple[tuple[str, ...], Value, Places]]


def minus(value: Value) -> Value:
    """The function with the other sign."""
    return lambda x: -value(x)


def size(value: Value, sign: float = 1.0) -> Value:
    """Its absolute value."""
    return lambda x: sign * abs(value(x))


def side_points(frame: Frame, declared: set[str]) -> Looked:
    """How far declared points that only tell the sides of a line apart are from it, less than 0."""
    used: set[str] = set()
    for fact in frame.facts:
        if isinstance(fact, Metric) or fact.word in ("on", "between", "center") and fact.positive:
            used |= set(names_in(fact))
    found: Looked = []
    for fact in frame.facts:
        if isinstance(fact, Diagram) and fact.word == "on" and not fact.positive and frame.is_line(fact.objects[1]):
            point, line = fact.objects
            if point in declared and point not in used:
                place, curve = frame.point(point), frame.curve(line)
                found.append((size(side(place, curve), -1.0), spots(place) + curve.touch()))
    return found


def clearances(frame: Frame, points: Sequence[str], segments: Sequence[Pair], part: Sequence[str]) -> Keyed:
    """The distances of points from segments and circles on which they are not, each with a key."""
    found: Keyed = []
    for pair in segments:
        if set(pair) <= set(points):
            for point in points:
                if point not in pair and not frame.are_in_line({point, *pair}):
                    places = tuple(map(frame.point, (point, *pair)))
                    found.append(((point, *pair), from_segment(*places), spots(*places)))
    for circle in part:
        if frame.is_circle(circle) and frame.root(circle) == circle:
            for point in points:
                if point not in frame.on.get(circle, []) and point != frame.center_of.get(circle):
                    place, curve = frame.point(point), frame.curve(circle)
                    found.append(((point, circle), size(outside(place, curve)), spots(place) + curve.touch()))
    return found


def openings(frame: Frame, points: Sequence[str], segments: Sequence[Pair]) -> Keyed:
    """The sines of the angles of segments with a common end, each with the three points."""
    found: Keyed = []
    inside = [pair for pair in segments if set(pair) <= set(points)]
    for one, two in combinations(inside, 2):
        common = set(one) & set(two)
        if len(common) == 1:
            (p,) = common
            q, r = sorted((set(one) | set(two)) - {p})
            if not frame.are_in_line({p, q, r}):
                places = tuple(map(frame.point, (p, q, r)))
                found.append(((p, q, r), opening(*places), spots(*places)))
    return found


def line_gaps(frame: Frame, part: Sequence[str]) -> Looked:
    """The distances of lines without points from other lines of their body that do not cross them."""
    found: Looked = []
    for fact in frame.facts:
        if not isinstance(fact, Diagram) or fact.word != "meets" or fact.positive or not set(fact.objects) <= set(part):
            continue
        first, second = map(frame.root, fact.objects)
        if not frame.is_line(second) or first == second or frame.on.get(first) and frame.on.get(second):
            continue
        curves = frame.curve(first), frame.curve(second)
        found.append((gap(*curves), curves[0].touch() + curves[1].touch()))
    return found


def gap(first: Curve, second: Curve) -> Value:
    """The distance of a point of the second line from the first."""
    f, g = line_at(first), line_at(second)

    def value(x: Numbers) -> float:
        px, py, dx, dy = f(x)
        qx, qy, _, _ = g(x)
        return abs(dx * (qy - py) - dy * (qx - px))

    return value


def line_crossings(frame: Frame, part: Sequence[str]) -> Looked:
    """The sines of the angles of lines with a common point, of which one has no other point."""
    found: Looked = []
    lines = [name for name in part if frame.is_line(name) and frame.root(name) == name]
    for first, second in combinations(lines, 2):
        one, two = frame.on.get(first, []), frame.on.get(second, [])
        if set(one) & set(two) and min(len(one), len(two)) == 1:
            curves = frame.curve(first), frame.curve(second)
            found.append((size(sine_of(*curves)), curves[0].touch() + curves[1].touch()))
    return found


def sine_of(first: Curve, second: Curve) -> Value:
    """The sine of the angle of two lines."""
    f, g = line_at(first), line_at(second)

    def value(x: Numbers) -> float:
        _, _, a, b = f(x)
        _, _, c, d = g(x)
        return a * d - b * c

    return value


def from_segment(i: int, j: int, k: int) -> Value:
    """The distance of the first point from the segment of the two others."""
    return lambda x: distance_from(x[i], x[i + 1], x[j], x[j + 1], x[k], x[k + 1])


def distance_from(px: float, py: float, qx: float, qy: float, rx: float, ry: float) -> float:
    """The distance of p from the segment from q to r."""
    dx, dy = rx - qx, ry - qy
    square = dx * dx + dy * dy or TINY
    part = ((px - qx) * dx + (py - qy) * dy) / square
    part = 0.0 if part < 0 else 1.0 if part > 1 else part
    return hypot(px - qx - part * dx, py - qy - part * dy)


def opening(i: int, j: int, k: int) -> Value:
    """The sine of the angle at the first point."""

    def value(x: Numbers) -> float:
        ux, uy, wx, wy = x[j] - x[i], x[j + 1] - x[i + 1], x[k] - x[i], x[k + 1] - x[i + 1]
        return abs(ux * wy - uy * wx) / (hypot(ux, uy) * hypot(wx, wy) + TINY)

    return value
