"""Functions of a list of numbers, by which literals are judged.

A measure is a name with arguments, so that the script of a page has the same one: see settle.js.
A point is the place of its two numbers. A line through two points has their places, a bare one has an
angle and an offset; a circle has its center and a point, its center and a radius, or three numbers.
"""

from __future__ import annotations

from collections.abc import Callable
from dataclasses import dataclass
from math import atan2, cos, hypot, pi, sin

Numbers = list[float]
Value = Callable[[Numbers], float]
Places = tuple[int, ...]
TINY = 1e-12


@dataclass(frozen=True, slots=True)
class Curve:
    """Where the numbers of a line or a circle are: `through` two points, `around` a point, or `free`."""

    kind: str
    at: Places

    def touch(self) -> Places:
        """The places at which it looks."""
        if self.kind == "through":
            i, j = self.at
            return i, i + 1, j, j + 1
        if self.kind == "around":
            i, k = self.at
            return i, i + 1, k
        return tuple(range(self.at[0], self.at[0] + (2 if len(self.at) == 1 else 3)))


LineAt = Callable[[Numbers], tuple[float, float, float, float]]
CircleAt = Callable[[Numbers], tuple[float, float, float]]


def line_at(curve: Curve) -> LineAt:
    """A function that gives a point of the line and its direction, of length 1."""
    if curve.kind == "free":
        place = curve.at[0]

        def free(x: Numbers) -> tuple[float, float, float, float]:
            c, s, p = cos(x[place]), sin(x[place]), x[place + 1]
            return c * p, s * p, -s, c

        return free
    i, j = curve.at

    def through(x: Numbers) -> tuple[float, float, float, float]:
        px, py = x[i], x[i + 1]
        dx, dy = x[j] - px, x[j + 1] - py
        length = hypot(dx, dy) or TINY
        return px, py, dx / length, dy / length

    return through


def circle_at(curve: Curve) -> CircleAt:
    """A function that gives the center of the circle and its radius."""
    if curve.kind == "through":
        i, j = curve.at
        return lambda x: (x[i], x[i + 1], hypot(x[j] - x[i], x[j + 1] - x[i + 1]))
    if curve.kind == "around":
        i, k = curve.at
        return lambda x: (x[i], x[i + 1], abs(x[k]))
    k = curve.at[0]
    return lambda x: (x[k], x[k + 1], abs(x[k + 2]))


def side(point: int, line: Curve) -> Value:
    """The distance of a point from a line, with a sign for its side."""
    i, at = point, line_at(line)

    def value(x: Numbers) -> float:
        px, py, dx, dy = at(x)
        return dx * (x[i + 1] - py) - dy * (x[i] - px)

    return value


def apart(i: int, j: int) -> Value:
    """The distance of two points."""
    return lambda x: hypot(x[i] - x[j], x[i + 1] - x[j + 1])


def outside(point: int, circle: Curve) -> Value:
    """The distance of a point from a circle, less than 0 for points inside."""
    i, at = point, circle_at(circle)

    def value(x: Numbers) -> float:
        cx, cy, radius = at(x)
        return hypot(x[i] - cx, x[i + 1] - cy) - radius

    return value


def off_center(point: int, circle: Curve) -> Value:
    """The distance of a point from the center of a circle."""
    i, at = point, circle_at(circle)

    def value(x: Numbers) -> float:
        cx, cy, _ = at(x)
        return hypot(x[i] - cx, x[i + 1] - cy)

    return value


def along(i: int, j: int, k: int) -> Value:
    """How far the middle point is from the nearer end, along the line of the ends."""

    def value(x: Numbers) -> float:
        dx, dy = x[k] - x[i], x[k + 1] - x[i + 1]
        length = hypot(dx, dy) or TINY
        part = ((x[j] - x[i]) * dx + (x[j + 1] - x[i + 1]) * dy) / length
        return min(part, length - part)

    return value


def aside(i: int, j: int, k: int) -> Value:
    """How far the middle point is from the line of the ends, with a sign."""

    def value(x: Numbers) -> float:
        dx, dy = x[k] - x[i], x[k + 1] - x[i + 1]
        length = hypot(dx, dy) or TINY
        return ((x[j] - x[i]) * dy - (x[j + 1] - x[i + 1]) * dx) / length

    return value


def same_way(i: int, j: int, k: int) -> Value:
    """More than 0 where the ends lie in the same direction from the middle point."""

    def value(x: Numbers) -> float:
        ux, uy, wx, wy = x[i] - x[j], x[i + 1] - x[j + 1], x[k] - x[j], x[k + 1] - x[j + 1]
        return (ux * wx + uy * wy) / (hypot(ux, uy) + hypot(wx, wy) + TINY)

    return value


def same(first: int, second: int, line: Curve) -> Value:
    """Twice the harmonic mean of the distances of two points from a line, where the sides are the same: it
    pulls at both points, which their minimum does not."""
    f, g = side(first, line), side(second, line)

    def value(x: Numbers) -> float:
        s, t = f(x), g(x)
        return 2 * s * t / (abs(s) + abs(t) + TINY)

    return value


def sine(one: Curve, other: Curve) -> Value:
    """The sine of the angle of two lines."""
    f, g = line_at(one), line_at(other)

    def value(x: Numbers) -> float:
        _, _, a, b = f(x)
        _, _, c, d = g(x)
        return a * d - b * c

    return value


def line_depth(line: Curve, circle: Curve) -> Value:
    """How deep a line goes into a circle."""
    f, g = line_at(line), circle_at(circle)

    def value(x: Numbers) -> float:
        px, py, dx, dy = f(x)
        cx, cy, radius = g(x)
        return radius - abs(dx * (cy - py) - dy * (cx - px))

    return value


def circle_depth(one: Curve, other: Curve) -> Value:
    """How far two circles are from touching, more than 0 where they cross."""
    f, g = circle_at(one), circle_at(other)

    def value(x: Numbers) -> float:
        ax, ay, r = f(x)
        bx, by, s = g(x)
        d = hypot(ax - bx, ay - by)
        return min(r + s - d, d - abs(r - s))

    return value


def line_slant(point: int, line: Curve, circle: Curve) -> Value:
    """How far a line through a point of a circle is from touching it there."""
    i, f, g = point, line_at(line), circle_at(circle)

    def value(x: Numbers) -> float:
        cx, cy, _ = g(x)
        _, _, dx, dy = f(x)
        return (dx * (x[i] - cx) + dy * (x[i + 1] - cy)) / (hypot(x[i] - cx, x[i + 1] - cy) + TINY)

    return value


def circle_slant(point: int, one: Curve, other: Curve) -> Value:
    """How far two circles with a common point are from touching there."""
    i, f, g = point, circle_at(one), circle_at(other)

    def value(x: Numbers) -> float:
        (ox, oy, _), (cx, cy, _) = f(x), g(x)
        ux, uy, wx, wy = cx - x[i], cy - x[i + 1], ox - x[i], oy - x[i + 1]
        return (ux * wy - uy * wx) / (hypot(ux, uy) * hypot(wx, wy) + TINY)

    return value


def two_lines(one: Curve, other: Curve) -> Value:
    """How far two lines are from being one."""
    f, g = line_at(one), line_at(other)

    def value(x: Numbers) -> float:
        px, py, a, b = f(x)
        qx, qy, c, d = g(x)
        return abs(a * d - b * c) + abs(a * (qy - py) - b * (qx - px))

    return value


def two_circles(one: Curve, other: Curve) -> Value:
    """How far two circles are from being one."""
    f, g = circle_at(one), circle_at(other)

    def value(x: Numbers) -> float:
        ax, ay, r = f(x)
        bx, by, s = g(x)
        return hypot(ax - bx, ay - by) + abs(r - s)

    return value


def angle(i: int, j: int, k: int) -> Value:
    """The angle at the middle point."""

    def value(x: Numbers) -> float:
        px, py = x[j], x[j + 1]
        ux, uy, wx, wy = x[i] - px, x[i + 1] - py, x[k] - px, x[k + 1] - py
        return atan2(abs(ux * wy - uy * wx), ux * wx + uy * wy)

    return value


def area(i: int, j: int, k: int) -> Value:
    """The area of a triangle."""

    def value(x: Numbers) -> float:
        px, py = x[j], x[j + 1]
        return abs((x[i] - px) * (x[k + 1] - py) - (x[i + 1] - py) * (x[k] - px)) / 2

    return value


def right() -> Value:
    """A right angle."""
    return lambda x: pi / 2


def nothing() -> Value:
    """0."""
    return lambda x: 0.0


Argument = int | Curve
Part = tuple[int, "Measure"]  # a coefficient, and the measure of a term
MEASURES: dict[str, Callable[..., Value]] = {
    "side": side, "apart": apart, "outside": outside, "offCenter": off_center, "along": along, "aside": aside,
    "sameWay": same_way, "same": same, "sine": sine, "lineDepth": line_depth, "circleDepth": circle_depth,
    "lineSlant": line_slant, "circleSlant": circle_slant, "twoLines": two_lines, "twoCircles": two_circles,
    "angle": angle, "area": area, "right": right, "nothing": nothing,
}


@dataclass(frozen=True, slots=True)
class Measure:
    """A function by its name, with its arguments; `sign` is `+`, `-` or `abs`. A `sum` has parts instead."""

    name: str
    arguments: tuple[Argument, ...] = ()
    parts: tuple[Part, ...] = ()
    sign: str = "+"

    def signed(self, sign: str) -> Measure:
        """The same with another sign."""
        return Measure(self.name, self.arguments, self.parts, sign)

    def touch(self) -> Places:
        """The places at which it looks, each once."""
        found: list[int] = []
        for argument in self.arguments:
            found += argument.touch() if isinstance(argument, Curve) else (argument, argument + 1)
        for _, part in self.parts:
            found += part.touch()
        return tuple(dict.fromkeys(found))

    def value(self) -> Value:
        """The function."""
        f = sum_of(self.parts) if self.name == "sum" else MEASURES[self.name](*self.arguments)
        if self.sign == "-":
            return lambda x: -f(x)
        if self.sign == "abs":
            return lambda x: abs(f(x))
        return f


def sum_of(parts: tuple[Part, ...]) -> Value:
    """The function of a sum."""
    values = [(coefficient, part.value()) for coefficient, part in parts]
    if len(values) == 2:
        (m, f), (n, g) = values
        return lambda x: m * f(x) + n * g(x)
    return lambda x: sum((n * f(x) for n, f in values), 0.0)
