"""How bad a figure looks: 0 is best. What coincides in the figures of all attempts is implied, and no accident."""

from __future__ import annotations

from collections.abc import Container, Mapping, Sequence
from itertools import combinations
from math import hypot

from .frame import NEAR, Frame, Place, distance
from .measures import Numbers
from .segments import Pair, points_of
from .wishes import APART, APART_DECLARED, CLEAR, OPEN, OPEN_WELL, WIDE, clearances, openings

GOOD = 0.1  # a score that is good enough
SAME, CLOSE = 1e-5, 0.13  # what counts as a coincidence, and what looks like one
Key = tuple[object, ...]
Spot = tuple[float, ...]


class Everything:
    """Has everything: where nothing is known of what is implied, no coincidence counts as an accident."""

    def __contains__(self, key: object) -> bool:
        return True


ANY = Everything()


class View:
    """What the score looks at: the segments of each body, and how they lie to each other."""

    def __init__(self, frame: Frame, x: Numbers, segments: Sequence[Pair], parts: Sequence[Sequence[str]],
                 declared: set[str], values: Mapping[str, Place]) -> None:
        self.frame, self.x, self.parts, self.declared = frame, list(x), parts, declared
        self.segments = segments
        self.where: dict[str, Spot] = {name: (x[at], x[at + 1]) for name, at in frame.points.items()}
        self.circles = {name: values[name] for name in frame.sorts if frame.is_circle(name)}
        self.relations: dict[Key, float] = {}
        self.clear: dict[Key, float] = {}
        self.open: dict[Key, float] = {}
        for number, part in enumerate(parts):
            points = points_of(frame, part)
            inside = [pair for pair in segments if set(pair) <= set(points)]
            for one, two in combinations(inside, 2):
                self.relations |= self.relations_of(one, two)
            for key, value, _ in clearances(frame, points, segments, part):
                self.clear[number, *key] = value(self.x)
            for key, value, _ in openings(frame, points, segments):
                self.open[number, *key] = value(self.x)

    def relations_of(self, one: Pair, two: Pair) -> dict[Key, float]:
        """How far two segments are from being equal, at right angles, and parallel."""
        a, b, c, d = (self.where[point] for point in (*one, *two))
        ux, uy, wx, wy = b[0] - a[0], b[1] - a[1], d[0] - c[0], d[1] - c[1]
        long, other = hypot(ux, uy) + NEAR, hypot(wx, wy) + NEAR
        return {
            ("equal", one, two): abs(long - other) / max(long, other),
            ("square", one, two): abs(ux * wx + uy * wy) / (long * other),
            ("parallel", one, two): abs(ux * wy - uy * wx) / (long * other),
        }

    def coincidences(self) -> set[Key]:
        """What coincides in this figure."""
        values = {**self.relations, **self.clear, **self.open}
        return {key for key, value in values.items() if value < SAME}

    def score(self, implied: Container[Key]) -> float:
        """How bad the figure looks."""
        total = 0.0
        for key, value in self.relations.items():
            if value < CLOSE and key not in implied:
                total += 0.5 * (1 - value / CLOSE)
        for number, part in enumerate(self.parts):
            points = points_of(self.frame, part)
            if len(points) > 1:
                total += self.score_of_body(number, part, points, implied)
        return total

    def score_of_body(self, number: int, part: Sequence[str], points: list[str], implied: Container[Key]) -> float:
        """How bad a body looks."""
        where = self.where
        width = max(distance(where[p], where[q]) for p, q in combinations(points, 2)) / WIDE or 1.0
        total = self.crowding(number, points, width, implied)
        for circle in [name for name in part if name in self.circles]:
            cx, cy, radius = self.circles[circle]
            reach = max(distance((cx, cy), where[point]) + radius for point in points) / width
            total += 0.3 * max(0.0, reach - WIDE)
        inside = [pair for pair in self.segments if set(pair) <= set(points)]
        total += 0.6 * sum(self.cross(one, two) for one, two in combinations(inside, 2))
        total += 0.3 * self.disorder(points)
        own = [point for point in points if point in self.declared]
        if len(own) > 1:
            core = max(distance(where[p], where[q]) for p, q in combinations(own, 2)) / width
            total += 2 * max(0.0, 0.5 - core / WIDE)
        return total

    def crowding(self, number: int, points: list[str], width: float, implied: Container[Key]) -> float:
        """How near things are to each other."""
        total = 0.0
        for pair in combinations(points, 2):
            near = APART_DECLARED if set(pair) <= self.declared else APART
            total += short_of(distance(self.where[pair[0]], self.where[pair[1]]) / width, near)
        for key, value in self.clear.items():
            if key[0] == number and (value >= SAME or key not in implied):
                total += short_of(value / width, CLEAR)
        for key, value in self.open.items():
            if key[0] == number and (value >= SAME or key not in implied):
                total += short_of(value, OPEN_WELL if set(key[1:]) <= self.declared else OPEN)
        return total

    def cross(self, one: Pair, two: Pair) -> bool:
        """Whether two segments cross where no point is."""
        if set(one) & set(two):
            return False
        a, b, c, d = (self.where[point] for point in (*one, *two))
        if turn(a, b, c) * turn(a, b, d) >= -NEAR or turn(c, d, a) * turn(c, d, b) >= -NEAR:
            return False
        t = turn(c, d, a) / (turn(c, d, a) - turn(c, d, b))
        place = a[0] + t * (b[0] - a[0]), a[1] + t * (b[1] - a[1])
        return all(distance(place, at) > 1e-3 for at in self.where.values())

    def disorder(self, points: list[str]) -> int:
        """How many pairs of declared points on lines are not in the order in which they were declared."""
        total, order = 0, {name: at for at, name in enumerate(self.frame.sorts)}
        for run in self.frame.runs:
            own = sorted((p for p in run if p in self.declared and p in points), key=order.__getitem__)
            if len(own) > 2:
                where = self.where
                ends = max(combinations(own, 2), key=lambda pair: distance(where[pair[0]], where[pair[1]]))
                along = [distance(where[ends[0]], where[point]) for point in own]
                wrong = sum(s > t for s, t in combinations(along, 2))
                total += min(wrong, len(own) * (len(own) - 1) // 2 - wrong)
        return total


def turn(a: Spot, b: Spot, c: Spot) -> float:
    """More than 0 where c is on the left of the way from a to b."""
    return (b[0] - a[0]) * (c[1] - a[1]) - (b[1] - a[1]) * (c[0] - a[0])


def short_of(value: float, margin: float) -> float:
    """How far a value is below a margin."""
    return max(0.0, 1 - value / margin) ** 2
