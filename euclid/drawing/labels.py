"""Finds places for the names of points where they cover nothing. All numbers are pixels."""

from __future__ import annotations

from collections.abc import Hashable, Iterator, Mapping, Sequence
from math import atan2, cos, hypot, pi, sin
from typing import Generic, TypeVar

from .wishes import distance_from

HIGH = 13.0  # of a letter
WIDE = 8.5
Spot = tuple[float, float]
Segment = tuple[float, float, float, float]
Disc = tuple[float, float, float]  # center and radius
Wedge = tuple[Spot, float, float, float]  # vertex, first direction, turn and radius
Box = tuple[float, float, float, float]  # the middle, half the width, half the height
Key = TypeVar("Key", bound=Hashable)


class Labels(Generic[Key]):
    """Places names beside their points."""

    def __init__(self, segments: Sequence[Segment], circles: Sequence[Disc], dots: Sequence[Spot],
                 wedges: Sequence[Wedge], box: Box) -> None:
        self.segments, self.circles, self.dots, self.box = segments, circles, dots, box
        self.wedges = wedges  # of angles with a mark
        self.placed: dict[Key, Box] = {}

    def place(self, wanted: Mapping[Key, tuple[str, Spot]]) -> dict[Key, Box]:
        """Finds the middles of names: `wanted` has a text and a place, by keys."""
        order = sorted(wanted, key=lambda key: -self.busy(wanted[key][1]))
        for _ in range(3):
            for key in order:
                text, at = wanted[key]
                self.placed.pop(key, None)
                self.placed[key] = self.best(text, at)
        return self.placed

    def best(self, text: str, at: Spot) -> Box:
        """The box that covers least."""
        return min(self.candidates(text, at), key=lambda box: self.cost(box, at))

    def candidates(self, text: str, at: Spot) -> Iterator[Box]:
        """Boxes around a place."""
        half = max(len(text), 1) * WIDE / 2
        for far in (5, 9, 15, 30):
            for turn in range(24):
                angle = 2 * pi * turn / 24
                yield at[0] + cos(angle) * (far + half + 1), at[1] + sin(angle) * (far + HIGH / 2), half, HIGH / 2

    def busy(self, at: Spot) -> int:
        """How many segments are near a place."""
        return sum(distance_from(*at, *one) < 25 for one in self.segments)

    def cost(self, box: Box, at: Spot) -> float:
        """How much a name in this box covers, or nearly covers."""
        x, y, half, high = box
        cost = 0.05 * hypot(x - at[0], y - at[1]) + self.cost_of_lines(box)
        for dx, dy in self.dots:
            gap = max(abs(dx - x) - half, abs(dy - y) - high)
            cost += 12 if gap < 2 else 2 * max(0, 6 - gap) if (dx, dy) != at else 0
        for ox, oy, other_half, other_high in self.placed.values():
            gap = max(abs(ox - x) - half - other_half, abs(oy - y) - high - other_high)
            cost += 15 if gap < 0 else max(0, 4 - gap)
        for (vx, vy), first, turn, radius in self.wedges:
            way = (atan2(vy - y, x - vx) - first) % (2 * pi)
            cost += 5 if hypot(x - vx, y - vy) < radius + half and way < turn else 0
        left, top, right, bottom = self.box
        if not (left <= x - half and x + half <= right and top <= y - high and y + high <= bottom):
            cost += 30
        return cost

    def cost_of_lines(self, box: Box) -> float:
        """How much a name in this box covers of segments and circles."""
        x, y, half, high = box
        cost = 0.0
        spots = [(x + i * half, y + j * high) for i in (-1, 0, 1) for j in (-1, 0, 1)]
        reach = half + high + 4
        for one in self.segments:
            if distance_from(x, y, *one) < reach:
                near = min(distance_from(*spot, *one) for spot in spots)
                cost += 4 * max(0, 4 - near) + (10 if crosses(box, one) else 0)
        for cx, cy, radius in self.circles:
            gaps: list[float] = [hypot(sx - cx, sy - cy) - radius for sx, sy in spots]
            nearest = min(abs(gap) for gap in gaps)
            cost += 8.0 if min(gaps) < 0 < max(gaps) else 2 * max(0.0, 3 - nearest)
        return cost


def crosses(box: Box, segment: Segment) -> bool:
    """Whether a segment goes through a box."""
    x, y, half, high = box
    ax, ay, bx, by = segment
    low, top = 0.0, 1.0
    for start, way, least, most in ((ax, bx - ax, x - half, x + half), (ay, by - ay, y - high, y + high)):
        if abs(way) < 1e-9:
            if not least < start < most:
                return False
            continue
        near, far = sorted(((least - start) / way, (most - start) / way))
        low, top = max(low, near), min(top, far)
    return low < top
