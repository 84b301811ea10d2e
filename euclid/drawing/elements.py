"""The parts of a picture: what each one is drawn from, so that it can be drawn again where points have moved.

The script of a page has the same shapes: see figure.js.
"""

from __future__ import annotations

from collections.abc import Mapping, Sequence
from dataclasses import dataclass
from math import atan2, cos, hypot, pi, sin
from typing import Protocol

from .frame import Place
from .labels import Segment, Spot

OVERSHOOT = 20  # pixels by which a line goes on beyond its last points
TICK = 5  # half the length of a tick
GAP = 4  # between two ticks
RING = 3.2  # between two arcs
LAYERS = ("area", "wedge", "disc", "band", "lineband", "circle", "line", "segment", "part", "tick", "arc", "square",
          "ring", "dot", "roundname", "linename", "segname", "name")
Tag = tuple[str, dict[str, str]]


@dataclass(frozen=True, slots=True)
class Element:
    """A part of a picture.

    `refs` are the objects from which it is drawn, `numbers` what else says where it is: of a name its place beside
    its point, of a tick how many and how far along, of an arc how many and its radius.
    """

    kind: str
    refs: tuple[str, ...]
    look: str = ""
    numbers: tuple[float, ...] = ()
    text: str = ""

    @property
    def layer(self) -> int:
        """What is drawn first is below."""
        return LAYERS.index(self.kind)


class Paper(Protocol):
    """Where things are on paper."""

    values: dict[str, Place]
    scale: float
    width: float
    height: float

    def at(self, x: float, y: float) -> Spot:
        """Pixels of a place."""


def shape(element: Element, paper: Paper) -> Tag:
    """The SVG element of a part, with its attributes but the class."""
    kind, refs = element.kind, element.refs
    if kind in ("segment", "part", "band"):
        return line_tag(farthest([spot(paper, point) for point in refs]))
    if kind in ("line", "lineband"):
        return line_tag(line_ends(paper, refs[0], refs[1:]))
    if kind in ("circle", "disc"):
        x, y, radius = paper.values[refs[0]]
        return circle_tag(paper.at(x, y), radius * paper.scale)
    if kind in ("dot", "ring"):
        return circle_tag(spot(paper, refs[0]), 3.2 if kind == "dot" else 7.5)
    if kind == "area":
        return "polygon", {"points": " ".join(f"{x:.1f},{y:.1f}" for x, y in (spot(paper, p) for p in refs))}
    if kind == "tick":
        return "path", {"d": ticks(spot(paper, refs[0]), spot(paper, refs[1]), *element.numbers)}
    if kind in ("arc", "wedge", "square"):
        return "path", {"d": angle_path(element, paper)}
    return name_tag(element, paper)


def spot(paper: Paper, point: str) -> Spot:
    """The pixels of a point."""
    return paper.at(paper.values[point][0], paper.values[point][1])


def number(value: float) -> str:
    """A number of pixels."""
    text = f"{value:.1f}".removesuffix(".0")
    return "0" if text == "-0" else text


def line_tag(ends: Segment) -> Tag:
    """A line of SVG."""
    return "line", dict(zip(("x1", "y1", "x2", "y2"), map(number, ends)))


def circle_tag(center: Spot, radius: float) -> Tag:
    """A circle of SVG."""
    return "circle", {"cx": number(center[0]), "cy": number(center[1]), "r": number(radius)}


def farthest(spots: Sequence[Spot]) -> Segment:
    """The two spots that are farthest apart."""
    pairs = [(p, q) for at, q in enumerate(spots) for p in spots[:at]]
    p, q = max(pairs, key=lambda pair: hypot(pair[0][0] - pair[1][0], pair[0][1] - pair[1][1]))
    return (*p, *q)


def line_ends(paper: Paper, line: str, points: Sequence[str]) -> Segment:
    """The ends of a line that is shown beyond its points: a little beyond its last points, or in the end those of the
    picture."""
    x, y, dx, dy = paper.values[line]
    (px, py), (ux, uy) = paper.at(x, y), (dx, -dy)
    at = [(qx - px) * ux + (qy - py) * uy for qx, qy in (spot(paper, point) for point in points)]
    first, last = clipped(paper, px, py, ux, uy)
    if at:
        room = OVERSHOOT if len(at) > 1 else 4 * OVERSHOOT
        first, last = max(first, min(at) - room), min(last, max(at) + room)
    return px + first * ux, py + first * uy, px + last * ux, py + last * uy


def clipped(paper: Paper, px: float, py: float, ux: float, uy: float) -> tuple[float, float]:
    """The part of a line in the picture, by the distances from a place of the line."""
    low, high = -1e4, 1e4
    for start, way, size in ((px, ux, paper.width), (py, uy, paper.height)):
        if abs(way) > 1e-9:
            near, far = sorted(((6 - start) / way, (size - 6 - start) / way))
            low, high = max(low, near), min(high, far)
    return (low, high) if low < high else (-60, 60)


def ticks(a: Spot, b: Spot, count: float, part: float) -> str:
    """Some strokes across a segment."""
    length = hypot(b[0] - a[0], b[1] - a[1]) or 1.0
    ux, uy = (b[0] - a[0]) / length, (b[1] - a[1]) / length
    found = []
    for at in range(int(count)):
        along = part * length + (at - (count - 1) / 2) * GAP
        x, y = a[0] + along * ux, a[1] + along * uy
        ends = (x - TICK * uy, y + TICK * ux, x + TICK * uy, y - TICK * ux)
        found.append("M{} {}L{} {}".format(*map(number, ends)))
    return "".join(found)


def opening(a: Spot, v: Spot, b: Spot) -> tuple[float, float]:
    """The direction of one leg of an angle, and the turn to the other, counterclockwise on paper."""
    first, second = atan2(v[1] - a[1], a[0] - v[0]), atan2(v[1] - b[1], b[0] - v[0])
    turn = (second - first) % (2 * pi)
    return (first, turn) if turn <= pi else (second, 2 * pi - turn)


def angle_path(element: Element, paper: Paper) -> str:
    """Arcs, a sector or a square in an angle."""
    a, v, b = (spot(paper, point) for point in element.refs)
    first, turn = opening(a, v, b)
    if element.kind == "square":
        (size,) = element.numbers
        last = first + turn
        corners = [(cos(first), sin(first)), (cos(first) + cos(last), sin(first) + sin(last)), (cos(last), sin(last))]
        return "M" + "L".join(f"{number(v[0] + size * x)} {number(v[1] - size * y)}" for x, y in corners)
    if element.kind == "wedge":
        return arc(v, first, turn, element.numbers[0]) + f"L{number(v[0])} {number(v[1])}Z"
    count, radius = element.numbers
    return "".join(arc(v, first, turn, radius + RING * at) for at in range(int(count)))


def arc(v: Spot, first: float, turn: float, radius: float) -> str:
    """A part of a circle."""
    last = first + turn
    numbers = (v[0] + radius * cos(first), v[1] - radius * sin(first), radius, radius,
               v[0] + radius * cos(last), v[1] - radius * sin(last))
    return "M{} {}A{} {} 0 0 0 {} {}".format(*map(number, numbers))


def name_tag(element: Element, paper: Paper) -> Tag:
    """A name, beside its object."""
    if element.kind == "name":
        x, y = spot(paper, element.refs[0])
        x, y = x + element.numbers[0], y + element.numbers[1]
    elif element.kind == "roundname":
        cx, cy, radius = paper.values[element.refs[0]]
        x, y = paper.at(cx, cy)
        reach, way = radius * paper.scale + 10, element.numbers[0]
        x, y = x + reach * cos(way), y + reach * sin(way)
    else:
        refs = element.refs
        ends = line_ends(paper, refs[0], refs[1:]) if element.kind == "linename" else \
            farthest([spot(paper, point) for point in refs])
        x, y = beside(ends, *element.numbers)
    return "text", {"x": number(x), "y": number(y + 5)}


def beside(ends: Segment, part: float, aside: float) -> Spot:
    """A spot beside a segment, so far along and aside."""
    ax, ay, bx, by = ends
    length = hypot(bx - ax, by - ay) or 1.0
    ux, uy = (bx - ax) / length, (by - ay) / length
    return ax + part * length * ux - aside * uy, ay + part * length * uy + aside * ux


def order(elements: Mapping[Element, int]) -> list[int]:
    """The numbers of elements, those below first."""
    return [at for _, at in sorted(elements.items(), key=lambda item: (item[0].layer, item[1]))]
