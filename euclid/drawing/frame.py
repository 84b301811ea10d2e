"""Where in a list of numbers the coordinates of each object are."""

from __future__ import annotations

from collections.abc import Mapping, Sequence
from math import atan2, cos, hypot, sin

from ..literals import CIRCLE, LINE, POINT, Diagram, Literal, Metric, Sort, names_in
from ..statements import Objects
from .measures import Curve, Measure, Numbers, circle_at, line_at

NEAR = 1e-6  # what is nearer to 0 counts as 0; figures are about 4 wide
Place = tuple[float, ...]  # of a point x, y; of a line a point and its direction; of a circle center and radius
Values = dict[str, Place]


def distance(p: Sequence[float], q: Sequence[float]) -> float:
    """The distance of two places."""
    return hypot(p[0] - q[0], p[1] - q[1])


def is_equality(fact: Literal) -> bool:
    """Whether a literal says that two objects are one."""
    return isinstance(fact, Diagram) and fact.word == "=" and fact.positive


class Frame:
    """The places of numbers. Equal objects, by a fact, have the same places; a line through two known points has
    no numbers of its own, nor has a circle with a known center through a known point."""

    def __init__(self, objects: Objects, facts: Sequence[Literal], near: Mapping[str, Place] | None = None) -> None:
        """`near` has the coordinates of objects that are placed, so that a line which is placed is held by two
        such points, far apart, or has numbers of its own."""
        self.sorts: dict[str, Sort] = dict(objects)
        self.parent = {name: name for name in self.sorts}
        self.near: Mapping[str, Place] = near or {}
        self.facts = [fact for fact in facts if all(name in self.sorts for name in names_in(fact))]
        self.join_equal()
        self.on: dict[str, list[str]] = {}  # the points on each line and circle
        self.center_of: dict[str, str] = {}
        self.off: set[tuple[str, str]] = set()
        self.gather()
        self.runs = self.collinear_sets()
        self.size = 0
        self.points: dict[str, int] = {}
        self.curves: dict[str, Curve] = {}
        for name, sort in self.sorts.items():
            if self.root(name) == name:
                self.put(name, sort)

    def join_equal(self) -> None:
        """Objects that a fact calls equal get one root, the oldest."""
        order = {name: at for at, name in enumerate(self.sorts)}
        for fact in self.facts:
            if isinstance(fact, Diagram) and is_equality(fact):
                first, second = sorted(map(self.root, fact.objects), key=order.__getitem__)
                self.parent[second] = first

    def gather(self) -> None:
        """Which points are on lines and circles, and which are not."""
        for fact in self.facts:
            if isinstance(fact, Diagram) and fact.word == "on":
                point, curve = map(self.root, fact.objects)
                if fact.positive:
                    members = self.on.setdefault(curve, [])
                    if point not in members:
                        members.append(point)
                else:
                    self.off.add((point, curve))
            elif isinstance(fact, Diagram) and fact.word == "center" and fact.positive:
                point, circle = map(self.root, fact.objects)
                self.center_of.setdefault(circle, point)

    def root(self, name: str) -> str:
        """The object that stands for an object and those equal to it."""
        while self.parent[name] != name:
            name = self.parent[name]
        return name

    def collinear_sets(self) -> list[set[str]]:
        """Sets of points on one line, by `on` and `between`; sets that share two points are joined."""
        sets = [set(members) for curve, members in self.on.items() if self.sorts[curve] == LINE]
        for fact in self.facts:
            if isinstance(fact, Diagram) and fact.word == "between" and fact.positive:
                sets.append(set(map(self.root, fact.objects)))
        joined: list[set[str]] = []
        for one in sets:
            while (other := next((each for each in joined if len(each & one) > 1), None)) is not None:
                joined.remove(other)
                one = one | other
            joined.append(one)
        return joined

    def are_in_line(self, points: set[str]) -> bool:
        """Whether facts say that these points are on one line."""
        return any(points <= run for run in self.runs)

    def numbers(self, count: int) -> int:
        """Places for so many more numbers: the first of them."""
        self.size += count
        return self.size - count

    def put(self, name: str, sort: Sort) -> None:
        """Gives an object its places."""
        if sort == POINT:
            self.hold([name])
        elif sort == LINE:
            pair = self.pair_on(name)
            if pair:
                self.hold(pair)
                self.curves[name] = Curve("through", tuple(self.points[point] for point in pair))
            else:
                self.curves[name] = Curve("free", (self.numbers(2),))
        else:
            self.put_circle(name)

    def hold(self, points: Sequence[str]) -> None:
        """Gives places to points, which may come after their curve."""
        for point in points:
            if point not in self.points:
                self.points[point] = self.numbers(2)

    def put_circle(self, name: str) -> None:
        """Gives a circle its places."""
        center = self.center_of.get(name)
        rim = [point for point in self.on.get(name, []) if point != center]
        if name in self.near:
            rim = [point for point in rim if point in self.near]
        if center is None:
            self.curves[name] = Curve("free", (self.numbers(3), 0, 0))
            return
        self.hold([center, *rim[:1]])
        if rim:
            self.curves[name] = Curve("through", (self.points[center], self.points[rim[0]]))
        else:
            self.curves[name] = Curve("around", (self.points[center], self.numbers(1)))

    def pair_on(self, line: str) -> tuple[str, str] | None:
        """Two points that hold a line: far apart where they are placed, else the first two."""
        points = self.on.get(line, [])
        placed = [point for point in points if point in self.near]
        if line in self.near or len(placed) > 1:
            pairs = [(p, q) for at, p in enumerate(placed) for q in placed[:at]]
            far = max(pairs, key=lambda pair: (distance(self.near[pair[0]], self.near[pair[1]]), pair), default=None)
            return far if far and distance(self.near[far[0]], self.near[far[1]]) > NEAR else None
        return (points[0], points[1]) if len(points) > 1 else None

    def point(self, name: str) -> int:
        """The place of a point's numbers."""
        return self.points[self.root(name)]

    def curve(self, name: str) -> Curve:
        """The places of a line's or a circle's numbers."""
        return self.curves[self.root(name)]

    def is_point(self, name: str) -> bool:
        """Whether an object is a point."""
        return self.sorts[name] == POINT

    def is_line(self, name: str) -> bool:
        """Whether an object is a line."""
        return self.sorts[name] == LINE

    def is_circle(self, name: str) -> bool:
        """Whether an object is a circle."""
        return self.sorts[name] == CIRCLE

    def away(self, point: str, curve: str) -> Measure:
        """How far a point is from a line or a circle, with a sign for its side."""
        name = "side" if self.is_line(curve) else "outside"
        return Measure(name, (self.point(point), self.curve(curve)))

    def apart(self, first: str, second: str) -> Measure:
        """The distance of two points."""
        return Measure("apart", (self.point(first), self.point(second)))

    def term(self, word: str, names: Sequence[str]) -> Measure:
        """The magnitude of a term."""
        if word == "right":
            return Measure("right")
        places = tuple(self.point(name) for name in names)
        if len(set(places)) < len(places):
            return Measure("nothing")
        return Measure({"seg": "apart", "ang": "angle", "area": "area"}[word], places)

    def difference(self, literal: Metric) -> Measure:
        """The right side of a metric literal less the left one."""
        parts = tuple((sign * coefficient, self.term(term.word, term.points))
                      for sign, monomials in ((-1, literal.left), (1, literal.right))
                      for coefficient, term in monomials)
        return Measure("sum", parts=parts)


def numbers_of(frame: Frame, values: Mapping[str, Place]) -> list[float | None]:
    """The numbers of a frame, from the coordinates of its objects; None where there is none."""
    x: list[float | None] = [None] * frame.size
    for name, place in frame.points.items():
        if name in values:
            x[place], x[place + 1] = values[name]
    for name, curve in frame.curves.items():
        value = values.get(name)
        if value is None:
            continue
        if curve.kind == "free" and frame.sorts[name] == LINE:
            px, py, dx, dy = value
            theta, k = atan2(-dx, dy), curve.at[0]
            x[k], x[k + 1] = theta, cos(theta) * px + sin(theta) * py
        elif curve.kind == "free":
            k = curve.at[0]
            x[k], x[k + 1], x[k + 2] = value
        elif curve.kind == "around":
            x[curve.at[1]] = value[2]
    return x


def known_numbers(frame: Frame, values: Mapping[str, Place]) -> Numbers:
    """The numbers of a frame of which all objects have coordinates."""
    return [0.0 if number is None else number for number in numbers_of(frame, values)]


def values_of(frame: Frame, x: Numbers) -> Values:
    """The coordinates of all objects of a frame, from its numbers."""
    values: Values = {}
    for name, sort in frame.sorts.items():
        if sort == POINT:
            place = frame.point(name)
            values[name] = (x[place], x[place + 1])
        elif sort == LINE:
            values[name] = line_at(frame.curve(name))(x)
        else:
            values[name] = circle_at(frame.curve(name))(x)
    return values
