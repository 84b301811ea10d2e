"""Brings a scene to paper: turns and mirrors each body, puts the bodies side by side, and scales.

The base of a body is laid horizontally, its apex above, as in printed editions of Euclid.
"""

from __future__ import annotations

from collections.abc import Callable, Iterable, Sequence
from math import atan2, cos, sin

from ..literals import Literal
from .attempt import Scene
from .constraints import holds
from .frame import Frame, Place, Values, known_numbers
from .segments import segments_of, telling

WIDTH, HEIGHT = 520, 400  # at most, of the figure without its margin, in pixels
USUAL = 125  # at most pixels for the length 1, but for small figures, which are made larger:
SMALL = 280  # the longer side that these get
MARGIN = 34
GAP = 0.7  # between two bodies
Box = tuple[float, float, float, float]  # left, low, right, high


class Layout:
    """The coordinates of a scene's objects on paper, in figure units, and the box that is shown."""

    def __init__(self, scene: Scene) -> None:
        self.scene = scene
        self.values: Values = dict(scene.values)
        parts = [Body(part, scene) for part in scene.bodies]
        parts = [body for body in parts if body.points or body.lines or body.circles]
        for body in parts:
            body.turn(self.values)
        place(parts, self.values)
        self.box = box_of(self.values, scene.frame)
        left, low, right, high = self.box
        self.scale = scale_for(right - left, high - low)
        self.width = round(2 * MARGIN + (right - left) * self.scale, 1)
        self.height = round(2 * MARGIN + (high - low) * self.scale, 1)

    def at(self, x: float, y: float) -> tuple[float, float]:
        """Pixels of a place of the figure; y grows upwards there and downwards here."""
        left, _, _, high = self.box
        return MARGIN + (x - left) * self.scale, MARGIN + (high - y) * self.scale

    def origin(self) -> tuple[float, float]:
        """The pixels of the place 0, 0."""
        return self.at(0.0, 0.0)

    def false_facts(self) -> list[tuple[int, Literal]]:
        """The facts of the main path that do not hold on paper: each with its step."""
        scene = self.scene
        events = [event for event in scene.events if event.kind != "undecided"]
        facts = [fact for event in events for fact in event.facts]
        frame = Frame(list(scene.frame.sorts.items()), facts, self.values)
        x = known_numbers(frame, self.values)
        return [(event.step, fact) for event in events for fact in event.facts if not holds(fact, frame, x)]


def scale_for(width: float, height: float) -> float:
    """Pixels for the length 1."""
    width, height = max(width, 0.1), max(height, 0.1)
    return min(WIDTH / width, HEIGHT / height, max(USUAL, SMALL / max(width, height)))


class Body:
    """Objects that are moved together."""

    def __init__(self, part: list[str], scene: Scene) -> None:
        frame = self.frame = scene.frame
        self.part = part
        roots = {frame.root(name) for name in part}
        self.points = [name for name in part if frame.is_point(name) and frame.root(name) == name]
        declared = [name for name, _ in scene.source.declared]
        order = {name: number for number, name in enumerate(declared)}
        self.lines = sorted((name for name in part if frame.is_line(name)), key=lambda name: order.get(name, len(order)))
        self.circles = [name for name in part if frame.is_circle(name)]
        self.declared = [name for name in declared if name in roots and frame.is_point(name)]
        segments = segments_of(frame, telling(scene.events), scene.values)
        self.ends = {point for pair in segments for point in pair if point in roots}
        self.box: Box = (0.0, 0.0, 0.0, 0.0)

    def on(self, line: str) -> list[str]:
        """The points of a line."""
        return self.frame.on.get(self.frame.root(line), [])

    def is_flat(self) -> bool:
        """Whether it is a line with points, and nothing else."""
        bare = [name for name in self.lines if len(self.on(name)) < 2]
        return len(self.points) > 1 and not bare and not self.circles and self.box[3] - self.box[1] < 0.51

    def base(self) -> list[str]:
        """Two points of the base: of the first line with two, else the first two points; or fewer."""
        for line in self.lines:
            points = self.on(line)
            for group in ([point for point in points if point in self.declared], points):
                if len(group) > 1:
                    return sorted(group, key=self.points.index)[:2]
        points = [p for p in self.declared if p in self.ends] + [p for p in self.points if p in self.ends]
        return list(dict.fromkeys(points or self.points))[:2]

    def turn(self, values: Values) -> None:
        """Lays the base horizontally, from left to right, with the rest above."""
        base = self.base()
        if len(base) == 2:
            (px, py), (qx, qy) = values[base[0]], values[base[1]]
            angle = atan2(qy - py, qx - px)
        elif self.lines:
            px, py, dx, dy = values[self.lines[0]]
            angle = atan2(dy, dx)
        else:
            px, py = values[(self.points or self.circles)[0]][:2]
            angle = 0.0
        c, s = cos(angle), sin(angle)
        heights = {name: c * (values[name][1] - py) - s * (values[name][0] - px) for name in self.points}
        off = [name for name in self.declared if abs(heights[name]) > 1e-6 and name in self.ends]
        up = heights[off[0]] if off else sum(heights[name] for name in self.points)
        flip = -1 if up < -1e-9 else 1

        def turned(x: float, y: float) -> tuple[float, float]:
            return c * (x - px) + s * (y - py), flip * (c * (y - py) - s * (x - px))

        self.move(values, turned)

    def move(self, values: Values, moved: Callable[[float, float], tuple[float, float]]) -> None:
        """Moves the objects of the body by a function of places."""
        ox, oy = moved(0.0, 0.0)
        for name in self.part:
            x, y, *rest = values[name]
            if self.frame.is_line(name):
                dx, dy = moved(rest[0], rest[1])
                rest = [dx - ox, dy - oy]
            values[name] = (*moved(x, y), *rest)
        self.box = box_of({name: values[name] for name in self.part}, self.frame)


def box_of(values: Values, frame: Frame) -> Box:
    """The least box with all points and circles, and with a place of each line without points, with some room where
    it is flat."""
    xs: list[float] = []
    ys: list[float] = []
    bare: list[Place] = []
    for name, value in values.items():
        if frame.is_line(name):
            bare += [] if frame.on.get(frame.root(name)) else [value]
            continue
        reach = value[2] if frame.is_circle(name) else 0.0
        xs += [value[0] - reach, value[0] + reach]
        ys += [value[1] - reach, value[1] + reach]
    middle = (sum(xs) / len(xs), sum(ys) / len(ys)) if xs else bare[0][:2] if bare else (0.0, 0.0)
    for x, y, dx, dy in bare:
        along = (middle[0] - x) * dx + (middle[1] - y) * dy
        for part in (along - 1, along + 1):
            xs.append(x + part * dx)
            ys.append(y + part * dy)
    if not xs:
        xs, ys = [-1.5, 1.5], [0.0]
    wide = max(0.0, 0.25 - (max(xs) - min(xs)) / 2)
    high = max(0.0, 0.25 - (max(ys) - min(ys)) / 2)
    return min(xs) - wide, min(ys) - high, max(xs) + wide, max(ys) + high


Columns = list[list[Body]]  # bodies one below the other


def place(parts: Sequence[Body], values: Values) -> None:
    """Puts bodies into columns, and these into as many rows as lets the figure be largest. Bodies that are flat stand
    in one column."""
    short = [body for body in parts if body.is_flat()]
    columns = [[body] for body in parts if not body.is_flat()]
    if short:
        columns.insert(0 if len(short) > 1 else len(columns), short)
    best = max(range(1, len(columns) + 1), key=lambda rows: scale_for(*size_of(split(columns, rows))), default=1)
    high = 0.0
    for row in split(columns, best):
        low, right = high, 0.0
        for column in row:
            for number, body in enumerate(column):
                left, bottom, _, _ = body.box
                down = high - number * GAP if len(column) > 1 else base_of(row, high)
                shift(body, values, right - left, down)
                low = min(low, bottom + down)
            right += max(end - left for left, _, end, _ in (body.box for body in column)) + GAP
        high = low - GAP


def shift(body: Body, values: Values, dx: float, dy: float) -> None:
    """Moves a body without turning it."""
    body.move(values, lambda x, y: (x + dx, y + dy))


def base_of(row: Columns, high: float) -> float:
    """Where the bases of a row lie, so that its highest body ends at `high`."""
    return high - max(body.box[3] for column in row for body in column if len(column) == 1)


def split(columns: Columns, rows: int) -> list[Columns]:
    """Columns, in order, as rows of about the same width."""
    if rows == 1 or len(columns) <= 1:
        return [columns]
    widths = [max(widths_of(column)) for column in columns]
    found: list[Columns] = []
    row: Columns = []
    total = 0.0
    for column, width in zip(columns, widths):
        if row and len(found) < rows - 1 and total + width / 2 > sum(widths) * (len(found) + 1) / rows:
            found.append(row)
            row = []
        row.append(column)
        total += width
    return [*found, row]


def widths_of(column: Iterable[Body]) -> list[float]:
    """The widths of bodies."""
    return [body.box[2] - body.box[0] for body in column]


def size_of(rows: list[Columns]) -> tuple[float, float]:
    """The width and the height of rows of columns."""
    wide, high = 0.1, 0.0
    for row in rows:
        widths = [max(widths_of(column)) for column in row]
        wide = max(wide, sum(widths) + GAP * (len(row) - 1))
        single = [body.box for column in row for body in column if len(column) == 1]
        tall = max((box[3] for box in single), default=0.0) - min((box[1] for box in single), default=0.0)
        high += max(tall, GAP * (max(map(len, row), default=1) - 1))
    return wide, high + GAP * (len(rows) - 1) + 0.1
