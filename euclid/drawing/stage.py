"""What is there after some events, and what of it a picture shows."""

from __future__ import annotations

from collections.abc import Container, Sequence
from itertools import combinations

from ..literals import Diagram, Literal, Metric, key
from .attempt import Scene
from .course import Event, name_of
from .frame import Frame, distance
from .labels import Disc, Segment, Spot
from .layout import Layout
from .segments import ends_of, members_of, mentioned, telling
from .wishes import distance_from

FREE = range(1, 10)  # shapes of constructions that put a point somewhere


class Sheet:
    """A scene on paper: the pixels of its objects, and which facts hold."""

    def __init__(self, scene: Scene) -> None:
        self.scene, self.events = scene, scene.events
        self.declared = {name for name, _ in scene.source.declared}
        self.false = {key(fact) for _, fact in scene.false}
        last = self.events[-1]
        self.shown = last.facts if last.kind == "qed" else []
        self.goal = [fact for fact in self.shown if isinstance(fact, Metric)]
        self.layout = Layout(scene)
        self.values = self.layout.values
        self.spots = {name: self.spot_of(name) for name in self.values if scene.frame.is_point(name)}

    def is_true(self, fact: Literal) -> bool:
        """Whether a fact holds in the figure. In a figure of what cannot be, some do not."""
        return key(fact) not in self.false

    def spot_of(self, point: str) -> Spot:
        """The pixels of a point."""
        x, y = self.layout.at(*self.values[point])
        return round(x, 2), round(y, 2)

    def disc(self, circle: str) -> Disc:
        """The pixels of a circle."""
        x, y, radius = self.values[circle]
        return (*self.layout.at(x, y), radius * self.layout.scale)


class Stage:
    """What is there after some events: objects, facts, and the segments that show. Hidden objects and the facts that
    speak of them are left out."""

    def __init__(self, sheet: Sheet, events: Sequence[Event], hidden: Container[str] = ()) -> None:
        gone = {name for event in events for name in event.gone}
        objects = [(name, sort) for event in events for name, sort in event.new
                   if name not in gone and name not in hidden]
        self.names = {name for name, _ in objects}
        facts = [fact for event in events if event.kind != "undecided" for fact in event.facts]
        self.facts = [fact for fact in facts if mentioned(fact) <= self.names and sheet.is_true(fact)]
        self.frame = Frame(objects, self.facts, sheet.values)
        self.segments: dict[tuple[Spot, Spot], tuple[str, ...]] = {}  # by their ends, the points on them
        for members in members_of(self.frame, [*telling(events), *sheet.goal]):
            first, last = sorted(sheet.spots[point] for point in ends_of(members, sheet.values))
            self.segments.setdefault((first, last), members)
        self.places: dict[Spot, list[str]] = {}  # points that are on one spot
        for name, _ in objects:
            if self.frame.is_point(name):
                x, y = sheet.spots[name]
                self.places.setdefault((round(x, 1), round(y, 1)), []).append(name)

    def points_on(self, line: str) -> list[str]:
        """The points of a line or a circle."""
        return self.frame.on.get(self.frame.root(line), []) if line in self.names else []

    def is_whole(self, points: Sequence[str]) -> bool:
        """Whether all points are there and differ."""
        return set(points) <= self.names and len({self.frame.root(point) for point in points}) == len(points)


class Story:
    """The stages of a scene, one after each event; what the whole figure leaves out, and which lines go on beyond
    their points."""

    def __init__(self, sheet: Sheet, hidden: Container[str] = ()) -> None:
        self.sheet, self.events = sheet, sheet.events
        self.stages = [Stage(sheet, self.events[: at + 1], hidden) for at in range(len(self.events))]
        self.whole = Stage(sheet, self.events, hidden)
        left_out = self.helpers()
        all_hidden = left_out | {name for name in self.whole.names if name in hidden}
        self.whole = Stage(sheet, self.events, all_hidden) if left_out else self.whole
        self.full_lines = self.lines_without_two_points() | self.parallels_with_free_ends()

    def lines_without_two_points(self) -> set[str]:
        """Lines that had fewer than two points when they were drawn: they are shown beyond their points."""
        found = set()
        for event, stage in zip(self.events, self.stages):
            for name, _ in event.new:
                if name in stage.names and stage.frame.is_line(name) and len(stage.points_on(name)) < 2:
                    found.add(name)
        return found

    def parallels_with_free_ends(self) -> set[str]:
        """Lines that the statement calls parallel and that are no sides of a figure, and lines across."""
        frame, found = self.whole.frame, set()
        for fact in [*self.events[0].facts, *self.sheet.shown]:
            if isinstance(fact, Diagram) and fact.word == "meets" and not fact.positive:
                for line in fact.objects:
                    if line in frame.sorts and frame.is_line(line) and any(map(self.is_free, self.ends_on(line))):
                        found.add(line)
        across = set()
        for line in [name for name in frame.sorts if frame.is_line(name)]:
            ends = self.ends_on(line)
            if ends and all(any(end in self.whole.points_on(other) for other in found) for end in ends):
                across.add(line)
        return found | across

    def ends_on(self, line: str) -> tuple[str, ...]:
        """The two points of a line that are farthest apart."""
        spots = self.sheet.spots
        pairs = combinations(sorted(self.whole.points_on(line)), 2)
        return max(pairs, key=lambda pair: distance(spots[pair[0]], spots[pair[1]]), default=())

    def is_free(self, point: str) -> bool:
        """Whether a point lies on no more than one segment."""
        x, y = self.sheet.spots[point]
        return sum(distance_from(x, y, *a, *b) < 1 for a, b in self.whole.segments) <= 1

    def helpers(self) -> set[str]:
        """Points that the proof puts somewhere and that the whole figure can do without: no object hangs on them nor
        any magnitude, or they lie on nothing that is shown."""
        found: set[str] = set()
        made = {name for fact in self.sheet.shown for name in mentioned(fact)}
        for number, event in enumerate(self.events):
            if event.kind == "let" and event.shape in FREE and event.new[0][0] not in made:
                name, later = event.new[0][0], self.events[number + 1 :]
                drawn = any(name_of(name) in each.named for each in later if each.new)
                spoken = any(name in mentioned(fact) for each in later for fact in each.facts
                             if isinstance(fact, Metric))
                if self.is_lonely(name) or not (drawn or spoken):
                    found.add(name)
        return found

    def is_lonely(self, point: str) -> bool:
        """Whether a point lies on nothing that is shown."""
        if point not in self.whole.names:
            return False
        x, y = self.sheet.spots[point]
        if any(point in points for points in self.whole.frame.on.values()):
            return False
        return all(distance_from(x, y, *a, *b) > 1 for a, b in self.whole.segments)

    def all_segments(self) -> list[Segment]:
        """All segments that are ever shown."""
        return [(*a, *b) for a, b in dict.fromkeys(pair for stage in self.stages for pair in stage.segments)]
