"""The picture of a scene: its parts, and which of them each step shows.

What is given is black, what the proof draws is slate. What a step adds is red; what its facts speak of is shaded,
the left side of an equation or inequality in orange, the right side in blue; and what they follow from in yellow.
Equal segments have ticks and equal angles arcs, in blue where they are still to be shown. Nothing moves from one
step to the next.
"""

from __future__ import annotations

from collections.abc import Container, Iterable, Sequence
from dataclasses import dataclass, field
from math import cos, hypot, pi, sin

from ..literals import Literal, Metric, Sum, Term
from . import marks
from .attempt import Scene
from .course import Event, name_of
from .elements import Element, farthest, line_ends
from .frame import distance
from .labels import Labels, Spot
from .letters import Letters, lines_in
from .segments import mentioned, speaks_of_areas
from .stage import Sheet, Stage, Story
from .wishes import distance_from

ARC, SQUARE = 21, 11
MOST_REASONS = 5  # more facts than these would colour everything
MOST_MARKS = 5  # classes of equal segments, and of equal angles


@dataclass
class State:
    """What a picture shows: parts by their numbers, and classes that some have besides."""

    shown: dict[int, None] = field(default_factory=dict)
    classes: dict[int, str] = field(default_factory=dict)


class Figure:
    """The picture of a scene."""

    def __init__(self, scene: Scene, hidden: Container[str] = (), with_states: bool = True) -> None:
        """Without states there are the places of points and names alone."""
        self.scene, self.events = scene, scene.events
        self.sheet = Sheet(scene)
        self.layout, self.values, self.spots = self.sheet.layout, self.sheet.values, self.sheet.spots
        self.story = Story(self.sheet, hidden)
        self.letters = Letters.of(self.spots, lines_in(scene.source.theorem))
        self.numbers: dict[Element, int] = {}  # the parts, in the order in which they came
        self.is_statement = len(self.events) == 2 and self.events[-1].step == 0
        self.name_spots = self.places_of_names()
        self.taken: list[Spot] = []
        self.curve_names: dict[str, Element] = {}
        self.states = [self.state_of(at) for at in range(len(self.events))] if with_states else []
        self.whole = self.whole_state() if with_states else State()

    @property
    def elements(self) -> list[Element]:
        """The parts, by their numbers."""
        return list(self.numbers)

    def part(self, element: Element) -> int:
        """The number of a part."""
        return self.numbers.setdefault(element, len(self.numbers))

    def show(self, state: State, element: Element, extra: str = "") -> None:
        """Shows a part, with a class that it has besides."""
        number = self.part(element)
        state.shown[number] = None
        if extra:
            self.colour(state, number, extra)

    def mark(self, state: State, element: Element, extra: str) -> None:
        """Shows a part for this step alone."""
        self.colour(state, self.part(element), extra)

    def colour(self, state: State, number: int, extra: str) -> None:
        """Gives a part a class besides, where it has none."""
        state.classes.setdefault(number, extra)

    # Names

    def places_of_names(self) -> dict[Spot, tuple[float, float]]:
        """Where the name of each point is, beside it: the same at each step."""
        texts: dict[Spot, str] = {}
        for stage in [*self.story.stages, self.story.whole]:
            for spot, names in stage.places.items():
                text = self.letters.text(names)
                if len(text) >= len(texts.get(spot, "")):
                    texts[spot] = text
        segments = self.story.all_segments()
        segments += [self.full_ends(name) for name in sorted(self.story.full_lines)]
        circles = [self.sheet.disc(name) for name in self.values if self.scene.frame.is_circle(name)]
        terms = [term for fact in [*self.events[0].facts, *self.sheet.goal] if isinstance(fact, Metric)
                 for term in fact.terms() if term.word == "ang"]
        wedges = [self.angle(term) for term in terms
                  if all(point in self.values for point in term.points) and self.is_open(term)]
        box = 2.0, 2.0, self.layout.width - 2, self.layout.height - 2
        labels: Labels[Spot] = Labels(segments, circles, list(texts), wedges, box)
        placed = labels.place({spot: (text, spot) for spot, text in texts.items()})
        return {spot: (round(box[0] - spot[0], 1), round(box[1] - spot[1], 1)) for spot, box in placed.items()}

    def is_open(self, term: Term) -> bool:
        """Whether the points of an angle are on three spots."""
        return len({self.spots[point] for point in term.points}) == 3

    def full_ends(self, line: str) -> tuple[float, float, float, float]:
        """The ends of a line that is shown beyond its points."""
        return line_ends(self.layout, line, self.members(line))

    def members(self, line: str) -> tuple[str, ...]:
        """The points on a line in the whole figure."""
        return tuple(sorted(self.story.whole.points_on(line)))

    def full_line(self, kind: str, line: str, look: str = "") -> Element:
        """A line that is shown beyond its points."""
        return Element(kind, (line, *self.members(line)), look)

    # States

    def whole_state(self) -> State:
        """All that is drawn and left, and in blue the marks of what is to be shown."""
        state = State()
        if self.is_statement:
            self.shade_goals(state)
        self.draw(state, self.story.whole, None)
        self.draw_marks(state, self.story.whole, self.sheet.goal, "goal")
        return state

    def shade_goals(self, state: State) -> None:
        """The two sides of what is to be shown, where no marks say it and it can be seen; given areas."""
        given = [fact for fact in self.events[0].facts if isinstance(fact, Metric) and speaks_of_areas(fact)]
        if len(given) == 1:
            self.shade(state, given[0], self.story.whole, "given-area")
        goals = [fact for fact in self.sheet.goal if not marks.simple_equation(fact)]
        areas = [fact for fact in goals if speaks_of_areas(fact)]
        if len(areas) == 1:
            self.shade(state, areas[0], self.story.whole)
        goals = [fact for fact in goals if not speaks_of_areas(fact)]
        left, right = ({term.normal() for side in sides for _, term in side} for sides in both_sides(goals))
        if not left & right:
            for fact in goals:
                self.shade(state, fact, self.story.whole)

    def state_of(self, at: int) -> State:
        """The figure after an event, with what it adds, what it speaks of and what it follows from."""
        event, stage, state = self.events[at], self.story.stages[at], State()
        before = self.story.stages[at - 1] if at else None
        facts = event.facts if at and event.kind != "undecided" else []
        facts = [fact for fact in facts if mentioned(fact) <= stage.names]
        reasons = [fact for fact in event.because if mentioned(fact) <= stage.names]
        for fact in facts:
            self.shade(state, fact, stage)
        if len(reasons) <= MOST_REASONS:
            for fact in reasons:
                self.shade(state, fact, stage, "why")
        self.draw(state, stage, before, facts, event.named if at else ())
        self.draw_marks(state, stage, facts, "new")
        return state

    def draw(self, state: State, stage: Stage, before: Stage | None, facts: Sequence[Literal] = (),
             words: Sequence[str] = ()) -> None:
        """Circles, lines and segments, then points and names."""
        fresh = stage.names - before.names if before else set()
        spoken = {name for fact in facts if not isinstance(fact, Metric) for name in fact.objects}
        frame = stage.frame
        for name in [name for name in frame.sorts if frame.is_circle(name) and frame.root(name) == name]:
            if name in spoken:
                self.mark(state, Element("disc", (name,)), "left")
            look = "given" if name in self.sheet.declared else "thin"
            self.show(state, Element("circle", (name,), look), "new" if name in fresh else "")
        self.draw_lines(state, stage, before, fresh, spoken)
        for spot, names in stage.places.items():
            new = any(name in fresh for name in names)
            hot = any(name in spoken for name in names)
            if hot:
                self.mark(state, Element("ring", (names[0],)), "hot")
            extra = "new" if new else "hot" if hot else ""
            self.show(state, Element("dot", (names[0],)), extra)
            text = self.letters.text(names)
            self.show(state, Element("name", (names[0],), "", self.name_spots[spot], text), extra)
        for name in self.curves_to_name(stage, words):
            self.show(state, self.curve_name(name, stage), "hot" if name in fresh or name in spoken else "")

    def draw_lines(self, state: State, stage: Stage, before: Stage | None, fresh: set[str], spoken: set[str]) -> None:
        """Lines and segments."""
        frame, drawn = stage.frame, set()
        for name in [name for name in frame.sorts if frame.is_line(name)]:
            if name in spoken:
                self.mark(state, self.line_band(name, stage), "left")
            root = frame.root(name)
            if name in self.story.full_lines and root not in drawn:
                drawn.add(root)
                look = "given" if name in self.sheet.declared else ""
                self.show(state, self.full_line("line", name, look), "new" if name in fresh else "")
        for ends, members in stage.segments.items():
            new = before is not None and ends not in before.segments
            self.show(state, Element("segment", members), "new" if new else "")
        for members in self.story.stages[0].segments.values():
            if set(members) <= stage.names:
                self.show(state, Element("part", members, "given"))

    def line_band(self, line: str, stage: Stage) -> Element:
        """The shade along a line."""
        points = set(stage.points_on(line))
        if line not in self.story.full_lines and len(points) > 1:
            return Element("band", tuple(sorted(points)))
        return self.full_line("lineband", line)

    def curves_to_name(self, stage: Stage, words: Sequence[str]) -> list[str]:
        """The lines and circles that have a name in a picture: those of its step, or else the declared ones that have
        no two points to name them."""
        curves = [name for name in stage.frame.sorts if not stage.frame.is_point(name)]
        if words:
            return [name for name in curves if name_of(name) in words]
        bare = [name for name in curves if len(stage.points_on(name)) < 2]
        return [name for name in bare if name in self.sheet.declared or self.is_statement]

    # Names of lines and circles

    def curve_name(self, name: str, stage: Stage) -> Element:
        """The name of a line or a circle, beside it: where it was put first."""
        if name not in self.curve_names:
            self.curve_names[name] = self.best_curve_name(name, stage)
        return self.curve_names[name]

    def best_curve_name(self, name: str, stage: Stage) -> Element:
        """Of some places for a name the one with most room."""
        text = name_of(name)
        if stage.frame.is_circle(name):
            x, y, radius = self.sheet.disc(name)
            ways = [round(at * pi / 12, 3) for at in range(24)]
            choices = [((x + cos(way) * (radius + 10), y + sin(way) * (radius + 10)),
                        Element("roundname", (name,), "curve", (way,), text)) for way in ways]
        else:
            points = tuple(sorted(set(stage.points_on(name))))
            is_full = name in self.story.full_lines or len({self.spots[point] for point in points}) < 2
            kind = "linename" if is_full else "segname"
            refs = (name, *self.members(name)) if is_full else points
            ends = self.full_ends(name) if is_full else farthest([self.spots[point] for point in points])
            choices = []
            for part in (0.5, 0.3, 0.7, 0.15, 0.85, 0.4, 0.6, 0.05, 0.95):
                for aside in (10.0, -10.0):
                    spot = self.beside(ends, part, aside)
                    choices.append((spot, Element(kind, refs, "curve", (part, aside), text)))
        spot, element = max(choices, key=lambda choice: self.room(choice[0]))
        self.taken.append(spot)
        return element

    def beside(self, ends: tuple[float, float, float, float], part: float, aside: float) -> Spot:
        """A spot beside a segment."""
        ax, ay, bx, by = ends
        length = hypot(bx - ax, by - ay) or 1.0
        ux, uy = (bx - ax) / length, (by - ay) / length
        return ax + part * length * ux - aside * uy, ay + part * length * uy + aside * ux

    def room(self, spot: Spot) -> float:
        """How far a spot is from names, points and segments, as far as it matters."""
        x, y = spot
        if not (8 < x < self.layout.width - 8 and 8 < y < self.layout.height - 8):
            return -1.0
        names = [(at[0] + move[0], at[1] + move[1]) for at, move in self.name_spots.items()]
        gap = min((distance(spot, other) for other in [*names, *self.taken, *self.name_spots]), default=99.0)
        lines = min((distance_from(x, y, *one) for one in self.story.all_segments()), default=99.0)
        return min(gap, 22.0) + min(lines, 10.0)

    # Shades

    def shade(self, state: State, fact: Literal, stage: Stage, look: str = "") -> None:
        """What a fact of magnitudes or of order speaks of."""
        if not isinstance(fact, Metric):
            if fact.word == "between":
                self.mark(state, Element("band", tuple(fact.objects)), look or "left")
            return
        for side, sum_of in (("left", fact.left), ("right", fact.right)):
            for _, term in sum_of:
                if term.points and stage.is_whole(term.points):
                    self.shade_term(state, term, side, look or side)

    def shade_term(self, state: State, term: Term, side: str, look: str) -> None:
        """What a term speaks of."""
        term = term.normal()
        if term.word == "seg":
            self.mark(state, Element("band", term.points), look)
        elif term.word == "area":
            self.mark(state, Element("area", term.points), look)
        elif self.is_open(term):
            *_, most = self.angle(term)
            size = round(most * (0.7 if side == "right" else 1.0), 1)
            self.mark(state, Element("wedge", term.points, "", (size,)), look)

    def angle(self, term: Term) -> tuple[Spot, float, float, float]:
        """The vertex of an angle in pixels, its directions, and a radius that fits."""
        vertex, first, turn = marks.opening(term, self.values)
        a, v, b = term.points
        legs = [distance(self.spots[v], self.spots[end]) for end in (a, b)]
        return self.layout.at(*vertex), first, turn, min(ARC * 1.4, 0.75 * min(legs))

    # Marks

    def draw_marks(self, state: State, stage: Stage, facts: Sequence[Literal], look: str) -> None:
        """Ticks on equal segments, arcs in equal angles, squares in right ones. Those of given facts are black; those
        of other facts look as it is asked for."""
        given = [fact for fact in self.events[0].facts if self.sheet.is_true(fact)]
        facts = [fact for fact in facts if self.sheet.is_true(fact)]
        black = {term for terms in marks.classes(given) for term in terms}
        used = {"seg": 0, "ang": 0}
        done: set[tuple[object, ...]] = set()
        radii: dict[Spot, dict[int, float]] = {}
        for terms in marks.classes([*given, *facts]):
            right = marks.RIGHT in terms
            terms = [term for term in terms if term.points and stage.is_whole(term.points)]
            if not terms:
                continue
            word = terms[0].word
            used[word] += not right
            for term in terms:
                key = (word, *marks.same_place(term, self.values))
                if key in done or used[word] > MOST_MARKS:
                    continue
                done.add(key)
                element = self.mark_of(term, used[word], right, radii)
                if element is None:
                    continue
                if term in black:
                    self.show(state, element)
                elif look == "goal":
                    self.show(state, element, "goal")
                else:
                    self.mark(state, element, look)

    def mark_of(self, term: Term, count: int, right: bool, radii: dict[Spot, dict[int, float]]) -> Element | None:
        """The mark of a term of a class of equal ones."""
        if term.word == "seg":
            return self.tick(term, count)
        if not self.is_open(term):
            return None
        at, _, _, most = self.angle(term)
        if right:
            return Element("square", term.points, "tick", (round(min(SQUARE, most * 0.6), 1),))
        sizes = radii.setdefault((round(at[0]), round(at[1])), {})
        if count not in sizes:  # at one vertex those of another class are wider
            widest = max((size + 3.2 * number + 4 for number, size in sizes.items()), default=ARC * 0.75)
            sizes[count] = min(widest, most * 1.2)
        return Element("arc", term.points, "tick", (count, round(sizes[count], 1)))

    def tick(self, term: Term, count: int) -> Element | None:
        """Strokes on a segment, away from its points."""
        (ax, ay), (bx, by) = (self.spots[point] for point in term.points)
        length = hypot(bx - ax, by - ay)
        if length < 12:
            return None
        ux, uy = (bx - ax) / length, (by - ay) / length
        crossings = [0.0, length]
        for px, py in self.story.whole.places:
            if abs((px - ax) * uy - (py - ay) * ux) < 3:
                crossings.append((px - ax) * ux + (py - ay) * uy)
        choices = (0.5, 0.44, 0.56, 0.38, 0.62, 0.3, 0.7)
        fit = [part for part in choices if all(abs(part * length - each) > 5 + 2 * count for each in crossings)]
        return Element("tick", term.points, "tick", (count, fit[0] if fit else 0.5))


def both_sides(facts: Sequence[Literal]) -> tuple[list[Sum], list[Sum]]:
    """The left sides of facts of magnitudes, and their right sides."""
    metric = [fact for fact in facts if isinstance(fact, Metric)]
    return [fact.left for fact in metric], [fact.right for fact in metric]


def steps_shown(events: Sequence[Event]) -> dict[int, int]:
    """The place of the last event of each step."""
    return {event.step: at for at, event in enumerate(events) if event.kind != "undecided"}
