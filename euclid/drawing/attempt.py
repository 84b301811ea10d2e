"""One try to find coordinates for a theorem and its proof's main path, from one random start.

It places the declared objects one by one, so that the given literals hold. Then it goes along the main path:
the new objects of a step are placed so that all facts of the path that speak of what is there now hold, those
of later steps too. At the end all objects are moved together for looks.

A loose attempt draws what cannot be: a block that ends in contradiction, or given literals that contradict
each other. Then the diagram, what is supposed and what is constructed has to hold; what is given of
magnitudes and parallels, and what follows, holds as far as it can.
"""

from __future__ import annotations

import random
from collections.abc import Callable, Container, Sequence
from dataclasses import dataclass, field

from ..literals import Diagram, Literal, Sort
from ..statements import Objects
from .constraints import Constraint, constraints, holds, is_strict
from .course import Course, Decisions, Event, Source
from .frame import Frame, Values, known_numbers, numbers_of, values_of
from .measures import Numbers
from .score import ANY, GOOD, View
from .segments import bodies, mentioned, segments_of, telling
from .settle import distinct, far_off, settle
from .wishes import wishes

BACK = 0, 3, 6, 60  # how many objects are placed anew with one of the given that finds no place
NUDGE = 0.2  # how far objects that are placed anew are moved at first
GIVEN_WAYS = 4  # of placing what is given, of which an attempt takes the best
Courses = Callable[[Source, Decisions], Course]


@dataclass
class Scene:
    """A figure: the steps that it shows, and coordinates of all objects, by their ids."""

    source: Source
    events: list[Event]
    values: Values
    frame: Frame
    bodies: list[list[str]]
    view: View  # for the score
    decisions: Decisions  # which block of a `cases` the figure follows, where both end in `qed`
    score: float = 0.0
    false: list[tuple[int, Literal]] = field(default_factory=list)  # a step, and its fact that does not hold
    starts: int = 0  # of the solver, over all attempts
    attempts: int = 0
    is_loose: bool = False
    others: list[Scene] = field(default_factory=list)  # of other attempts, of the same events


class Failed(Exception):
    """An attempt came to nothing: the step, and the facts that could not be had."""

    def __init__(self, step: int, facts: list[Literal]) -> None:
        super().__init__(step)
        self.step, self.facts = step, facts


class Attempt:
    """One try. `courses` makes a course from decisions."""

    def __init__(self, source: Source, rng: random.Random, courses: Courses = Course,
                 forced: Decisions | None = None, loose: bool = False) -> None:
        self.source, self.rng, self.courses, self.loose = source, rng, courses, loose
        self.decisions: Decisions = dict(forced or {})
        self.course = courses(source, self.decisions)
        self.objects: Objects = []
        self.values: Values = {}
        self.declared = {name for name, _ in source.declared}
        self.starts = 0

    def events(self) -> list[Event]:
        """The events that say something."""
        return [event for event in self.course.events if event.kind != "undecided"]

    def facts(self) -> list[Literal]:
        """The facts that the figure has to obey."""
        return [fact for event in self.events() for fact in event.facts if self.is_firm(event, fact)]

    def is_firm(self, event: Event, fact: Literal) -> bool:
        """Whether a fact has to hold."""
        if not self.loose:
            return True
        if event.kind == "given":
            return isinstance(fact, Diagram) and (fact.word != "meets" or fact.positive)
        if event.kind == "apply":
            return bool(event.new)
        return event.kind in ("supposed", "cases", "let", "superpose")

    def run(self) -> list[Scene]:
        """Scenes of this attempt: before and after it was moved for looks."""
        at = 0
        while at < len(self.course.events):
            event = self.course.events[at]
            if event.kind == "undecided":
                self.decide(event)
                continue
            if event.kind == "given":
                self.place_given(event)
            elif event.new:
                self.place(event.step, event.new, self.facts())
            at += 1
        return self.beautified()

    def decide(self, event: Event) -> None:
        """The figure says which case it is."""
        frame = Frame(self.objects, self.facts(), self.values)
        x = known_numbers(frame, self.values)
        self.decisions[event.step] = holds(event.facts[0], frame, x)
        self.course = self.courses(self.source, self.decisions)

    def place_given(self, event: Event) -> None:
        """Places the declared points one by one, each with the lines and circles that it completes, then what is left.
        Where a point finds no place, those before it are moved too."""
        facts = [fact for fact in event.facts if self.is_firm(event, fact)]
        known = [each for each in self.events() if each.kind == "supposed" or not self.loose]
        if self.loose:
            facts += [fact for each in known for fact in each.facts]
        else:  # what follows of order helps to leave room
            facts += [fact for each in known for fact in each.facts
                      if isinstance(fact, Diagram) and not fact.positive]
            facts += [fact for each in known if each.kind == "cases" for fact in each.facts]
        best: tuple[float, Objects, Values] | None = None
        for _ in range(GIVEN_WAYS):
            self.objects, self.values, left, score = [], {}, list(event.new), 0.0
            for point in [pair for pair in event.new if pair[1] == Sort.POINT]:
                new = [point] + [pair for pair in left
                                 if pair[1] != Sort.POINT and self.completes(pair, point, facts)]
                left = [pair for pair in left if pair not in new]
                score = self.place(0, new, facts)
            if left:
                score = self.place(0, left, facts)
            if best is None or score < best[0]:
                best = score, self.objects, self.values
            if score < GOOD:
                break
        if best is not None:
            _, self.objects, self.values = best

    def completes(self, curve: tuple[str, Sort], point: tuple[str, Sort], facts: Sequence[Literal]) -> bool:
        """Whether a line has two points of the figure, or a circle its center and a point, with a new one."""
        placed = {name for name, _ in self.objects} | {point[0]}
        about = [fact for fact in facts if isinstance(fact, Diagram) and fact.positive
                 and fact.word in ("on", "center") and fact.objects[1] == curve[0]]
        own = {fact.objects[0] for fact in about} & placed
        if curve[1] == Sort.CIRCLE and not any(fact.word == "center" and fact.objects[0] in placed for fact in about):
            return False
        return len(own) > 1

    def place(self, step: int, new: Objects, facts: list[Literal]) -> float:
        """Gives coordinates to new objects: of some ways in which the facts hold, those that look best. Tells how
        they look."""
        for back in BACK if step == 0 else BACK[:1]:
            moved = self.objects[max(len(self.objects) - back, 0) :] if back else []
            names = {name for name, _ in moved + new}
            kept = {name: value for name, value in self.values.items() if name not in names}
            objects = self.objects + new
            frame = Frame(objects, self.facts(), kept)
            held = [fact for fact in facts if mentioned(fact) <= set(frame.sorts) and mentioned(fact) & names]
            hard = [one for fact in distinct(held) for one in constraints(fact, frame)]
            ways, nearest = self.ways(frame, kept, hard, names, 8 if step == 0 and not back else 20)
            if ways:
                break
        else:
            if not self.loose or nearest is None:
                raise Failed(step, [fact for fact in held if nearest is None or not holds(fact, frame, nearest)])
            ways = [nearest]
        scores = [self.partial_score(frame, way) for way in ways]
        self.objects = objects
        self.values = values_of(frame, ways[scores.index(min(scores))])
        return min(scores)

    def ways(self, frame: Frame, kept: Values, hard: list[Constraint], names: Container[str], tries: int,
             enough: int = 3) -> tuple[list[Numbers], Numbers | None]:
        """Some lists of numbers with which the constraints hold, and the one that comes nearest."""
        known = numbers_of(frame, kept)
        free = [place for place, number in enumerate(known) if number is None]
        parts = bodies(list(frame.sorts.items()), frame.facts)
        wanted = wishes(frame, [], parts, self.declared)
        wanted = [wish for wish in wanted if set(wish.touch) & set(free)]
        soft = self.soft(frame, names)
        found: list[Numbers] = []
        least, nearest = 0.0, None
        old = numbers_of(frame, self.values)  # of objects that are moved, too
        for turn in range(tries if free else 1):
            self.starts += 1
            x = self.scattered(known, frame)
            for place, number in enumerate(old):
                if known[place] is None and number is not None and turn % 2 == 0:
                    x[place] = number + self.rng.gauss(0, NUDGE)
            if settle(x, free, hard, wanted, soft):
                if any(all(abs(x[at] - y[at]) < 1e-6 for at in free) for y in found):
                    break  # there is one way, or few
                found.append(x)
                if len(found) == enough:
                    break
            elif nearest is None or far_off(hard, x) < least:
                least, nearest = far_off(hard, x), x
        return found, nearest

    def soft(self, frame: Frame, names: Container[str]) -> list[Constraint]:
        """Of a loose attempt, constraints that hold as far as they can."""
        if not self.loose:
            return []
        rest = [fact for event in self.events() for fact in event.facts if not self.is_firm(event, fact)]
        held = [fact for fact in rest if mentioned(fact) <= set(frame.sorts)
                and any(name in names for name in mentioned(fact))]
        return [one for fact in distinct(held) for one in constraints(fact, frame)]

    def scattered(self, known: list[float | None], frame: Frame) -> Numbers:
        """The known numbers, and random ones in the place of the others. New points are somewhere near the middle,
        and half of the times near each other, since they often belong together."""
        points = [value for name, value in self.values.items() if frame.sorts[name] == Sort.POINT]
        mx, my = (sum(each) / len(points) for each in zip(*points)) if points else (0.0, 0.0)
        x = [self.rng.uniform(-1.6, 1.6) if number is None else number for number in known]
        wide = 2.0
        if self.rng.random() < 0.5:
            mx, my, wide = mx + self.rng.uniform(-2, 2), my + self.rng.uniform(-2, 2), 0.7
        for place in frame.points.values():
            if known[place] is None:
                x[place] = mx + self.rng.uniform(-wide, wide)
                x[place + 1] = my + self.rng.uniform(-wide, wide)
        return x

    def beautified(self) -> list[Scene]:
        """Moves all objects together, then makes the equations exact again. Gives the figures before and after."""
        frame = Frame(self.objects, self.facts(), self.values)
        x = known_numbers(frame, self.values)
        parts = bodies(self.objects, frame.facts)
        fixing = [fact for event in self.events() if event.defines() for fact in event.facts
                  if self.is_firm(event, fact)]
        strict = [fact for fact in frame.facts if is_strict(fact)]
        hard = [one for fact in distinct(fixing + strict) for one in constraints(fact, frame)]
        soft = self.soft(frame, frame.sorts)
        scenes = [self.scene(frame, x, parts)]
        for _ in range(2):
            segments = segments_of(frame, telling(self.course.events), self.values)
            wanted = wishes(frame, segments, parts, self.declared)
            settle(x, range(frame.size), hard, wanted, soft)
            scenes.append(self.scene(frame, x, parts))
            self.values = scenes[-1].values
        return scenes

    def partial_score(self, frame: Frame, x: Numbers) -> float:
        """How bad the objects of a frame look."""
        parts = bodies(list(frame.sorts.items()), frame.facts)
        return self.view(frame, x, parts, values_of(frame, x)).score(ANY)

    def view(self, frame: Frame, x: Numbers, parts: list[list[str]], values: Values) -> View:
        """What the score looks at."""
        segments = segments_of(frame, telling(self.course.events), values)
        return View(frame, x, segments, parts, self.declared, values)

    def scene(self, frame: Frame, x: Numbers, parts: list[list[str]]) -> Scene:
        """The figure of these numbers."""
        values = values_of(frame, x)
        false = [(event.step, fact) for event in self.events() for fact in event.facts if not holds(fact, frame, x)]
        view = self.view(frame, x, parts, values)
        return Scene(self.source, self.course.events, values, frame, parts, view, dict(self.decisions), false=false,
                     is_loose=self.loose)
