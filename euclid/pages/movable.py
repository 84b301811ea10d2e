"""A figure for the script of a page: its parts, its states, and the equations by which it moves."""

from __future__ import annotations

from collections.abc import Sequence
from dataclasses import dataclass

from ..drawing.constraints import Constraint, constraints
from ..drawing.elements import order
from ..drawing.figure import Figure, State
from ..drawing.frame import Frame, known_numbers
from ..drawing.measures import Curve, Measure
from ..drawing.settle import distinct
from ..literals import POINT

Json = int | float | str | list["Json"] | dict[str, "Json"]
KINDS = {"zero": 0, "more": 1, "least": 2}
UNITS = {"length": 0, "angle": 1, "area": 2}
SHORT = {"through": "t", "around": "a", "free": "f"}


@dataclass
class Objects:
    """The objects of a figure by their numbers, and where their coordinates are."""

    frame: Frame
    names: list[str]

    def number(self, name: str) -> int:
        """The number of an object."""
        return self.names.index(name)

    def data(self) -> Json:
        """The place of each: of a point a number, of a line or circle its curve."""
        found: list[Json] = []
        for name in self.names:
            found.append(self.frame.point(name) if self.frame.is_point(name) else
                         [self.frame.sorts[name].value[0], *curve_data(self.frame.curve(name))])
        return found


def curve_data(curve: Curve) -> list[Json]:
    """A curve: a letter for its kind, and its places."""
    return [SHORT[curve.kind], *(curve.at[:1] if curve.kind == "free" else curve.at)]


def measure_data(measure: Measure) -> Json:
    """A measure: its name after a sign, and its arguments."""
    sign = {"+": "", "-": "-", "abs": "|"}[measure.sign]
    if measure.name == "sum":
        return [sign + "sum", *([number, measure_data(part)] for number, part in measure.parts)]
    arguments: list[Json] = [curve_data(each) if isinstance(each, Curve) else each for each in measure.arguments]
    return [sign + measure.name, *arguments]


class Movable:
    """The numbers and equations of a figure on paper."""

    def __init__(self, figure: Figure) -> None:
        self.figure = figure
        scene, values = figure.scene, figure.values
        events = [event for event in scene.events if event.kind != "undecided"]
        facts = [fact for event in events for fact in event.facts if figure.sheet.is_true(fact)]
        self.facts = distinct(facts)
        self.frame = Frame(list(scene.frame.sorts.items()), self.facts, values)
        self.x = known_numbers(self.frame, values)
        self.objects = Objects(self.frame, list(self.frame.sorts))
        self.constraints: list[tuple[int, Constraint]] = []
        for number, fact in enumerate(self.facts):
            self.constraints += [(number, each) for each in constraints(fact, self.frame)]

    def numbers(self, values_of: Figure) -> list[float]:
        """The numbers of another figure of the same facts, in the places of this one."""
        return known_numbers(self.frame, values_of.values)

    def declared(self) -> list[int]:
        """The points that may be dragged."""
        return [self.objects.number(name) for name, sort in self.figure.scene.source.declared
                if sort == POINT and self.frame.root(name) == name]


def paper_data(figure: Figure) -> Json:
    """How a figure lies on paper: the pixels of 0, 0, the scale, the size."""
    x, y = figure.layout.origin()
    return [round(x, 2), round(y, 2), round(figure.layout.scale, 4), figure.layout.width, figure.layout.height]


def parts_shown(figure: Figure, kept: Sequence[int]) -> list[int]:
    """The parts that are ever shown in these states or in the whole figure, those below first."""
    states = [*(figure.states[at] for at in kept), figure.whole]
    shown = {part for state in states for part in [*state.shown, *state.classes]}
    return [part for part in order(figure.numbers) if part in shown]


def elements_data(figure: Figure, objects: Objects, parts: Sequence[int]) -> Json:
    """The parts: kind, look, objects, numbers."""
    elements = figure.elements
    found: list[Json] = []
    for at in parts:
        each = elements[at]
        refs: list[Json] = [objects.number(name) for name in each.refs]
        found.append([each.kind, each.look, refs, *each.numbers])
    return found


def states_data(figure: Figure, kept: Sequence[int], parts: Sequence[int]) -> Json:
    """The states, each against the one before: what is shown, what is no more, and classes with their parts."""
    place = {at: number for number, at in enumerate(parts)}
    before: set[int] = set()
    found: list[Json] = []
    for state in [*(figure.states[at] for at in kept), figure.whole]:
        now = {place[at] for at in state.shown}
        found.append([sorted_data(now - before), sorted_data(before - now), classes_data(state, place)])
        before = now
    return found


def sorted_data(numbers: set[int]) -> Json:
    """Numbers in order."""
    return list(sorted(numbers))


def classes_data(state: State, place: dict[int, int]) -> Json:
    """The parts that have a class in a state, by the class."""
    found: dict[str, list[int]] = {}
    for at, word in state.classes.items():
        found.setdefault(word, []).append(place[at])
    return {word: list(sorted(numbers)) for word, numbers in sorted(found.items())}


def rounded(x: Sequence[float]) -> Json:
    """Numbers that are near enough for the script to settle them again."""
    return [round(number, 6) for number in x]


def move_data(movable: Movable, said: Sequence[str], others: Sequence[Figure], parts: Sequence[int] = ()) -> Json:
    """The equations, and other figures: numbers, paper, and the places of names."""
    rows: list[Json] = [[KINDS[each.kind], UNITS[each.unit], number, measure_data(each.measure)]
                        for number, each in movable.constraints]
    return {"at": movable.objects.data(), "x": rounded(movable.x), "rules": rows, "facts": list(said),
            "drag": list(movable.declared()),
            "others": [{"x": rounded(movable.numbers(each)), "paper": paper_data(each),
                        "names": names_data(movable.figure, each, parts)} for each in others]}


def names_data(figure: Figure, other: Figure, parts: Sequence[int]) -> Json:
    """Where the names of points are beside them in another figure, by the numbers of the parts."""
    found: dict[str, Json] = {}
    elements = figure.elements
    for number, at in enumerate(parts):
        each = elements[at]
        if each.kind == "name":
            x, y = other.spots[each.refs[0]]
            dx, dy = other.name_spots.get((round(x, 1), round(y, 1)), (10.0, -10.0))
            found[str(number)] = [dx, dy]
    return found
