"""The bodies of a figure, and the segments that it shows."""

from __future__ import annotations

from collections.abc import Iterable, Mapping, Sequence
from itertools import combinations

from ..literals import Diagram, Literal, Metric, Term, names_in
from ..statements import Objects
from .course import Event
from .frame import Frame, Place, distance

Pair = tuple[str, str]


def bodies(objects: Objects, facts: Iterable[Literal]) -> list[list[str]]:
    """The objects in parts that no fact ties to others but by equal magnitudes, so that each can be moved alone."""
    parent = {name: name for name, _ in objects}

    def root(name: str) -> str:
        while parent[name] != name:
            name = parent[name]
        return name

    def tie(names: Sequence[str]) -> None:
        for name in names[1:]:
            parent[root(name)] = root(names[0])

    for fact in facts:
        if isinstance(fact, Metric):
            for term in fact.terms():
                tie(term.points)
        elif fact.word != "=" or fact.positive:
            tie(fact.objects)
    found: dict[str, list[str]] = {}
    for name, _ in objects:
        found.setdefault(root(name), []).append(name)
    return list(found.values())


def is_between(fact: Literal) -> bool:
    """Whether a fact tells the order of points."""
    return isinstance(fact, Diagram) and fact.word == "between" and fact.positive


def speaks_of_areas(fact: Literal) -> bool:
    """Whether a fact compares areas."""
    return isinstance(fact, Metric) and fact.terms()[0].word == "area"


def telling(events: Sequence[Event]) -> list[Literal]:
    """The facts that show as segments: all of the statement that speak of magnitudes or of order on a line, and of
    the proof those of segments and angles; areas would fill a figure with diagonals."""
    found: list[Literal] = []
    for event in events:
        if event is events[0] or event is events[-1] and event.kind == "qed":
            found += [fact for fact in event.facts if isinstance(fact, Metric) or is_between(fact)]
        elif event.kind != "undecided":
            found += [fact for fact in event.facts if isinstance(fact, Metric) and not speaks_of_areas(fact)]
    return found


def segments_of(frame: Frame, facts: Iterable[Literal], values: Mapping[str, Place]) -> list[Pair]:
    """The segments that a figure shows, by their ends."""
    return [ends_of(members, values) for members in members_of(frame, facts)]


def ends_of(members: Sequence[str], values: Mapping[str, Place]) -> Pair:
    """The two points that are farthest apart."""
    return max(combinations(members, 2), key=lambda pair: distance(values[pair[0]], values[pair[1]]))


def members_of(frame: Frame, facts: Iterable[Literal]) -> list[tuple[str, ...]]:
    """The segments that a figure shows, each as the points on it: of each line the part with its points, and what the
    terms of facts name. A segment that lies on a line is part of that line."""
    wanted: set[frozenset[str]] = set()
    for fact in facts:
        if isinstance(fact, Metric):
            for side in (fact.left, fact.right):
                wanted |= edges_of([term for _, term in side], frame)
        else:
            roots = [frame.root(name) for name in fact.objects if name in frame.sorts]
            wanted |= pairs_of(roots)
    for line, points in frame.on.items():
        if frame.is_line(line):
            wanted |= pairs_of(points)
    joined: dict[int | frozenset[str], set[str]] = {}
    for pair in sorted(wanted, key=sorted):
        run = next((number for number, run in enumerate(frame.runs) if pair <= run), None)
        joined.setdefault(pair if run is None else run, set()).update(pair)
    return [tuple(sorted(members)) for members in joined.values()]


def pairs_of(points: Sequence[str]) -> set[frozenset[str]]:
    """Neighbours that differ."""
    return {frozenset(pair) for pair in zip(points, points[1:]) if len(set(pair)) > 1}


def edges_of(terms: Sequence[Term], frame: Frame) -> set[frozenset[str]]:
    """The segments of the terms of one side of a literal, as far as their points are there. An edge that two triangles
    of a sum share is inside the figure that they make, and is none."""
    edges: set[frozenset[str]] = set()
    inner: set[frozenset[str]] = set()
    for term in terms:
        if any(name not in frame.sorts for name in term.points):
            continue
        roots = [frame.root(name) for name in term.points]
        pairs = pairs_of(roots)
        if term.word == "area" and roots[0] != roots[-1]:
            pairs.add(frozenset((roots[-1], roots[0])))
            inner |= edges & pairs
        edges |= pairs
    return edges - inner if terms and terms[0].word == "area" else edges


def points_of(frame: Frame, part: Iterable[str]) -> list[str]:
    """The points of a body, each once."""
    return sorted({frame.root(name) for name in part if frame.is_point(name)})


def mentioned(fact: Literal) -> set[str]:
    """The objects of a literal."""
    return set(names_in(fact))
