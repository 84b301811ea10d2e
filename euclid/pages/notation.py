"""Literals and constructions in the notation of geometry: AB = BC, an angle as ∠ABC, a triangle as △ABC.

Points are capitals where no two would be the same; circles have a small circle before their names.
"""

from __future__ import annotations

from collections.abc import Iterable, Mapping, Sequence

from ..drawing import describe
from ..drawing.letters import Letters
from ..literals import CIRCLE, LINE, POINT, Diagram, Literal, Metric, Sort, Sum, Term
from ..rules import Construction

SIGNS = {"=": "=", "!=": "≠", "<": "<", "<=": "≤"}
POSITIVE = describe.POSITIVE | {"=": "{} = {}"}
NEGATIVE = describe.NEGATIVE | {"=": "{} ≠ {}"}
MOST_LIKE = 3  # points on one line that are said together

# What a construction draws, by its number in docs/rules.md; letters are those of its pattern.
DRAWN = {
    1: "{p} be a point", 2: "{p} be a point on {L}", 3: "{p} be a point on {L} between {b} and {c}",
    4: "{p} be a point on {L} beyond {c} from {b}", 5: "{p} be a point on the side of {L} where {b} is",
    6: "{p} be a point on the side of {L} where {b} is not", 7: "{p} be a point on {A}", 8: "{p} be a point inside {A}",
    9: "{p} be a point outside {A}", 10: "{L} be the line through {a} and {b}",
    11: "{A} be the circle about {a} through {b}", 12: "{p} be where {L} and {M} cross",
    13: "{p} be a point where {L} crosses {A}", 14: "{p} and {q} be where {L} crosses {A}",
    15: "{p} be where {L} crosses {A} between {b} and {c}", 16: "{p} be where {L} crosses {A} beyond {b} from {c}",
    17: "{p} be a point where {A} and {B} cross", 18: "{p} and {q} be where {A} and {B} cross",
    19: "{p} be where {A} and {B} cross on the side of {L} where {b} is",
    20: "{p} be where {A} and {B} cross on the side of {L} where {b} is not",
}


class Notation:
    """The names of objects as readers have them."""

    def __init__(self, letters: Letters) -> None:
        self.letters = letters

    def name(self, name: str, sort: Sort | None) -> str:
        """The name of an object."""
        if sort == POINT:
            return self.letters.name(name)
        return ("○" if sort == CIRCLE else "") + name.split("~")[0]

    def names(self, sorts: Mapping[str, Sort]) -> dict[str, str]:
        """The names of objects."""
        return {name: self.name(name, sort) for name, sort in sorts.items()}

    def literal(self, literal: Literal, sorts: Mapping[str, Sort]) -> str:
        """A literal."""
        if isinstance(literal, Metric):
            return f"{self.sum(literal.left)} {SIGNS[literal.relation]} {self.sum(literal.right)}"
        assert isinstance(literal, Diagram)
        forms = POSITIVE if literal.positive else NEGATIVE
        return forms[literal.word].format(*(self.name(name, sorts.get(name)) for name in literal.objects))

    def sum(self, monomials: Sum) -> str:
        """A sum of magnitudes."""
        return " + ".join((f"{number} " if number > 1 else "") + self.term(term) for number, term in monomials) or "0"

    def term(self, term: Term) -> str:
        """A magnitude."""
        points = "".join(map(self.letters.name, term.points))
        return {"seg": points, "ang": "∠" + points, "area": "△" + points, "right": "∟"}[term.word]

    def drawn(self, construction: Construction, letters: Mapping[str, str], sorts: Mapping[str, Sort]) -> str:
        """What a construction draws."""
        names = {letter: self.name(name, sorts.get(name)) for letter, name in letters.items()}
        return DRAWN[construction.number].format(**names)


def letters_of(sorts: Mapping[str, Sort], more: Iterable[str] = ()) -> Letters:
    """The letters for some objects, and for more points."""
    lines = [name for name, sort in sorts.items() if sort == LINE]
    return Letters.of([name for name, sort in sorts.items() if sort == POINT] + list(more), lines)


def gathered(literals: Sequence[Literal]) -> list[Sequence[Literal]]:
    """Literals in groups that are said together: points on one line."""
    found: list[list[Literal]] = []
    for literal in literals:
        last = found[-1][-1] if found else None
        if is_on(literal) and last is not None and is_on(last) and len(found[-1]) < MOST_LIKE \
                and isinstance(last, Diagram) and isinstance(literal, Diagram) and last.objects[1] == literal.objects[1]:
            found[-1].append(literal)
        else:
            found.append([literal])
    return list(found)


def is_on(literal: Literal) -> bool:
    """Whether a literal puts a point onto something."""
    return isinstance(literal, Diagram) and literal.word == "on" and literal.positive


def sentences(notation: Notation, literals: Sequence[Literal], sorts: Mapping[str, Sort]) -> list[str]:
    """Literals as a list of short sentences."""
    return [said for said, _ in grouped(notation, literals, sorts)]


def grouped(notation: Notation, literals: Sequence[Literal], sorts: Mapping[str, Sort]) -> list[tuple[str, Sequence[Literal]]]:
    """Short sentences, each with the literals that it says."""
    found: list[tuple[str, Sequence[Literal]]] = []
    for group in gathered(literals):
        if len(group) == 1:
            found.append((notation.literal(group[0], sorts), group))
            continue
        points = [notation.name(each.objects[0], POINT) for each in group if isinstance(each, Diagram)]
        first = group[0]
        assert isinstance(first, Diagram)
        curve = notation.name(first.objects[1], sorts.get(first.objects[1], LINE))
        found.append((f"{', '.join(points[:-1])} and {points[-1]} are on {curve}", group))
    return found
