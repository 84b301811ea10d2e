"""What a figure shows, in words, for who does not see it."""

from __future__ import annotations

from ..literals import Diagram, Literal, Metric, Sum
from ..script import Theorem
from .letters import Letters, lines_in

POSITIVE = {
    "on": "{} is on {}", "inside": "{} is inside {}", "center": "{} is the center of {}",
    "between": "{1} is between {0} and {2}", "same-side": "{} and {} are on one side of {}", "meets": "{} crosses {}",
    "=": "{} is {}",
}
NEGATIVE = {
    "on": "{} is not on {}", "inside": "{} is not inside {}", "center": "{} is not the center of {}",
    "between": "{1} is not between {0} and {2}", "same-side": "{} and {} are not on one side of {}",
    "meets": "{} does not cross {}", "=": "{} is not {}",
}
RELATIONS = {"=": "equals", "!=": "does not equal", "<": "is less than", "<=": "is at most"}


def description(theorem: Theorem) -> str:
    """What is given and what is shown."""
    statement = theorem.statement
    objects = statement.declared + statement.made
    letters = Letters.of((name for name, sort in objects if sort.value == "point"), lines_in(theorem))
    points = {name for name, sort in objects if sort.value == "point"}
    names = {name: letters.name(name) if name in points else f"{sort.value} {name}" for name, sort in objects}
    given = "; ".join(sentence(fact, names) for fact in statement.given) or "nothing"
    shown = "; ".join(sentence(fact, names) for fact in statement.shown)
    return f"Given: {given}. Shown: {shown}."


def sentence(literal: Literal, names: dict[str, str]) -> str:
    """A literal in words."""
    if isinstance(literal, Metric):
        return f"{sum_words(literal.left, names)} {RELATIONS[literal.relation]} {sum_words(literal.right, names)}"
    assert isinstance(literal, Diagram)
    forms = POSITIVE if literal.positive else NEGATIVE
    return forms[literal.word].format(*(names[name] for name in literal.objects))


def sum_words(monomials: Sum, names: dict[str, str]) -> str:
    """A sum in words."""
    parts = []
    for number, term in monomials:
        points = "".join(names[point] for point in term.points)
        word = {"seg": points, "ang": f"angle {points}", "area": f"triangle {points}", "right": "a right angle"}[term.word]
        parts.append(f"{number} times {word}" if number > 1 else word)
    return " and ".join(parts) or "nothing"
