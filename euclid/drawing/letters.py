"""The letters of points in figures and on pages."""

from __future__ import annotations

from collections.abc import Iterable, Sequence
from dataclasses import dataclass

from ..literals import LINE
from ..script import Apply, Let, Theorem
from .course import name_of


def lines_in(theorem: Theorem) -> list[str]:
    """The names of all lines of a theorem."""
    objects = theorem.statement.declared + theorem.statement.made
    for step in theorem.steps():
        if isinstance(step, (Let, Apply)):
            objects = objects + step.new
    return [name for name, sort in objects if sort == LINE]


@dataclass
class Letters:
    """The names of points as a figure has them: capitals, where no two names of points and lines would be the same."""

    capitals: bool = True

    @staticmethod
    def of(names: Iterable[str], lines: Iterable[str] = ()) -> Letters:
        """The letters for the points of a theorem, beside these lines."""
        plain = {name_of(name) for name in names}
        capitals = {name.upper() for name in plain}
        return Letters(len(capitals) == len(plain) and capitals.isdisjoint(lines))

    def name(self, identity: str) -> str:
        """The name of a point."""
        return name_of(identity).upper() if self.capitals else name_of(identity)

    def text(self, names: Sequence[str]) -> str:
        """The names of points on one spot."""
        return " = ".join(dict.fromkeys(map(self.name, names)))
