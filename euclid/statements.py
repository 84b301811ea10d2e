"""What theorems and definitions say, and what a use of one needs and gives."""

from __future__ import annotations

from collections.abc import Sequence
from dataclasses import dataclass, field

from .literals import Literal, Sort, renamed, spell, spell_all

Objects = list[tuple[str, Sort]]  # names with their sorts, in order


@dataclass
class Statement:
    """A theorem without its proof, or a definition: objects, and literals over their names."""

    title: str
    declared: Objects = field(default_factory=list)
    given: list[Literal] = field(default_factory=list)
    made: Objects = field(default_factory=list)
    shown: list[Literal] = field(default_factory=list)

    def needs_at(self, arguments: Sequence[str]) -> list[Literal]:
        """The given literals with these objects for the declared ones."""
        names = {old: new for (old, _), new in zip(self.declared, arguments)}
        return [renamed(literal, names) for literal in self.given]

    def gives_at(self, arguments: Sequence[str], new: Sequence[str]) -> list[Literal]:
        """The shown literals with these objects for the declared and the made ones."""
        objects = self.declared + self.made
        names = {old: name for (old, _), name in zip(objects, [*arguments, *new])}
        return [renamed(literal, names) for literal in self.shown]

    def use(self) -> str:
        """The words after `apply` with which it is used at its own names."""
        made = ["as", *(name for name, _ in self.made)] if self.made else []
        return " ".join([self.title, *(name for name, _ in self.declared), *made])

    def lines(self) -> list[str]:
        """What is given and what is shown, a line each."""
        given = [f"given {spell_all(self.given)}"] if self.given else []
        return [*given, f"show {spell_all(self.shown)}"]

    def data(self) -> dict[str, object]:
        """It as an object of JSON."""
        return {"title": self.title, "declared": [[name, sort.value] for name, sort in self.declared],
                "given": [spell(each) for each in self.given],
                "made": [[name, sort.value] for name, sort in self.made],
                "shown": [spell(each) for each in self.shown]}


@dataclass
class Known:
    """The theorems and definitions that a line may speak of, in their order."""

    theorems: dict[str, Statement] = field(default_factory=dict)
    definitions: dict[str, Statement] = field(default_factory=dict)

    def has(self, title: str) -> bool:
        """Whether a title is taken."""
        return title in self.theorems or title in self.definitions

    def copy(self) -> Known:
        """The same, to which more can be added."""
        return Known(dict(self.theorems), dict(self.definitions))
