"""The rules of System E and its constructions, read from docs/rules.md.

The gate of the repository compares that page with the tables that the program is proved against.
"""

from __future__ import annotations

import re
from dataclasses import dataclass, field
from functools import cached_property, lru_cache
from pathlib import Path

from .places import TOP
from .literals import CIRCLE, LINE, POINT, Diagram, Literal, Sort, negation, parse_literal, renamed

PAGE = TOP / "docs" / "rules.md"
LETTERS = {letter: POINT for letter in "abcdefghpqxyz"} | {letter: CIRCLE for letter in "ABC"}
LETTERS |= {letter: LINE for letter in "LMNK"}


@dataclass(frozen=True)
class Rule:
    """A rule: of its premises' negations and its conclusions, at least one holds."""

    name: str
    number: int
    group: str
    variables: tuple[str, ...]
    premises: tuple[Literal, ...]
    conclusions: tuple[Literal, ...]
    words: str
    axiom: str
    is_transfer: bool

    @cached_property
    def sorts(self) -> tuple[Sort, ...]:
        """The sorts of its variables."""
        return tuple(LETTERS[variable] for variable in self.variables)

    @cached_property
    def clause(self) -> tuple[Literal, ...]:
        """Its literals, of which at least one holds."""
        return (*map(negation, self.premises), *self.conclusions)

    def instance(self, names: tuple[str, ...] | list[str]) -> tuple[Literal, ...]:
        """The clause with these objects for its variables."""
        given = dict(zip(self.variables, names))
        return tuple(renamed(literal, given) for literal in self.clause)


@dataclass(frozen=True)
class Construction:
    """A shape of `let`, or the superposition: its pattern, what it needs and what it gives.

    In the pattern a word of one letter is an object, and any other is itself.
    """

    shape: str
    line: str
    new: tuple[str, ...]
    pattern: tuple[str, ...]
    needs: tuple[Literal, ...]
    gives: tuple[Literal, ...]
    words: str = ""
    number: int = 0

    @cached_property
    def takes_avoid(self) -> bool:
        """Whether `avoid` may come after it."""
        return 1 <= self.number <= 9

    @cached_property
    def new_sorts(self) -> tuple[Sort, ...]:
        """The sorts of the objects that it makes."""
        return tuple(LETTERS[letter] for letter in self.new)

    @cached_property
    def arguments(self) -> tuple[str, ...]:
        """The letters of its arguments, in order."""
        return tuple(dict.fromkeys(word for word in self.pattern if len(word) == 1))

    def drawn_on(self) -> str | None:
        """The letter of the line or circle that the new point is drawn on, where `avoid` asks of it."""
        places = {2: "L", 3: "L", 4: "L", 7: "A"}
        return places.get(self.number)


@dataclass
class Tables:
    """All rules by their names, and the constructions in order."""

    diagram: dict[str, Rule] = field(default_factory=dict)
    transfer: dict[str, Rule] = field(default_factory=dict)
    constructions: list[Construction] = field(default_factory=list)
    superposition: Construction | None = None

    def rule(self, name: str) -> Rule | None:
        """The rule of this name, of either kind."""
        return self.diagram.get(name) or self.transfer.get(name)


@lru_cache(maxsize=1)
def tables() -> Tables:
    """The tables of docs/rules.md."""
    return read_tables(PAGE.read_text(encoding="utf-8"))


def read_tables(text: str) -> Tables:
    """The tables of a page like docs/rules.md."""
    found = Tables()
    section = group = ""
    header: list[str] = []
    for line in text.split("\n"):
        if line.startswith("## "):
            section, group = line[3:], ""
        elif line.startswith("### "):
            group = line[4:]
        elif line.startswith("| "):
            cells = line.strip().strip("|").split(" | ")
            cells = [cell.strip() for cell in cells]
            if "`" in line:
                add_row(found, section, group, dict(zip(header, cells)))
            else:
                header = cells
    return found


def add_row(found: Tables, section: str, group: str, row: dict[str, str]) -> None:
    """Takes one row of a table."""
    if section.startswith("Clauses of diagrams"):
        add_rule(found.diagram, len(found.diagram), group, row, False)
    elif section.startswith("Transfer rules"):
        add_rule(found.transfer, len(found.diagram) + len(found.transfer), group, row, True)
    elif section.startswith("Constructions") and "Shape" in row:
        line = quoted(row["Line"])[0]
        words = line.split()[1:]
        at = next(place for place, word in enumerate(words) if len(word) > 1)
        found.constructions.append(Construction(
            row["Shape"], line, tuple(words[:at]), tuple(words[at:]), literals(row["Needs"]),
            literals(row["Gives"]), row["In words"], int(row["No."])))
    elif section.startswith("Superposition") and "Line" in row:
        found.superposition = superposition_of(row)


def superposition_of(row: dict[str, str]) -> Construction:
    """The row of the superposition."""
    line = quoted(row["Line"])[0]
    words = line.split()[1:]
    needs = next(cell for head, cell in row.items() if head.startswith("Needs"))
    gives = next(cell for head, cell in row.items() if head.startswith("Its block"))
    return Construction("Superposition", line, ("p", "q"), tuple(words[: words.index("as")]),
                        literals(needs), literals(gives.split(";", 1)[1]))


def add_rule(table: dict[str, Rule], number: int, group: str, row: dict[str, str], is_transfer: bool) -> None:
    """Takes one row of a rule."""
    name = quoted(row["Rule"])[0]
    table[name] = Rule(name, number, group, tuple(quoted(row["Variables"])[0].split()),
                       literals(row["If"]), literals(row["Then"]), row["In words"],
                       row.get("Axiom", ""), is_transfer)


def quoted(cell: str) -> list[str]:
    """What a cell has in backticks."""
    return re.findall(r"`([^`]*)`", cell)


def literals(cell: str) -> tuple[Literal, ...]:
    """The literals of a cell, over letters."""
    return tuple(parse_literal(text.split(), LETTERS) for text in quoted(cell))


def avoid_needs(construction: Construction, letters: dict[str, str], avoided: list[tuple[str, Sort]]) -> list[Literal]:
    """What a construction needs besides where it avoids these objects."""
    place = construction.drawn_on()
    if place is None:
        return []
    sort = LETTERS[place]
    return [Diagram("=", (letters[place], name), False) for name, each in avoided if each == sort]


def avoid_gives(point: str, avoided: list[tuple[str, Sort]]) -> list[Literal]:
    """What a construction gives besides where its new point avoids these objects."""
    return [Diagram("=", (point, name), False) if sort == POINT else Diagram("on", (point, name), False)
            for name, sort in avoided]
