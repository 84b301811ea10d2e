"""Which theorems rest on which, and on which rules, as derivation texts have it."""

from __future__ import annotations

from collections.abc import Iterable
from dataclasses import dataclass, field
from functools import cached_property

from .derivation import Part

SUPERPOSE = "superpose"  # the superposition, among the rules


@dataclass(frozen=True)
class Graph:
    """Theorems in order: those that each applies, and the rules that its own steps use, in the order of first use."""

    applies: dict[str, list[str]] = field(default_factory=dict)
    uses: dict[str, list[str]] = field(default_factory=dict)

    @cached_property
    def below(self) -> dict[str, list[str]]:
        """Of each theorem all that it rests on, in the order of the books."""
        found: dict[str, set[str]] = {}
        for title, applied in self.applies.items():
            found[title] = set(applied).union(*(found[each] for each in applied))
        return {title: self.in_order(rests) for title, rests in found.items()}

    @cached_property
    def above(self) -> dict[str, list[str]]:
        """Of each theorem all that rest on it, in the order of the books."""
        found: dict[str, list[str]] = {title: [] for title in self.applies}
        for title, rests in self.below.items():
            for each in rests:
                found[each].append(title)
        return found

    @cached_property
    def applied_by(self) -> dict[str, list[str]]:
        """Of each theorem those whose steps apply it."""
        found: dict[str, list[str]] = {title: [] for title in self.applies}
        for title, applied in self.applies.items():
            for each in applied:
                found[each].append(title)
        return found

    @cached_property
    def rules(self) -> dict[str, list[str]]:
        """Of each theorem the rules that it rests on in all, by name; the superposition is `superpose`."""
        found: dict[str, set[str]] = {}
        for title, applied in self.applies.items():
            found[title] = set(self.uses[title]).union(*(found[each] for each in applied))
        return {title: sorted(rules) for title, rules in found.items()}

    def in_order(self, titles: Iterable[str]) -> list[str]:
        """These theorems in the order of the books."""
        wanted = set(titles)
        return [title for title in self.applies if title in wanted]

    def unused(self) -> list[str]:
        """The theorems that no other applies."""
        return [title for title, users in self.applied_by.items() if not users]

    def resting_on(self, rule: str) -> list[str]:
        """The theorems that rest on a rule."""
        return [title for title, rules in self.rules.items() if rule in rules]

    def all_rules(self) -> list[str]:
        """The rules that any theorem uses."""
        return sorted({rule for rules in self.uses.values() for rule in rules})


def graph_of(parts: Iterable[Part]) -> Graph:
    """The graph of blocks of a derivation text (`derivation.read_derivation(text).parts.values()`), in order.

    A block that applies a theorem without a block does not count.
    """
    graph = Graph()
    for part in parts:
        applied = applied_in(part)
        if all(title in graph.applies for title in applied):
            graph.applies[part.title] = applied
            graph.uses[part.title] = rules_in(part)
    return graph


def applied_in(part: Part) -> list[str]:
    """The theorems that the steps of a block apply."""
    return list(dict.fromkeys(line.words[1] for line in part.lines if line.words[0] == "apply"))


def rules_in(part: Part) -> list[str]:
    """The rules that the steps of a block cite, and the transfer rules of their certificates."""
    found: dict[str, None] = {}
    for line in part.lines:
        if line.words[0] == "by":
            found[line.words[1]] = None
        elif line.words[0] == SUPERPOSE:
            found[SUPERPOSE] = None
    for lines in part.below.values():
        found.update(dict.fromkeys(line.words[2] for line in lines if line.words[1:2] == ("transfer",)))
    return list(found)
