"""The objects and facts before a step in numbers, with all that follows from them directly.

`Reach` is a context (contexts.py) made for search: from it comes what the diagram shows, with the
`by` lines that say so, what one transfer gives, and what follows by arithmetic. It goes along with
a proof, and back at the end of a block. What it says is a help: `elements` decides.
"""

from __future__ import annotations

from collections.abc import Iterable
from typing import NamedTuple

from . import magnitudes
from .clock import Clock
from .closure import TRANSFER, Closure, Line, Mark
from .codes import EQUALITY, Coded, Comparison, Scope, Unknown, clauses, encode
from .contexts import Context, Origin
from .literals import POINT, Literal, Sort, spell
from .transfers import Instance, instances

POINTS_EQUAL = EQUALITY[POINT]

__all__ = ["Reach", "ReachMark", "Unknown"]


class ReachMark(NamedTuple):
    """A point to go back to."""

    objects: int
    closure: Mark


class Reach:
    """What is in scope, the facts, and what follows."""

    def __init__(self, clock: Clock | None = None) -> None:
        self.scope = Scope()
        self.closure = Closure(clock)
        self.metric: dict[Comparison, int] = {}  # the metric facts, in order, with their levels
        self.origins: dict[Coded, Origin] = {}  # of facts; those of blocks that ended may be left
        self.answers: dict[tuple[Comparison | None, int, str], bool] = {}  # of arithmetic, for the same facts

    @classmethod
    def of(cls, context: Context, clock: Clock | None = None) -> Reach:
        """The same as a context, which may be at any step. Raises `Unknown` where it is too large,
        and later `OutOfTime` where a clock was given."""
        reach = cls(clock)
        for name, sort in context.sorts.items():
            reach.bring(name, sort)
        for fact in context.facts.values():
            reach.add(reach.scope.code(fact.literal), origin=fact.origin)
        return reach

    # Along a proof

    def bring(self, name: str, sort: Sort) -> None:
        """A new object."""
        self.closure.bring(sort, self.scope.bring(name, sort))

    def add(self, item: Coded, level: int | None = None, origin: Origin | None = None) -> None:
        """A fact, perhaps of an outer block, the one of this level."""
        if origin is not None and not self.has(item):
            self.origins[item] = origin
        if not isinstance(item, Comparison):
            self.closure.add_fact(item, level)
        elif item not in self.metric:
            self.metric[item] = self.closure.level if level is None else level
            self.answers.clear()

    def mark(self) -> ReachMark:
        """Enters a block."""
        return ReachMark(self.scope.size(), self.closure.mark())

    def back_to(self, mark: ReachMark) -> None:
        """Forgets what the block brought."""
        self.scope.back_to(mark.objects)
        level = mark.closure.level
        self.metric = {item: born for item, born in self.metric.items() if born <= level}
        self.answers.clear()
        self.closure.back_to(mark.closure)

    # Literals

    def code(self, literal: Literal) -> Coded:
        """A literal over the names in scope, coded. Raises `Unknown` where one is not in scope."""
        return self.scope.code(literal)

    def literal(self, item: Coded) -> Literal:
        """The literal that is coded so."""
        return self.scope.literal(item)

    def spell(self, item: Coded) -> str:
        """Its words."""
        return spell(self.scope.literal(item))

    def has(self, item: Coded) -> bool:
        """Whether it is a fact."""
        return item in self.metric if isinstance(item, Comparison) else item in self.closure.facts

    def origin(self, item: Coded) -> Origin | None:
        """Where a fact comes from."""
        return self.origins.get(item) if self.has(item) else None

    def facts(self) -> list[Coded]:
        """The facts: first those of the diagram, then those of magnitudes."""
        return [*self.closure.facts, *self.metric]

    # Diagrams

    def shows(self, code: int) -> bool:
        """Whether the diagram shows it: it follows from the facts by the rules that `by` may cite."""
        return self.closure.reach(code)

    def shown(self) -> list[int]:
        """All literals of the diagram that follow and are no facts."""
        self.closure.saturate()
        return [code for code in self.closure.trail if code not in self.closure.facts]

    def lines_to(self, codes: Iterable[int]) -> list[Line]:
        """The lines, few and in order, with which literals that the diagram shows become facts."""
        codes = list(codes)
        self.closure.saturate()
        self.closure.shorten(codes)
        return self.closure.lines(codes)

    def words_of(self, line: Line) -> str:
        """A line as a book has it."""
        if line.rule == TRANSFER:
            return "hence " + self.spell(line.code)
        clause = clauses()[line.rule]
        names = [self.scope.names[sort][n] for sort, n in zip(clause.sorts, line.objects)]
        return f"by {' '.join([clause.name, *names])} : {self.spell(line.code)}"

    def apart(self, a: int, b: int) -> bool:
        """Whether a fact says that two points differ."""
        codes = encode(POINTS_EQUAL, False, (a, b)), encode(POINTS_EQUAL, False, (b, a))
        return any(code in self.closure.facts for code in codes)

    def will_be_apart(self, a: int, b: int) -> bool:
        """Whether the diagram shows that two points differ."""
        return self.closure.knows(encode(POINTS_EQUAL, False, (a, b)))

    # Magnitudes

    def follows(self, item: Comparison | None) -> bool:
        """Whether a metric literal, or for None a contradiction, is one by arithmetic."""
        key = item, len(self.closure.facts), "is"
        if key not in self.answers:
            self.answers[key] = magnitudes.follows(item, self.metric, self.apart)
        return self.answers[key]

    def will_follow(self, item: Comparison | None) -> bool:
        """The same, where the points that the diagram shows to differ are known to."""
        key = item, len(self.closure.trail), "will"
        if key not in self.answers:
            self.answers[key] = magnitudes.follows(item, self.metric, self.will_be_apart)
        return self.answers[key]

    def transfers(self, item: Coded) -> list[Instance]:
        """The instances of transfer rules that give a literal and whose diagram is known, those
        with the fewest lines first; their magnitudes need not follow."""
        self.closure.saturate()
        return sorted(instances(item, self.closure), key=lambda made: self.closure.lines_of(made.diagram))

