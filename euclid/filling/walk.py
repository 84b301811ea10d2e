"""A walk over one proof, which puts the lines that are missing before each step."""

from __future__ import annotations

from dataclasses import dataclass, field

from ..clock import Clock, OutOfTime
from ..codes import Coded, Comparison, Unknown, negated
from ..contexts import BLANK, Context, Goal, copies_of, gives_of, needs_of
from ..literals import Literal, is_same, spell
from ..reach import Reach
from ..rules import tables
from ..script import Apply, Block, By, Cases, Claim, Contradiction, Hence, Let, Qed, Step, Superpose, Theorem
from ..statements import Known, Objects
from .applying import Applier
from .blanks import match
from .nearest import nearest
from .page import Page, PageLine
from .supply import Supplier
from .theorems import Catalogue

NOWHERE = Context()  # what a step needs does not depend on the facts


@dataclass(frozen=True)
class Missing:
    """A literal that a step needs and that was not found: `wanted` is its words, or `match` or
    `contradiction`; `why` says more."""

    line: int
    step: int
    wanted: str
    why: list[str] = field(default_factory=list)


@dataclass
class FilledTheorem:
    """A theorem with the lines that were put in."""

    theorem: Theorem
    lines: list[PageLine]
    missing: list[Missing] = field(default_factory=list)
    applied: list[str] = field(default_factory=list)  # the `apply` lines that were put in
    stopped: str = ""  # why the walk ended early, in words
    stopped_at: int = 0  # the number of the line where it did
    filled: dict[int, list[str]] = field(default_factory=dict)  # what was taken for blanks, by step
    others: dict[int, list[str]] = field(default_factory=dict)  # what they may mean as well

    def is_whole(self) -> bool:
        """Whether nothing was left missing; whether it is accepted `elements` alone says."""
        return not (self.missing or self.stopped)

    def put_in(self) -> int:
        """How many lines were put in."""
        return sum(not line.own for line in self.lines)

    def text(self) -> str:
        """The lines, as a text."""
        return "".join(line.text + "\n" for line in self.lines)

    def under(self) -> dict[int, list[str]]:
        """The lines that were put in, by the number of the author's line before which they stand."""
        found: dict[int, list[str]] = {}
        waiting: list[str] = []
        for line in self.lines:
            if not line.own:
                waiting.append(line.text)
            elif line.text.split() and not line.text.split()[0].startswith("#"):
                if waiting:
                    found[line.own], waiting = waiting, []
        return found


class Stopped(Exception):
    """The walk cannot go on, and why."""


class ProofFiller:
    """One theorem. The page has what is written, `missing` what was not found."""

    def __init__(self, theorem: Theorem, known: Known, clock: Clock, catalogue: Catalogue | None = None,
                 most_applied: int = 0) -> None:
        self.theorem, self.known, self.clock = theorem, known, clock
        self.missing: list[Missing] = []
        self.reach, self.page = Reach(clock), Page()
        self.supplier = Supplier(self.reach, self.page, clock)
        self.applier = Applier(catalogue or Catalogue(), known, self.reach, self.page, self.supplier)
        self.most_applied = most_applied  # how many theorems may be put in
        self.is_short = self.is_again = False  # whether it ends with the first literal that is missing beside
        # a theorem that was put in; whether with the first one
        self.filled: dict[int, list[str]] = {}  # the arguments of `apply` steps with blanks
        self.others: dict[int, list[str]] = {}  # other arguments, where the blanks may mean these as well
        self.place = 0  # of the author's next line
        self.last: int | None = None  # the number of the step before which the walk ends
        self.at = theorem.first  # the number of the line at hand

    def run(self) -> FilledTheorem:
        """All lines of the theorem, with what was missing."""
        stopped = ""
        try:
            self.walk()
        except (OutOfTime, Unknown, Stopped) as fault:
            stopped = str(fault)
        except RecursionError:
            stopped = "it is too deep"
        at = self.at if stopped else 0
        self.page.step = 0
        self.keep_before(self.theorem.last + 1)
        return FilledTheorem(self.theorem, self.page.lines, self.missing, list(self.applier.written), stopped, at,
                             self.filled, self.others)

    def run_to(self, number: int) -> list[PageLine]:
        """All lines of the theorem, with what the steps before one lacked."""
        self.last = number
        try:
            self.walk()
        except (OutOfTime, Unknown, Stopped, RecursionError):
            pass
        self.page.step = 0
        self.keep_before(self.theorem.last + 1)
        return self.page.lines

    def walk(self) -> None:
        """The whole proof."""
        statement, fault = self.theorem.statement, self.theorem.fault
        if fault is not None:
            self.at = (self.theorem.fault_line or self.theorem.lines[-1]).number
            raise Stopped(fault.message)
        for name, sort in statement.declared:
            self.reach.bring(name, sort)
        for literal in statement.given:
            self.reach.add(self.reach.code(literal))
        self.block(self.theorem.proof, Goal(statement.made, statement.shown))

    # Lines

    def keep_before(self, number: int) -> None:
        """Writes the lines of the author before the one of a number."""
        while self.place < len(self.theorem.lines) and self.theorem.lines[self.place].number < number:
            self.page.keep(self.theorem.lines[self.place])
            self.place += 1

    def keep(self, step: Step) -> None:
        """Writes the line of a step."""
        self.keep_before(step.line.number + 1)

    # Literals

    def supply(self, step: Step, literals: list[Literal], as_fact: bool = False) -> None:
        """Writes the lines that literals need, or notes that they are missing."""
        for literal in literals:
            item = self.reach.code(literal)
            if not self.had(step, item, as_fact):
                self.miss(step, self.reach.spell(item), item)

    def had(self, step: Step, item: Coded | None, as_fact: bool = False) -> bool:
        """Makes a literal allowed, or for None the facts absurd; where it is known that this takes
        a theorem, nothing else is tried."""
        place = step.number, item
        if place == self.applier.at and not self.applier.written:
            self.supplier.harvest()
        elif self.applier.reached(item, as_fact):
            return True
        if len(self.applier.written) >= self.most_applied or self.missing:
            return False
        return self.applier.need(place, as_fact)

    def miss(self, step: Step, wanted: str, item: Coded | None = None) -> None:
        """Notes what is missing, and at the first place what comes nearest."""
        is_last = self.is_again or self.is_short and bool(self.applier.written)
        why = [] if self.missing or is_last else nearest(item, self.reach, self.clock)
        self.missing.append(Missing(step.line.number, step.number, wanted, why))
        if is_last:
            raise Stopped("")

    def give(self, step: Step) -> None:
        """Writes the line of a step; what it brings is in scope, what it gives are facts."""
        self.keep(step)
        if isinstance(step, (Let, Apply)):
            for name, sort in step.new:
                self.reach.bring(name, sort)
        for literal in gives_of(step, self.known, self.filled):
            self.reach.add(self.reach.code(literal))

    # Blocks

    def block(self, block: Block, goal: Goal) -> None:
        """The steps of a block, with its close."""
        for step in block.steps:
            self.keep_before(step.line.number)
            self.page.indent, self.page.step, self.at = step.line.indent(), step.number, step.line.number
            if step.number == self.last:
                raise Stopped("this is the step that was asked for")
            self.step(step, goal)

    def inner(self, block: Block, goal: Goal, opening: int, objects: Objects, literals: list[Literal]) -> int:
        """A block inside: what it brings is gone at its end. A line opens it; its place is given,
        and returned as it is at the end."""
        mark = self.reach.mark()
        self.page.openings.append(opening)
        for name, sort in objects:
            self.reach.bring(name, sort)
        for literal in literals:
            self.reach.add(self.reach.code(literal))
        self.block(block, goal)
        self.reach.back_to(mark)
        return self.page.openings.pop()

    def step(self, step: Step, goal: Goal) -> None:
        """One step, with the blocks inside it."""
        if isinstance(step, Hence):
            self.hence(step)
        elif isinstance(step, Cases):
            self.cases(step, goal)
        elif isinstance(step, Contradiction):
            if not self.had(step, None):
                self.miss(step, "contradiction")
            self.keep(step)
        else:
            if isinstance(step, Apply) and BLANK in step.arguments:
                self.blanks(step)
            if isinstance(step, By) and not has_literal(step):
                self.miss(step, spell(step.literal))
            else:
                self.supply(step, needs_of(step, NOWHERE, self.known, goal, self.filled), isinstance(step, By))
            self.close_or_give(step)

    def close_or_give(self, step: Step) -> None:
        """What a step brings, after its blocks."""
        if isinstance(step, Qed):
            self.keep(step)
            return
        if isinstance(step, (Claim, Superpose)):
            self.keep(step)
            new = step.new if isinstance(step, Superpose) else []
            copies = copies_of(step) if isinstance(step, Superpose) else []
            self.inner(step.block, Goal([], step.literals), len(self.page.lines) - 1, new, copies)
        self.give(step)

    def cases(self, step: Cases, goal: Goal) -> None:
        """The two cases of a literal."""
        self.keep(step)
        item = self.reach.code(step.literal)
        opening = self.inner(step.first, goal, len(self.page.lines) - 1, [], [step.literal])
        if step.otherwise is not None:
            self.keep_before(step.otherwise.number + 1)
        self.inner(step.other, goal, opening, [], [self.reach.literal(negated(item))])

    # Steps with more to them

    def hence(self, step: Hence) -> None:
        """A literal of magnitudes; or one of the diagram for which the author names no rule."""
        item = self.reach.code(step.literal)
        if isinstance(item, Comparison):
            self.supply(step, [step.literal])
            self.give(step)
            return
        text = "hence " + self.reach.spell(item)
        if self.reach.has(item):
            self.keep(step)
        elif not self.had(step, item, True):
            self.miss(step, self.reach.spell(item), item)
            self.give(step)
        elif self.page.take_back(text):  # the line itself is what is needed
            self.give(step)
        else:
            self.place += 1

    def blanks(self, step: Apply) -> None:
        """Fills the blanks of a step: what is allowed now comes first, then what can be had."""
        used = self.known.theorems[step.title]
        found = match(used, step.arguments, self.reach, self.supplier.is_allowed)
        if not found:
            found = match(used, step.arguments, self.reach, self.supplier.may_follow, 2)
        if not found:
            self.miss(step, "match")
            raise Stopped("")
        self.filled[step.number] = found[0]
        if len(found) > 1:
            self.others[step.number] = found[1]


def has_literal(step: By) -> bool:
    """Whether the literal of a citation is one of its rule, at these names."""
    instance = tables().diagram[step.rule].instance(step.names)
    return any(is_same(step.literal, literal) for literal in instance)
