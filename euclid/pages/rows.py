"""The steps of a proof as rows, each with what it follows from and where that was given."""

from __future__ import annotations

from collections.abc import Mapping
from dataclasses import dataclass, field

from ..contexts import Context, Filled, Goal, Origin, Walker, gives_of, needs_of, premises_of, start_of
from ..derivation import Part, Reason, Unread, proved
from ..drawing.sources import facts_of
from ..literals import Literal, Metric, Sort, key
from ..script import Apply, By, Cases, Hence, Let, Step, Superpose, Theorem
from ..statements import Known


@dataclass(frozen=True)
class Premise:
    """A fact that a step follows from, and where it comes from."""

    literal: Literal
    origin: Origin


@dataclass
class Row:
    """A step."""

    step: Step
    depth: int
    sorts: Mapping[str, Sort]  # of the objects before it, and of those that it draws
    needs: list[Literal]
    gives: list[Literal]
    reasons: list[Reason]
    premises: list[Premise]
    is_else: bool = False  # the line `else` of a step `cases`

    @property
    def is_quiet(self) -> bool:
        """Whether it neither draws nor compares, nor opens or closes a block."""
        if self.is_else or self.step.blocks() or isinstance(self.step, (Let, Apply, Superpose)):
            return False
        return self.step.word in ("by", "hence") and not any(isinstance(fact, Metric) for fact in self.gives)


@dataclass
class Proof:
    """The rows of a proof."""

    theorem: Theorem
    rows: list[Row] = field(default_factory=list)
    filled: Filled = field(default_factory=dict)

    def row(self, number: int) -> Row | None:
        """The row of a step."""
        return next((row for row in self.rows if row.step.number == number and not row.is_else), None)


def proof_of(theorem: Theorem, known: Known, part: Part | None, version: int = 2) -> Proof:
    """The rows of a theorem, with the reasons that its block of the derivation has."""
    reasons: dict[int, list[Reason]] = {}
    filled: Filled = {}
    if part is not None:
        try:
            found = proved(part, theorem, known, version)
            reasons, filled = found.reasons, found.filled
        except Unread:
            filled = part.filled()
    proof = Proof(theorem, filled=filled)
    depths = depths_of(theorem)

    def visit(step: Step, context: Context, goal: Goal) -> None:
        sorts = dict(context.sorts)
        if isinstance(step, (Let, Apply, Superpose)):
            sorts.update(step.new)
        needs = needs_of(step, context, known, goal, filled)
        row = Row(step, depths[step.number], sorts, needs, gives_of(step, known, filled), reasons.get(step.number, []),
                  [])
        row.premises = premises_at(row, context)
        proof.rows.append(row)

    Walker(theorem, known, visit, filled).walk()
    add_else(proof)
    return proof


def depths_of(theorem: Theorem) -> dict[int, int]:
    """How many blocks are open at each step."""
    found: dict[int, int] = {}

    def go(steps: list[Step], depth: int) -> None:
        for step in steps:
            found[step.number] = depth
            for block in step.blocks():
                go(block.steps, depth + 1)

    go(theorem.proof.steps, 0)
    return found


def premises_at(row: Row, context: Context) -> list[Premise]:
    """The facts that a step follows from, each once."""
    if isinstance(row.step, By):
        wanted = premises_of(row.step)
    elif row.reasons:
        wanted = [fact for reason in row.reasons for fact in facts_of(reason)]
    else:  # of a theorem that is refused
        wanted = [] if isinstance(row.step, Hence) else row.needs
    found: dict[object, Premise] = {}
    for literal in wanted:
        fact = context.fact(literal)
        if fact is not None:
            found.setdefault(key(literal), Premise(fact.literal, fact.origin))
    return list(found.values())


def add_else(proof: Proof) -> None:
    """Puts in the lines `else`, each before the other block of its `cases`."""
    rows: list[Row] = []
    waiting = {step.other.steps[0].number: step for step in proof.theorem.steps()
               if isinstance(step, Cases) and step.other.steps}
    of_step = {row.step.number: row for row in proof.rows}
    for row in proof.rows:
        cases = waiting.get(row.step.number)
        if cases is not None:
            opener = of_step[cases.number]
            rows.append(Row(cases, opener.depth, opener.sorts, [], [], [], [], is_else=True))
        rows.append(row)
    proof.rows = rows


def start_sorts(theorem: Theorem) -> dict[str, Sort]:
    """The objects of the statement: declared and made."""
    return dict(start_of(theorem).sorts) | dict(theorem.statement.made)
