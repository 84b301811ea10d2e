"""The objects and facts before each step of a proof, each fact with where it comes from."""

from __future__ import annotations

from collections.abc import Callable, Iterable, Mapping
from dataclasses import dataclass, field

from .literals import Diagram, Key, Literal, Sort, is_same, key, negation, renamed
from .rules import avoid_gives, avoid_needs, tables
from .script import Apply, Block, By, Cases, Claim, Hence, Let, Qed, Step, Superpose, Theorem
from .statements import Known, Objects, Statement

Filled = Mapping[int, list[str]]  # the arguments of `apply` steps with blanks, by the number of the step
BLANK = "_"


@dataclass(frozen=True, slots=True)
class Origin:
    """Where a fact or an object comes from: a line of the book, and the step on it if it is one."""

    kind: str  # given, declared, step, case, else, copy
    line: int
    step: int = 0

    def words(self) -> str:
        """For people."""
        return {"given": "given", "declared": "declared", "step": f"step {self.step}", "case": f"case of step {self.step}",
                "else": f"else of step {self.step}", "copy": f"copy at step {self.step}"}[self.kind]


@dataclass(frozen=True, slots=True)
class Fact:
    """A literal that is known, as it was written first, and where it comes from."""

    literal: Literal
    origin: Origin


@dataclass
class Context:
    """The objects in scope, the oldest first, and the facts, in order."""

    sorts: dict[str, Sort] = field(default_factory=dict)
    born: dict[str, Origin] = field(default_factory=dict)
    facts: dict[Key, Fact] = field(default_factory=dict)

    def has(self, literal: Literal) -> bool:
        """Whether a literal is a fact."""
        return key(literal) in self.facts

    def fact(self, literal: Literal) -> Fact | None:
        """The fact that is the same as a literal."""
        return self.facts.get(key(literal))

    def bring(self, objects: Objects, origin: Origin) -> None:
        """New objects."""
        for name, sort in objects:
            self.sorts[name], self.born[name] = sort, origin

    def add(self, literals: Iterable[Literal], origin: Origin) -> None:
        """New facts; one that is a fact already stays as it is."""
        for literal in literals:
            self.facts.setdefault(key(literal), Fact(literal, origin))

    def copy(self) -> Context:
        """The same, to which more can be added."""
        return Context(dict(self.sorts), dict(self.born), dict(self.facts))

    def literals(self) -> list[Literal]:
        """The facts, in order."""
        return [fact.literal for fact in self.facts.values()]

    def of_sort(self, sort: Sort) -> list[str]:
        """The objects of a sort, the oldest first."""
        return [name for name, each in self.sorts.items() if each == sort]


@dataclass(frozen=True)
class Goal:
    """What a block has to show: literals over made objects, for which its `qed` names others."""

    made: Objects
    shown: list[Literal]

    def at(self, names: list[str]) -> list[Literal]:
        """What is to be shown with these objects for the made ones."""
        given = {old: new for (old, _), new in zip(self.made, names)}
        return [renamed(literal, given) for literal in self.shown]


def start_of(theorem: Theorem) -> Context:
    """The context before the first step."""
    context, statement = Context(), theorem.statement
    context.bring(statement.declared, Origin("declared", theorem.first))
    context.add(statement.given, Origin("given", theorem.first))
    return context


def premises_of(step: By) -> list[Literal]:
    """What a citation needs: the negation of each literal of the instance but the cited one."""
    rule = tables().diagram[step.rule]
    return [negation(literal) for literal in rule.instance(step.names) if not is_same(literal, step.literal)]


def needs_of(step: Step, context: Context, known: Known, goal: Goal, filled: Filled) -> list[Literal]:
    """The literals that have to be allowed at a step, in order; none where the arguments have blanks."""
    if isinstance(step, By):
        return premises_of(step)
    if isinstance(step, Hence):
        return [step.literal]
    if isinstance(step, Let):
        needs = [renamed(literal, step.letters) for literal in step.construction.needs]
        return needs + avoid_needs(step.construction, step.letters, step.avoided)
    if isinstance(step, Apply):
        arguments = filled.get(step.number, step.arguments)
        used = known.theorems.get(step.title)
        return used.needs_at(arguments) if used and BLANK not in arguments else []
    if isinstance(step, Superpose):
        shape = tables().superposition
        return [renamed(literal, step.letters) for literal in shape.needs] if shape else []
    if isinstance(step, Qed):
        return goal.at(step.names)
    return []


def gives_of(step: Step, known: Known, filled: Filled) -> list[Literal]:
    """The literals that are facts after a step, where it is no close."""
    if isinstance(step, (By, Hence)):
        return [step.literal]
    if isinstance(step, Let):
        gives = [renamed(literal, step.letters) for literal in step.construction.gives]
        point = step.new[0][0]
        return gives + (avoid_gives(point, step.avoided) if step.avoided else [])
    if isinstance(step, Apply):
        arguments = filled.get(step.number, step.arguments)
        used: Statement | None = known.theorems.get(step.title)
        if used is None or BLANK in arguments:
            return []
        return used.gives_at(arguments, [name for name, _ in step.new])
    if isinstance(step, (Claim, Superpose)):
        return step.literals
    return []


def copies_of(step: Superpose) -> list[Literal]:
    """What the block of a superposition begins with."""
    shape = tables().superposition
    return [renamed(literal, step.letters) for literal in shape.gives] if shape else []


Visit = Callable[[Step, Context, Goal], None]  # the context must not be kept, but copied


class Walker:
    """Goes through a proof with the context before each step."""

    def __init__(self, theorem: Theorem, known: Known, visit: Visit, filled: Filled | None = None) -> None:
        self.theorem, self.known, self.visit = theorem, known, visit
        self.filled: Filled = filled or {}

    def walk(self) -> None:
        """The whole proof, as far as it was read."""
        statement = self.theorem.statement
        self.block(self.theorem.proof, start_of(self.theorem), Goal(statement.made, statement.shown))

    def block(self, block: Block, context: Context, goal: Goal) -> None:
        """The steps of a block; the context is changed."""
        for step in block.steps:
            self.visit(step, context, goal)
            self.inside(step, context, goal)
            origin = Origin("step", step.line.number, step.number)
            if isinstance(step, (Let, Apply)):
                context.bring(step.new, origin)
            context.add(gives_of(step, self.known, self.filled), origin)

    def inside(self, step: Step, context: Context, goal: Goal) -> None:
        """The blocks inside a step."""
        if isinstance(step, Claim):
            self.block(step.block, context.copy(), Goal([], step.literals))
        elif isinstance(step, Superpose):
            copy, origin = context.copy(), Origin("copy", step.line.number, step.number)
            copy.bring(step.new, origin)
            copy.add(copies_of(step), origin)
            self.block(step.block, copy, Goal([], step.literals))
        elif isinstance(step, Cases):
            first, other = context.copy(), context.copy()
            first.add([step.literal], Origin("case", step.line.number, step.number))
            other.add([negation(step.literal)], Origin("else", step.line.number, step.number))
            self.block(step.first, first, goal)
            self.block(step.other, other, goal)


@dataclass
class Situation:
    """A step with the context and the goal before it, and what it needs."""

    step: Step
    context: Context
    goal: Goal
    needs: list[Literal]


def situation_at(theorem: Theorem, known: Known, number: int, filled: Filled | None = None) -> Situation | None:
    """The context before a step, or none where the proof has no such step."""
    found: list[Situation] = []

    def visit(step: Step, context: Context, goal: Goal) -> None:
        if step.number == number:
            found.append(Situation(step, context.copy(), goal, needs_of(step, context, known, goal, filled or {})))

    Walker(theorem, known, visit, filled).walk()
    return found[0] if found else None


def turned(literal: Literal) -> list[Literal]:
    """Other literals that say the same of the diagram, but are not the same."""
    if not isinstance(literal, Diagram):
        return []
    word, objects = literal.word, literal.objects
    others = {"=": objects[::-1], "between": objects[::-1],
              "same-side": (objects[1], objects[0], *objects[2:]) if len(objects) == 3 else objects}
    if word == "meets" or word in others:
        other = others.get(word, objects[::-1])
        return [Diagram(word, other, literal.positive)] if other != objects else []
    return []
