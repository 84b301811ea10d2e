"""Follows a proof's main path: the steps that speak of a figure in which what is given holds.

A proof branches at `cases`. Where only one of the two blocks ends in `qed`, that one is followed, for the
other ends in contradiction and speaks of no figure. Where both do, the figure decides: the course stops
there with an event `undecided`, and is made anew with the decision. Blocks inside a claim are followed in
the same way; what is drawn in them is gone after them.
"""

from __future__ import annotations

from collections.abc import Mapping
from dataclasses import dataclass, field

from ..contexts import BLANK, Filled, copies_of, gives_of, premises_of
from ..literals import Literal, Sort, negation, renamed
from ..rules import avoid_needs, tables
from ..script import Apply, Block, By, Cases, Claim, Contradiction, Hence, Let, Qed, Step, Superpose, Theorem
from ..statements import Known, Objects

Decisions = dict[int, bool]  # which block of a `cases` is followed, by its step: the first, or the other
Reasons = Mapping[int, list[Literal]]  # what steps follow from, over the names of the text


@dataclass
class Event:
    """What one step says: new objects by their ids, facts over ids, and objects that are gone."""

    kind: str  # given, by, hence, let, apply, claim, superpose, closed, qed, contradiction, cases, ..
    step: int
    depth: int
    new: Objects = field(default_factory=list)
    facts: list[Literal] = field(default_factory=list)
    gone: list[str] = field(default_factory=list)
    shape: int = 0  # of a construction, by its number in docs/rules.md
    skipped: str = ""  # which block is left out here: case, contradiction
    because: list[Literal] = field(default_factory=list)  # the facts from which it follows
    named: tuple[str, ...] = ()  # the words of its line

    def defines(self) -> bool:
        """Whether the facts fix the new objects, and are no mere consequences."""
        return bool(self.new) or self.kind in ("given", "cases", "supposed")


@dataclass
class Scope:
    """The names in scope, with the id of each."""

    ids: dict[str, str]

    def copy(self) -> Scope:
        """The same, to which more can be added."""
        return Scope(dict(self.ids))

    def over(self, literals: list[Literal]) -> list[Literal]:
        """Literals over names, over ids."""
        return [renamed(literal, self.ids) for literal in literals]

    def add(self, objects: Objects, step: int) -> Objects:
        """Brings new names into scope; an id is the name, `~` and the number of the step."""
        self.ids |= {name: f"{name}~{step}" for name, _ in objects}
        return [(self.ids[name], sort) for name, sort in objects]


def name_of(identity: str) -> str:
    """The name of an object for readers: ids of objects of a proof are a name, `~` and a step."""
    return identity.split("~")[0]


def is_live(block: Block) -> bool:
    """Whether some way through the block ends in `qed`, or is not written yet."""
    close = block.steps[-1] if block.steps else None
    if isinstance(close, Cases):
        return is_live(close.first) or is_live(close.other)
    return not isinstance(close, Contradiction)


class Ended(Exception):
    """The course has come to the step at which it ends."""


@dataclass
class Source:
    """A theorem, and what is known of it besides: blanks, reasons, and the step at which it ends if refused."""

    theorem: Theorem
    known: Known
    filled: Filled = field(default_factory=dict)
    reasons: Reasons = field(default_factory=dict)
    last: int = 0  # the first step that is no more followed, where it is not 0

    @property
    def title(self) -> str:
        """The title of the theorem."""
        return self.theorem.title

    @property
    def declared(self) -> Objects:
        """The objects that the statement declares."""
        return self.theorem.statement.declared


class Course:
    """The events of one theorem. Where the decisions lead into a block that ends in contradiction, the course
    ends there."""

    def __init__(self, source: Source, decisions: Decisions | None = None) -> None:
        self.source = source
        self.decisions: Decisions = decisions or {}
        self.events: list[Event] = []
        statement = source.theorem.statement
        scope = Scope({name: name for name, _ in statement.declared})
        self.events.append(Event("given", 0, 0, new=list(statement.declared), facts=list(statement.given)))
        try:
            self.block(source.theorem.proof, scope, 0, statement.made, statement.shown)
        except Ended:
            pass
        ends = [at for at, event in enumerate(self.events) if event.kind == "contradiction"]
        if ends and any(event.kind == "supposed" for event in self.events[: ends[0]]):
            del self.events[ends[0] + 1 :]

    def block(self, block: Block, scope: Scope, depth: int, made: Objects, shown: list[Literal]) -> None:
        """The steps of a block."""
        for step in block.steps:
            if step.number == self.source.last:
                raise Ended
            if isinstance(step, (By, Hence, Let, Apply)):
                self.plain(step, scope, depth)
            elif isinstance(step, Claim):
                self.put(Event("claim", step.number, depth), step)
                self.inside(step, step.block, scope.copy(), depth, step.literals, [])
            elif isinstance(step, Superpose):
                self.superpose(step, scope, depth)
            elif isinstance(step, Qed):
                names = {name: scope.ids[own] for (name, _), own in zip(made, step.names)}
                facts = [renamed(one, scope.ids | names) for one in shown]
                self.put(Event("qed", step.number, depth, facts=facts), step)
            elif isinstance(step, Cases):
                self.cases(step, scope, depth, made, shown)
            else:
                because = self.reasons(step, scope)
                self.put(Event("contradiction", step.number, depth, because=because), step)

    def put(self, event: Event, step: Step) -> None:
        """One more event."""
        event.named = step.line.words
        self.events.append(event)

    def reasons(self, step: Step, scope: Scope) -> list[Literal]:
        """What a step follows from, as far as it is known."""
        return scope.over(self.source.reasons.get(step.number, []))

    def plain(self, step: By | Hence | Let | Apply, scope: Scope, depth: int) -> None:
        """A step without blocks."""
        shape, new, because = 0, [], []
        if isinstance(step, By):
            because = scope.over(premises_of(step))
        elif isinstance(step, Hence):
            because = self.reasons(step, scope)
        elif isinstance(step, Let):
            shape = step.construction.number
            needs = [renamed(one, step.letters) for one in step.construction.needs]
            because = scope.over(needs + avoid_needs(step.construction, step.letters, step.avoided))
        else:
            arguments = self.source.filled.get(step.number, step.arguments)
            used = self.source.known.theorems.get(step.title)
            because = scope.over(used.needs_at(arguments)) if used and BLANK not in arguments else []
        if isinstance(step, (Let, Apply)):
            new = scope.add(step.new, step.number)
        facts = scope.over(gives_of(step, self.source.known, self.source.filled))
        self.put(Event(step.word, step.number, depth, new, facts, shape=shape, because=because), step)

    def superpose(self, step: Superpose, scope: Scope, depth: int) -> None:
        """A superposition: the copy is there up to the end of its block."""
        shape, inner = tables().superposition, scope.copy()
        because = scope.over([renamed(one, step.letters) for one in shape.needs]) if shape else []
        new = inner.add(step.new, step.number)
        facts = inner.over(copies_of(step))
        self.put(Event("superpose", step.number, depth, new, facts, because=because), step)
        self.inside(step, step.block, inner, depth, step.literals, [name for name, _ in new])

    def inside(self, step: Step, block: Block, scope: Scope, depth: int, shown: list[Literal],
               copies: list[str]) -> None:
        """The block of a claim or a superposition, and its end, at which its objects are gone."""
        start, outer = len(self.events), scope.copy()
        self.block(block, scope, depth + 1, [], shown)
        gone = [name for event in self.events[start:] for name, _ in event.new] + copies
        self.put(Event("closed", step.number, depth, facts=outer.over(shown), gone=gone), step)

    def cases(self, step: Cases, scope: Scope, depth: int, made: Objects, shown: list[Literal]) -> None:
        """The block that is followed."""
        fact = renamed(step.literal, scope.ids)
        first, second = is_live(step.first), is_live(step.other)
        decided = self.decisions.get(step.number, first if first != second else None)
        if decided is None:
            self.put(Event("undecided", step.number, depth, facts=[fact]), step)
            return
        follow, other = (step.first, step.other) if decided else (step.other, step.first)
        wrong = not is_live(follow)  # only where a figure of the impossible is asked for
        skipped = "" if wrong else "case" if is_live(other) else "contradiction"
        facts = [fact if decided else negation(fact)]
        self.put(Event("supposed" if wrong else "cases", step.number, depth, facts=facts, skipped=skipped), step)
        self.block(follow, scope.copy(), depth, made, shown)


class Bare(Course):
    """The events of a statement alone: what is given, and what is to be made and shown."""

    def __init__(self, source: Source, decisions: Decisions | None = None) -> None:
        self.source, self.decisions = source, {}
        statement = source.theorem.statement
        self.events = [Event("given", 0, 0, new=list(statement.declared), facts=list(statement.given)),
                       Event("qed", 0, 0, new=list(statement.made), facts=list(statement.shown))]


def sorts_of(events: list[Event]) -> dict[str, Sort]:
    """The sorts of all objects of some events."""
    return {name: sort for event in events for name, sort in event.new}
