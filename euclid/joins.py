"""Writes, for each predicate, the function that a new literal of it wakes.

The function goes through all clauses in which the negation of the new literal stands, at each of
its places, and through each other literal of the clause as the one that may follow: the target.
What is left is a join over the literals known. A table has, for a predicate and one of its places,
the set of objects that may stand there beside given others: an integer, one bit for each object.
So one step of a join is the intersection of a few sets. Where all objects of the target are bound,
it is looked up first, and the rest of the join ends at its first solution.
"""

from __future__ import annotations

from collections.abc import Callable, Iterator, Mapping, Sequence
from functools import lru_cache
from typing import NamedTuple

from .codes import KINDS, Clause, Pattern, clauses
from .literals import Sort

Reason = tuple[int, ...]  # the number of a rule, and its objects
Tables = list[list[int]]
# Three objects of a new literal, what takes each code found with its reason, the tables, all objects.
Waker = Callable[[int, int, int, Callable[[int, Reason], None], Tables, Mapping[Sort, int]], None]
# The same, but all reasons of one literal are found.
Giver = Callable[[int, int, int, Callable[[Reason], None], Tables, Mapping[Sort, int]], None]
Entry = tuple[int, int, tuple[int, ...]]  # a predicate, one of its places, the variables at the others

# How many objects a set is expected to have: it only decides the order of a join.
EXPECTED: dict[str, float] = {"on": 4, "inside": 2, "center": 1, "between": 1.5, "same-side": 5, "meets": 3, "=": 0.2}
EXPECTED_NOT: dict[str, float] = {"on": 8, "inside": 3, "center": 3, "between": 9, "same-side": 4, "meets": 2, "=": 10}


class JoinStep(NamedTuple):
    """One variable of a join: the sets that restrict it, and the target's, where that is complete
    with this variable."""

    variable: int
    sets: tuple[Entry, ...]
    known: Entry | None


def expected(predicate: int) -> float:
    """About how many objects a set of this predicate has."""
    word = KINDS[predicate >> 1][0]
    return (EXPECTED_NOT if predicate & 1 else EXPECTED)[word]


def set_of(pattern: Pattern, is_negated: bool, variable: int) -> Entry:
    """The set of a literal, or of its negation, with which it restricts one variable."""
    place = pattern.places.index(variable)
    others = pattern.places[:place] + pattern.places[place + 1 :]
    return pattern.predicate ^ is_negated, place, others


def plan(clause: Clause, start: Pattern, others: list[Pattern], goal: Pattern | None) -> list[JoinStep]:
    """The variables of a join in a good order."""
    bound = set(start.places)
    steps: list[JoinStep] = []
    while len(bound) < len(clause.sorts):
        choices = [step_for(variable, bound, others, goal)
                   for variable in range(len(clause.sorts)) if variable not in bound]
        _, step = min(choices, key=lambda choice: choice[0])
        steps.append(step)
        bound.add(step.variable)
    return steps


def step_for(variable: int, bound: set[int], others: list[Pattern], goal: Pattern | None) -> tuple[float, JoinStep]:
    """The step that binds a variable next, and how many objects are expected in it."""
    def is_ready(pattern: Pattern) -> bool:
        return variable in pattern.places and bound.issuperset(set(pattern.places) - {variable})

    ready = [pattern for pattern in others if is_ready(pattern)]
    known = set_of(goal, False, variable) if goal and is_ready(goal) else None
    size = min((expected(p.predicate ^ 1) for p in ready), default=100) / (1 + len(ready))
    sets = tuple(set_of(pattern, True, variable) for pattern in ready)
    return size - (0.01 if known else 0), JoinStep(variable, sets, known)


class JoinWriter:
    """The text of one join: a clause, the literal of it at which the join starts, and the one that
    may follow; without that, all instances are found."""

    def __init__(self, number: int, clause: Clause, start: int, target: int | None) -> None:
        self.number, self.clause = number, clause
        self.start = clause.patterns[start]
        self.goal = None if target is None else clause.patterns[target]
        self.others = [p for i, p in enumerate(clause.patterns) if i not in (start, target)]
        self.names = dict(zip(self.start.places, "xyz"))  # by the places of the variables
        self.lines: list[str] = []
        self.depth = 1
        self.emptied: list[str] = []  # the loops that end where the goal is found

    def write(self, text: str) -> None:
        """One more line."""
        self.lines.append("    " * self.depth + text)

    def nest(self, text: str) -> None:
        """A line that opens a block."""
        self.write(text)
        self.depth += 1

    def text(self) -> list[str]:
        """The lines of the join."""
        if tests := self.tests():
            self.nest(f"if {' and '.join(tests)}:")
        complete = self.goal is not None and set(self.goal.places) <= set(self.start.places)
        steps = plan(self.clause, self.start, self.others, self.goal)
        for step in steps:
            self.loop(step, complete, complete and step is steps[-1])
            complete = complete or step.known is not None
        self.found()
        return self.lines

    def tests(self) -> list[str]:
        """What is asked of the literals that are bound from the start."""
        bound = set(self.start.places)
        tests = ["x == y"] if len(bound) < len(self.start.places) else []
        known = [pattern for pattern in self.others if set(pattern.places) <= bound]
        tests += [member(pattern.predicate ^ 1, pattern, self.names) for pattern in known]
        if self.goal and set(self.goal.places) <= bound:
            tests.append("not " + member(self.goal.predicate, self.goal, self.names))
        return tests

    def loop(self, step: JoinStep, complete: bool, is_any_good: bool) -> None:
        """Binds a variable: to each object of the set, or where any one is good to the first."""
        mask, name = f"m{self.depth}", f"v{step.variable}"
        sets = [entry(each, self.names) for each in step.sets]
        sets = sets or [f"ALL[{self.clause.sorts[step.variable].value!r}]"]
        if step.known:
            sets.append("~" + entry(step.known, self.names))
        self.write(f"{mask} = {' & '.join(sets)}")
        self.nest(f"{'if' if is_any_good else 'while'} {mask}:")
        self.write(f"{name} = {mask}.bit_length() - 1")
        if not is_any_good:
            self.write(f"{mask} ^= 1 << {name}")
            self.emptied += [mask] if complete else []
        self.names[step.variable] = name

    def found(self) -> None:
        """What is done with a solution."""
        objects = ", ".join(self.names[place] for place in range(len(self.clause.sorts)))
        instance = f"({self.number}, {objects})"
        if self.goal is None:
            self.write(f"add({instance})")
            return
        names = [self.names[place] for place in self.goal.places]
        head = self.goal.predicate << 18
        parts = [f"{head} | {names[0]} << 12 | {names[1]} << 6", *names[2:]]
        self.write(f"add({' | '.join(parts)}, {instance})")
        if self.emptied:
            self.write(" = ".join(self.emptied) + " = 0")


def compiled(lines: list[str]) -> object:
    """The function with these lines for a body."""
    text = "\n".join(lines)
    tables = [f"    {name} = S[{i}]" for i, name in enumerate(table_names()) if name in text]
    head = "def run(x, y, z, add, S, ALL):"
    scope: dict[str, object] = {}
    exec(compile("\n".join([head, *tables, text, "    return"]), "<joins>", "exec"), scope)
    return scope["run"]


@lru_cache(maxsize=None)
def table_names() -> tuple[str, ...]:
    """The names of the tables, in the order in which the closure has them."""
    return tuple(table_name(2 * kind + sign, place) for kind, (_, sorts) in enumerate(KINDS)
                 for sign in range(2) for place in range(len(sorts)))


def table_name(predicate: int, place: int) -> str:
    """The name of the table of a predicate and a place."""
    return f"t{predicate:02d}{'abc'[place]}"


def entry(each: Entry, names: Mapping[int, str]) -> str:
    """The set of one table beside the objects with these names."""
    predicate, place, others = each
    index = " << 6 | ".join(names[other] for other in others)
    return f"{table_name(predicate, place)}[{index}]"


def member(predicate: int, pattern: Pattern, names: Mapping[int, str]) -> str:
    """A test whether a literal is known whose objects are bound."""
    return f"({entry((predicate, 0, pattern.places[1:]), names)} >> {names[pattern.places[0]]} & 1)"


def places_of(predicate: int) -> Iterator[tuple[int, Clause, int]]:
    """Where a predicate stands in the clauses: the number of the clause, and the place in it."""
    for number, clause in enumerate(clauses()):
        for place, pattern in enumerate(clause.patterns):
            if pattern.predicate == predicate:
                yield number, clause, place


def targets_of(clause: Clause, start: int) -> Sequence[int]:
    """The other literals of a clause."""
    return [target for target in range(len(clause.patterns)) if target != start]


@lru_cache(maxsize=None)
def waker(predicate: int) -> Waker:
    """The function that a new literal of the predicate wakes."""
    return compiled([  # type: ignore[return-value]
        line
        for number, clause, start in places_of(predicate ^ 1)
        for target in targets_of(clause, start)
        for line in JoinWriter(number, clause, start, target).text()
    ])


@lru_cache(maxsize=None)
def giver(predicate: int) -> Giver:
    """The function that finds all instances that give a literal of the predicate."""
    return compiled([  # type: ignore[return-value]
        line
        for number, clause, start in places_of(predicate)
        for line in JoinWriter(number, clause, start, None).text()
    ])
