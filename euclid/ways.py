"""The ways in which one rule gives a literal before a step: instances, with the premises that each lacks.

A premise that is no fact may follow all the same: the diagram shows it, or arithmetic gives it.
What is said here is a help: a line is ready where `elements` accepted it (scratch.py).
"""

from __future__ import annotations

from collections.abc import Iterator, Sequence
from dataclasses import dataclass

from .codes import SIGN, Clause, Coded, Comparison, Pattern, SumPattern, clauses, coded, sum_at
from .contexts import turned
from .literals import Diagram, Literal, Sort, spell
from .reach import Reach
from .transfers import Bound, Transfer, instance, placed_at, starts, transfer_rules

MOST_NODES = 4000  # objects put at a place, for one place of one rule
MOST_OF_RULE = 3  # ways of one rule of which something is missing
MOST_SUMS = 60  # times that arithmetic is asked
ENOUGH = ((0, 4), (1, 2), (2, 1))  # how much may be unknown, and how many ways are enough then


@dataclass(frozen=True)
class Way:
    """A line that gives a literal, and what it still lacks."""

    line: str
    rule: str
    lacks: tuple[Literal, ...]  # premises that are no facts, in order
    unknown: tuple[Literal, ...]  # those of them that do not follow, as far as is known
    lines: int  # about how many lines it takes until the others are facts
    is_degenerate: bool  # one object stands for two variables

    def key(self) -> tuple[int, int, int, bool, int, str]:
        """The most useful way comes first."""
        equal = sum(isinstance(each, Diagram) and each.word == "=" and each.positive for each in self.unknown)
        return len(self.unknown), equal, self.lines, self.is_degenerate, len(self.line.split()), self.line


class Search:
    """Objects for the variables of a rule with which its premises are known, but for a few."""

    def __init__(self, reach: Reach, sorts: Sequence[Sort], premises: Sequence[Pattern], most_unknown: int,
                 nodes: int = MOST_NODES) -> None:
        self.closure, self.sorts, self.premises = reach.closure, sorts, premises
        self.most, self.nodes = most_unknown, nodes

    def solutions(self, bound: Bound) -> Iterator[tuple[int, ...]]:
        """All ways to bind the other variables."""
        done = [pattern for pattern in self.premises if bound.keys() >= set(pattern.places)]
        missing = self.missing(done, bound)
        if missing is not None and missing <= self.most:
            yield from self.rest(bound, missing)

    def missing(self, done: Sequence[Pattern], bound: Bound) -> int | None:
        """How many of these premises are not known; none where one is impossible."""
        count = 0
        for pattern in done:
            code = coded(pattern, bound)
            if not self.closure.knows(code):
                if self.closure.knows(code ^ SIGN):
                    return None
                count += 1
        return count

    def rest(self, bound: Bound, missing: int) -> Iterator[tuple[int, ...]]:
        """Binds the variables that are open."""
        if len(bound) == len(self.sorts):
            yield tuple(bound[place] for place in range(len(self.sorts)))
            return
        place, ready = self.narrowest(bound)
        for number in self.choices(place, ready, bound, missing):
            self.nodes -= 1
            if self.nodes < 0:
                return
            more = {**bound, place: number}
            now = self.missing(ready, more)
            if now is not None and missing + now <= self.most:
                yield from self.rest(more, missing + now)

    def narrowest(self, bound: Bound) -> tuple[int, list[Pattern]]:
        """The variable to bind next, and the premises that are complete with it."""
        best, best_ready, best_size = -1, list[Pattern](), 1e9
        for place, sort in enumerate(self.sorts):
            if place in bound:
                continue
            ready = [p for p in self.premises if place in p.places and bound.keys() >= set(p.places) - {place}]
            size = self.domain(sort, place, ready, bound).bit_count() - 0.1 * len(ready) + 20 * (not ready)
            if size < best_size:
                best, best_ready, best_size = place, ready, size
        return best, best_ready

    def domain(self, sort: Sort, place: int, ready: Sequence[Pattern], bound: Bound) -> int:
        """The set of objects with which all these premises are known."""
        objects = self.closure.objects[sort]
        for pattern in ready:
            if pattern.places.count(place) == 1:
                at = pattern.places.index(place)
                others = [bound[other] for other in pattern.places if other != place]
                objects &= self.closure.beside(pattern.predicate, at, others)
        return objects

    def choices(self, place: int, ready: Sequence[Pattern], bound: Bound, missing: int) -> Iterator[int]:
        """The objects for a variable: those with which all is known, then perhaps the others."""
        sort = self.sorts[place]
        known = self.domain(sort, place, ready, bound)
        others = self.closure.objects[sort] & ~known if missing < self.most else 0
        for objects in (known, others):
            while objects:
                yield (objects & -objects).bit_length() - 1
                objects &= objects - 1


class Ways:
    """Looks for the ways to one literal."""

    def __init__(self, reach: Reach, literal: Literal) -> None:
        self.reach, self.literal = reach, literal
        self.item = reach.code(literal)
        self.found: dict[str, Way] = {}
        self.sums = MOST_SUMS
        reach.closure.saturate()

    def all(self) -> list[Way]:
        """The ways, the best first: those that lack nothing that does not follow; where these are few, others."""
        for most_unknown, enough in ENOUGH:
            self.gather(most_unknown)
            if len(self.found) >= enough:
                break
        return self.best()

    def gather(self, most_unknown: int) -> None:
        """Looks for those that lack at most so many literals that do not follow."""
        if isinstance(self.item, int):
            for clause in clauses():
                self.by_clause(clause, self.item, most_unknown)
        for rule in transfer_rules():
            self.by_transfer(rule, most_unknown)

    def best(self) -> list[Way]:
        """What was found, the best first; of one rule not too many that lack something.

        What lacks something that does not follow is left out where something else is found.
        """
        counts: dict[str, int] = {}
        best, seen = [], set()
        ways = sorted(self.found.values(), key=Way.key)
        for way in [way for way in ways if not way.unknown] or ways:
            counts[way.rule] = counts.get(way.rule, 0) + 1
            key = way.rule, frozenset(map(spell, way.lacks))
            if not way.lacks or counts[way.rule] <= MOST_OF_RULE and key not in seen:
                best.append(way)
            seen.add(key)
        return best

    def lines_for(self, way: Way) -> list[str]:
        """The lines with which a way that lacks nothing unknown can be gone, itself the last."""
        codes = [code for code in map(self.reach.code, way.lacks) if isinstance(code, int)]
        return [*map(self.reach.words_of, self.reach.lines_to(codes)), way.line]

    def by_clause(self, clause: Clause, code: int, most_unknown: int) -> None:
        """The instances of a rule that `by` may cite."""
        for target in clause.patterns:
            bound = placed_at(target, code)
            if bound is None:
                continue
            premises = [Pattern(p.predicate ^ 1, p.places) for p in clause.patterns if p is not target]
            for objects in Search(self.reach, clause.sorts, premises, most_unknown).solutions(bound):
                wanted = [each ^ SIGN for each in clause.instance(objects) if each != code]
                names = " ".join(self.names(clause.sorts, objects))
                line = f"by {clause.name} {names} : {spell(self.literal)}"
                self.take(line, clause.name, list(dict.fromkeys(wanted)), objects, clause.sorts)

    def by_transfer(self, rule: Transfer, most_unknown: int) -> None:
        """The instances of a transfer rule."""
        for bound, skipped in starts(rule, self.item):
            premises = [Pattern(p.predicate ^ 1, p.places) for p in rule.patterns if p is not skipped]
            for objects in Search(self.reach, rule.sorts, premises, most_unknown).solutions(bound):
                made = instance(rule, objects, self.item, skipped)
                if made is not None:
                    names = " ".join(self.names(rule.sorts, objects))
                    self.take(f"hence {spell(self.literal)}", f"{rule.name} {names}", [*made.diagram, *made.metric],
                              objects, rule.sorts)

    def names(self, sorts: Sequence[Sort], objects: Sequence[int]) -> list[str]:
        """The names of objects."""
        return [self.reach.scope.names[sort][number] for sort, number in zip(sorts, objects)]

    def take(self, line: str, rule: str, wanted: list[Coded], objects: Sequence[int], sorts: Sequence[Sort]) -> None:
        """Notes an instance, where it is of use."""
        if self.item in wanted:
            return
        lacking = [item for item in wanted if not self.is_there(item)]
        literals = {item: self.reach.literal(item) for item in lacking}
        unknown = [item for item in lacking if not self.follows(item)]
        if any(is_hopeless(literals[item], self.literal) for item in unknown):
            return
        cost = sum(self.reach.closure.costs[item] if isinstance(item, int) else 1
                   for item in lacking if item not in unknown)
        pairs = list(zip(sorts, objects))
        way = Way(line, rule.split()[0], tuple(literals.values()), tuple(literals[item] for item in unknown), cost,
                  len(set(pairs)) < len(pairs))
        key = line if line.startswith("by") else f"{line} {rule}"
        self.found.setdefault(key, way)

    def is_there(self, item: Coded) -> bool:
        """Whether a premise holds now: it is a fact, or arithmetic gives it."""
        if self.reach.has(item):
            return True
        return isinstance(item, Comparison) and self.asks() and self.reach.follows(item)

    def follows(self, item: Coded) -> bool:
        """Whether a premise that does not hold now follows from what the diagram shows."""
        if isinstance(item, int):
            return self.reach.closure.knows(item)
        return self.asks() and self.reach.will_follow(item)

    def asks(self) -> bool:
        """Counts a question to arithmetic; whether one more may be asked."""
        self.sums -= 1
        return self.sums >= 0


def is_hopeless(premise: Literal, wanted: Literal) -> bool:
    """Whether an unknown premise is no help: it says what is wanted, or no figure has it."""
    if not isinstance(premise, Diagram):
        return False
    if premise in turned(wanted):
        return True
    if premise.word == "between" and premise.positive:
        return len(set(premise.objects)) < 3
    return premise.word == "meets" and premise.positive and len(set(premise.objects)) < 2


def lacking_words(lacks: Sequence[Literal], unknown: Sequence[Literal], lines: int) -> str:
    """The premises that are no facts, with those that follow told apart."""
    follows = [spell(each) for each in lacks if each not in unknown]
    parts = [spell(each) for each in unknown]
    if follows:
        count = f"{lines} line{'s' * (lines != 1)}"
        parts.append(f"{' ; '.join(follows)} (follow{'s' * (len(follows) == 1)}: {count})")
    return " ; ".join(parts)
