"""What follows from the facts by the diagram rules alone: forward chaining with a trail.

Each literal known has a reason: None for a fact, else the number of a rule and its objects. The
literals wait in a queue; one that is taken from it wakes the joins of its predicate. A literal also
has a cost: 0 for a fact, else one more than its premises together. The premises of a reason always
cost less than what they give, so reasons never go round in a circle.
"""

from __future__ import annotations

from collections.abc import Iterable, Sequence
from typing import NamedTuple, Protocol

from .clock import Clock
from .codes import EQUALITY, KINDS, MOST_OBJECTS, SIGN, clauses, encode
from .joins import Reason, Tables, giver, waker
from .literals import CIRCLE, LINE, POINT, Sort

TRANSFER = -1  # in place of a rule's number: then comes the place of an instance in `transfers`
MOST_CLASHES, CLASHES_TRIED = 50, 5
MOST_AFTER_CLASH = 200  # literals that are taken from the queue, once the facts are absurd
MOST_KNOWN = 20_000  # literals; a figure with more is not drawn out further
REFLEXIVE = {POINT: "eqr-p", LINE: "eqr-l", CIRCLE: "eqr-c"}


class Carried(Protocol):
    """A literal of diagrams that follows from magnitudes."""

    @property
    def item(self) -> object:
        """The literal."""

    @property
    def diagram(self) -> tuple[int, ...]:
        """What it needs of the diagram."""


class Mark(NamedTuple):
    """A point of the trail."""

    known: int
    changed: int
    taken: int
    level: int
    objects: dict[Sort, int]
    clashes: int
    transfers: int


class Line(NamedTuple):
    """A `by` line: the number of the rule, its objects, the literal, and the level of the block
    from which on it may stand. With TRANSFER for a rule it is a `hence` line."""

    rule: int
    objects: tuple[int, ...]
    code: int
    level: int


class Closure:
    """The literals of diagrams that are known, each with its reason."""

    def __init__(self, clock: Clock | None = None) -> None:
        self.clock = clock or Clock()
        self.tables: Tables = []
        self.places: list[Tables] = []  # by predicate
        for _, sorts in KINDS:
            for _ in range(2):
                own = [[0] * MOST_OBJECTS ** (len(sorts) - 1) for _ in sorts]
                self.places.append(own)
                self.tables += own
        self.reasons: dict[int, Reason | None] = {}
        self.costs: dict[int, int] = {}
        self.trail: list[int] = []  # literals known, in order; the queue is its end
        self.changed: list[tuple[int, Reason | None, int]] = []  # reasons and costs as they were
        self.taken = 0
        self.facts: dict[int, int] = {}  # with the level of the block to which each belongs
        self.level = 0
        self.objects: dict[Sort, int] = {sort: 0 for sort in Sort}  # sets: one bit for each object
        self.births: dict[tuple[Sort, int], int] = {}  # the level of each object
        self.clashes: list[tuple[int, Reason | None]] = []
        self.transfers: list[tuple[Carried, int]] = []  # with the level at which each was found

    # Blocks

    def mark(self) -> Mark:
        """Enters a block. What follows before it is drawn first, so that it stays."""
        self.saturate()
        mark = Mark(len(self.trail), len(self.changed), self.taken, self.level, dict(self.objects),
                    len(self.clashes), len(self.transfers))
        self.level += 1
        return mark

    def back_to(self, mark: Mark) -> None:
        """Forgets all that came after the mark, but for facts of the blocks around."""
        self.facts = {code: level for code, level in self.facts.items() if level <= mark.level}
        while len(self.changed) > mark.changed:
            code, reason, cost = self.changed.pop()
            self.reasons[code], self.costs[code] = reason, cost
        while len(self.trail) > mark.known:
            code = self.trail.pop()
            del self.reasons[code], self.costs[code]
            self._set(code)
        for code in self.facts:
            if self.costs.get(code):
                self._change(code, self.reasons[code], 0)
        self.taken, self.level, self.objects = mark.taken, mark.level, mark.objects
        del self.clashes[mark.clashes :]
        del self.transfers[mark.transfers :]

    # Literals

    def bring(self, sort: Sort, number: int) -> None:
        """A new object, which is itself."""
        self.objects[sort] |= 1 << number
        self.births[sort, number] = self.level
        rule = next(n for n, clause in enumerate(clauses()) if clause.name == REFLEXIVE[sort])
        self._learn(encode(EQUALITY[sort], True, (number, number)), (rule, number))

    def add_fact(self, code: int, level: int | None = None) -> None:
        """A literal of a step, or of one put before the block that is open at a level."""
        if code in self.facts:
            return
        self.facts[code] = self.level if level is None else level
        if code in self.reasons:
            self._change(code, self.reasons[code], 0)
        else:
            self._learn(code, None)

    def add_transfer(self, made: Carried) -> None:
        """A literal of diagrams that follows from magnitudes here."""
        assert isinstance(made.item, int)
        self.transfers.append((made, self.level))
        self._learn(made.item, (TRANSFER, len(self.transfers) - 1))

    def knows(self, code: int) -> bool:
        """Whether a literal is known."""
        return code in self.reasons

    def reach(self, code: int) -> bool:
        """Whether the literal follows."""
        if code not in self.reasons:
            self.saturate()
        return code in self.reasons

    def beside(self, predicate: int, place: int, others: Sequence[int]) -> int:
        """The objects that stand at a place of a known literal beside the others."""
        index = others[0] if len(others) == 1 else others[0] << 6 | others[1]
        return self.places[predicate][place][index]

    def saturate(self) -> None:
        """Draws all consequences."""
        trail = self.trail
        absurd = 0
        while self.taken < len(trail) and absurd < MOST_AFTER_CLASH and len(trail) < MOST_KNOWN:
            absurd += bool(self.clashes)
            if self.taken % 64 == 0:
                self.clock.check()
            code = trail[self.taken]
            self.taken += 1
            x, y, z = (code >> 12) & 63, (code >> 6) & 63, code & 63
            waker(code >> 18)(x, y, z, self._learn, self.tables, self.objects)

    def _learn(self, code: int, reason: Reason | None) -> None:
        if code in self.reasons:
            return
        if code ^ SIGN in self.reasons:
            if len(self.clashes) < MOST_CLASHES:
                self.clashes.append((code, reason))
            if reason is not None:
                return
        self.reasons[code] = reason
        self.costs[code] = 0 if reason is None else self._cost(code, reason)
        self.trail.append(code)
        self._set(code)

    def _cost(self, code: int, reason: Reason) -> int:
        return 1 + sum(self.costs[premise] for premise in self.premises(code, reason))

    def _change(self, code: int, reason: Reason | None, cost: int) -> None:
        self.changed.append((code, self.reasons[code], self.costs[code]))
        self.reasons[code], self.costs[code] = reason, cost

    def _set(self, code: int) -> None:
        """Puts a literal into the tables, or takes it out."""
        x, y, z = (code >> 12) & 63, (code >> 6) & 63, code & 63
        own = self.places[code >> 18]
        if len(own) == 2:
            own[0][y] ^= 1 << x
            own[1][x] ^= 1 << y
        else:
            own[0][y << 6 | z] ^= 1 << x
            own[1][x << 6 | z] ^= 1 << y
            own[2][x << 6 | y] ^= 1 << z

    # Reasons

    def premises(self, code: int, reason: Reason) -> Sequence[int]:
        """The literals from which a rule gives one."""
        rule = reason[0]
        if rule == TRANSFER:
            return self.transfers[reason[1]][0].diagram
        return [each ^ SIGN for each in clauses()[rule].instance(reason[1:]) if each != code]

    def lines_of(self, codes: Iterable[int]) -> int:
        """About how many lines it takes until known literals are facts."""
        return sum(self.costs[code] for code in codes)

    def lines(self, codes: Iterable[int], last: tuple[int, Reason] | None = None) -> list[Line]:
        """The `by` lines, in order, with which known literals become facts; then one with the last
        literal, whose premises are among these."""
        levels: dict[int, int] = {}
        found: list[Line] = []
        for code in codes:
            self._explain(code, levels, found)
        if last and last[0] not in self.facts:
            code, reason = last
            found.append(Line(reason[0], reason[1:], code, self._level(code, reason, levels)))
        return found

    def _level(self, code: int, reason: Reason, levels: dict[int, int]) -> int:
        of_premises = [self.facts.get(each, levels.get(each, 0)) for each in self.premises(code, reason)]
        rule, *objects = reason
        if rule == TRANSFER:
            return max([*of_premises, self.transfers[objects[0]][1]])
        return max([*of_premises, *(self.births[pair] for pair in zip(clauses()[rule].sorts, objects))])

    def _explain(self, code: int, levels: dict[int, int], found: list[Line]) -> None:
        if code in levels or code in self.facts:
            return
        reason = self.reasons[code]
        assert reason is not None
        for premise in self.premises(code, reason):
            self._explain(premise, levels, found)
        levels[code] = self._level(code, reason, levels)
        found.append(Line(reason[0], reason[1:], code, levels[code]))

    def shorten(self, codes: Iterable[int]) -> None:
        """Looks for cheaper reasons of known literals, and of those that they rest on."""
        codes = list(codes)
        for _ in range(2):
            seen: set[int] = set()
            for code in codes:
                self._shorten(code, seen)

    def reasons_of(self, code: int) -> list[Reason]:
        """All ways in which a rule gives the literal from known ones."""
        found: list[Reason] = []
        x, y, z = (code >> 12) & 63, (code >> 6) & 63, code & 63
        giver(code >> 18)(x, y, z, found.append, self.tables, self.objects)
        return found

    def _shorten(self, code: int, seen: set[int]) -> None:
        if code in seen or code in self.facts:
            return
        seen.add(code)
        best = min(self.reasons_of(code), key=lambda reason: self._cost(code, reason), default=None)
        if best and self._cost(code, best) < self.costs[code]:
            self._change(code, best, self._cost(code, best))
        reason = self.reasons[code]
        assert reason is not None
        for premise in self.premises(code, reason):
            self._shorten(premise, seen)
        cost = self._cost(code, reason)
        if cost < self.costs[code]:
            self._change(code, reason, cost)

    def clash_lines(self) -> list[Line]:
        """The fewest `by` lines that make a contradiction one between facts."""
        def cost(clash: tuple[int, Reason | None]) -> int:
            return self.lines_of(self.clash_premises(*clash))

        shown = []
        for code, reason in sorted(self.clashes, key=cost)[:CLASHES_TRIED]:
            self.shorten(self.clash_premises(code, reason))
            shown.append(self.lines(self.clash_premises(code, reason), (code, reason) if reason else None))
        return min(shown, key=len)

    def clash_premises(self, code: int, reason: Reason | None) -> list[int]:
        """The literals from which a literal and its negation follow."""
        return [*(self.premises(code, reason) if reason else []), code ^ SIGN]
