"""Uses of earlier theorems from which a literal that a step needs may follow.

A theorem that makes nothing is read as a rule: what it shows is matched with what is wanted, and
its other objects come from a join over its given literals, those of diagrams against the closure,
those of magnitudes by arithmetic. There are three ways: the theorem shows the literal itself; it
shows a sum that is tied to it by facts; it shows something of the diagram from which it follows.
All limits count work, not time, so what is found does not depend on the machine.
"""

from __future__ import annotations

from collections.abc import Iterable, Iterator

from ..codes import KINDS, RIGHT, SIGN, Coded, Comparison, Quantity, SumPattern, coded, decode, negated, sum_at
from ..magnitudes import System
from ..reach import Reach
from ..statements import Known
from ..transfers import Bound, instances, matches, placed, placed_at
from .deciding import Decider
from .joining import Join, Lead
from .nearest import near_ways
from .supply import Supplier
from .theorems import Catalogue, Shape, Use
from .ties import Ties

EFFORTS = ((300, 1200), (3000, 10000))  # the work for one join, and for one theorem
MOST_WORK = 100000  # for one literal: an object put at a place is one, and the simplex
SIMPLEX = 40
LINES_OF_SUM = 2  # about so many lines one takes that is tied to the facts
MOST_FOUND, MOST_OPEN = 60, 1  # uses of one join; and their sums that may still be missing
MOST_TERMS = 24  # of the last facts, where they are to be made absurd
LINKS = 2  # orders between magnitudes, one after another, with which a sum may be tied to the wanted one
MOST_DERIVED = 6  # transfers whose sums are wanted in place of a literal of diagrams
MOST_VERDICTS, MOST_DRAWN = 150, 100  # times that the simplex is asked, and that the diagram is
MIRRORED = {"between": (2, 1, 0), "same-side": (1, 0, 2), "=": (1, 0), "meets": (1, 0)}


class TooMuch(Exception):
    """The work for a literal is used up."""


def mirrored(code: int) -> list[int]:
    """The literal, and the one that says the same with its objects in another order."""
    kind, _, objects = decode(code)
    word, sorts = KINDS[kind]
    order = MIRRORED.get(word)
    if order is None or sorts[order[0]] != sorts[0]:
        return [code]
    other = code >> 18 << 18
    for number, place in enumerate(order):
        other |= objects[place] << (12 - 6 * number)
    return [code] if other == code else [code, other]


class Candidates:
    """The uses for one literal at a time."""

    def __init__(self, catalogue: Catalogue, known: Known, reach: Reach, supplier: Supplier) -> None:
        self.catalogue, self.known, self.reach, self.supplier = catalogue, known, reach, supplier
        self.closure = reach.closure
        self.state: tuple[object, ...] = ()
        self.ties, self.facts = Ties(reach), System()
        self.answers: dict[Comparison, bool] = {}
        self.nodes, self.share = EFFORTS[0]
        self.work = 0  # what is left of it
        self.is_first = True  # whether more work may be put in later
        self.gave_up = self.cut = False  # the work was used up; a join was cut short

    def start(self) -> None:
        """Begins with a literal."""
        self.closure.saturate()
        state = tuple(self.reach.metric), tuple(self.closure.trail)
        if state != self.state:
            self.state, self.ties, self.answers = state, Ties(self.reach), {}
            self.facts = System(fact for fact in self.reach.metric if fact.says == "=")
        self.work = MOST_WORK

    def begin(self, effort: int) -> None:
        """Begins with one of the efforts."""
        self.nodes, self.share = EFFORTS[effort]
        self.is_first = effort == 0
        self.gave_up = self.cut = False

    def shapes(self) -> list[Shape]:
        """The theorems that may be used, the latest first."""
        return self.catalogue.shapes(self.known)

    def by_way(self, number: int, item: Coded | None) -> list[Use]:
        """The uses of one of the three ways; fewer where the work is used up."""
        found: dict[Use, None] = {}
        self.work = max(self.work, MOST_WORK // 4) if self.is_first else self.work
        try:
            for use in (self.showing, self.tied, self.drawing)[number](item):
                found[use] = None
        except TooMuch:
            self.gave_up = True
        return list(found)

    # What shows it

    def showing(self, item: Coded | None) -> Iterator[Use]:
        """The theorems that show it, or the sum with which a transfer gives it; of None, those that
        show the negation of a fact."""
        for wanted in self.targets(item):
            for shape in self.shapes():
                yield from self.uses(shape, shown_as(shape, wanted))

    def targets(self, item: Coded | None) -> list[Coded]:
        """What may be shown in place of a literal."""
        if item is None:
            closure = self.closure
            codes = [code ^ SIGN for code, level in closure.facts.items() if level == closure.level]
            return [*map(negated, list(self.reach.metric)[-4:]), *codes[::-1][:12]]
        if isinstance(item, Comparison):
            return [item]
        return [*mirrored(item), *self.derived(item)]

    def derived(self, code: int) -> list[Comparison]:
        """Sums with which a transfer gives a literal of diagrams."""
        found: dict[Comparison, None] = {}
        for number, made in enumerate(instances(code, self.closure)):
            lacking = [item for item in made.metric if not self.holds(item)]
            if len(lacking) == 1:
                found[lacking[0]] = None
            if len(found) >= MOST_DERIVED or number > 400:
                break
        return list(found)

    # What is tied to it

    def tied(self, item: Coded | None) -> Iterator[Use]:
        """The theorems that show a sum from which the wanted one follows by facts."""
        if item is None:
            yield from self.decided(None, self.tied_terms(None))
            return
        for sought in [item] if isinstance(item, Comparison) else self.derived(item):
            self.ties.know(sought.quantities())
            yield from self.tied_to(sought)

    def tied_to(self, sought: Comparison) -> Iterator[Use]:
        """Those for one sum: where it is an equation, first those that give it by one equation."""
        parts, is_found = self.tied_terms(sought), False
        if sought.says == "=":
            for use in self.led_to(sought, parts):
                is_found = True
                yield use
            self.cut |= self.is_first
            if is_found or self.is_first:
                return
        yield from self.decided(sought, parts)

    def led_to(self, sought: Comparison, parts: list[Quantity]) -> Iterator[Use]:
        """The theorems that show an equation which is true if the wanted one is, and only then."""
        supposed = self.ties.supposing(sought)
        lead = Lead(lambda item: supposed.equal(item) and not self.ties.equal(item), supposed)
        for shape in self.shapes():
            for pattern, led in zip(shape.shown_sums, shape.leads):
                if pattern.says == "=":
                    yield from self.uses(shape, touched([pattern], parts), MOST_OPEN, led, lead)

    def decided(self, sought: Comparison | None, parts: list[Quantity]) -> Iterator[Use]:
        """The theorems from all whose sums together it follows, by arithmetic."""
        tying = [Comparison("=", frozenset({**row, part: -p}.items())) for part, (p, row) in self.ties.system.solved.items()]
        orders = [fact for fact in self.reach.metric if fact.says != "="]
        decider = Decider(sought, [*tying, *orders], self.reach.will_be_apart)
        lead = Lead(decider.may_give)
        later: dict[Use, None] = {}
        try:
            for shape in self.shapes():
                led = (shape.leads[0], lead) if len(shape.leads) == 1 else (None, None)
                for use in self.uses(shape, touched(shape.shown_sums, parts), MOST_OPEN, *led):
                    later[use] = None
        except TooMuch:
            self.gave_up = True
        for use in sorted(later, key=Use.key):
            if decider.asked < MOST_VERDICTS and decider.gives([sum_at(each, use.objects) for each in use.shape.shown_sums]):
                yield use

    def tied_terms(self, sought: Comparison | None) -> list[Quantity]:
        """The terms of which a sum has one if the wanted one follows by it."""
        if sought is None:
            recent = {part: None for fact in list(self.reach.metric)[::-1]
                      for part in sorted(fact.quantities()) if part != RIGHT}
            return list(recent)[:MOST_TERMS]
        keys = sorted(self.ties.residue(sought.form))
        if sought.says == "=":
            by_key = [self.terms_with([key]) for key in keys if key != RIGHT]
            return min(by_key, key=len, default=[])
        orders = [self.ties.residue(fact.form) for fact in self.reach.metric if fact.says != "="]
        for _ in range(LINKS):
            linked = {key for residue in orders if not residue.keys().isdisjoint(keys) for key in residue}
            keys += sorted(linked.difference(keys))
        return list(dict.fromkeys(part for key in keys if key != RIGHT for part in self.terms_with([key])))

    def terms_with(self, keys: list[Quantity]) -> list[Quantity]:
        """The terms that have one of these where terms are put for each other."""
        return sorted(part for part in self.ties.terms if not self.ties.residue([(part, 1)]).keys().isdisjoint(keys))

    # What shows something of the diagram

    def drawing(self, item: Coded | None) -> Iterator[Use]:
        """The theorems that show something of the diagram from which it follows; for None, something
        that is known to be false."""
        if item is None:
            for shape in self.shapes():
                for denial in shape.denials:
                    yield from self.uses(shape, [{}], 0, denial)
            return
        wanted = self.givers_of(item) if isinstance(item, int) else self.lacking_of(item)
        for shape in self.shapes():
            yield from self.uses(shape, (bound for code in wanted for bound in shown_as(shape, code)), 0)

    def givers_of(self, code: int) -> list[int]:
        """The literals of diagrams from each of which one follows, the nearest first: the negations of
        all that follows from its negation."""
        closure = self.closure
        mark = closure.mark()
        closure.add_fact(code ^ SIGN)
        closure.saturate()
        found = [each ^ SIGN for each in closure.trail[mark.known :]]
        closure.back_to(mark)
        return found[:MOST_DRAWN]

    def lacking_of(self, item: Comparison) -> list[int]:
        """The literals of diagrams with one of which a transfer gives a sum."""
        lacking = dict.fromkeys(near.lacks for near in near_ways(item, self.reach, self.supplier.clock))
        return [code for code in lacking if isinstance(code, int)][:MOST_DRAWN]

    # The join

    def spend(self, work: int) -> None:
        """Counts work; raises `TooMuch` where it is used up."""
        self.supplier.clock.check()
        self.work -= work
        if self.work < 0:
            raise TooMuch

    def holds(self, item: Comparison) -> bool:
        """Whether a sum holds here, as far as is quickly seen."""
        if item in self.reach.metric:
            return True
        if item.says == "=":
            return self.ties.equal(item)
        if item not in self.answers:
            self.spend(SIMPLEX)
            will = self.reach.will_follow
            self.answers[item] = will(item) or self.supplier.cheapest(item, will) is not None
        return self.answers[item]

    def is_there(self, item: Comparison) -> bool:
        """Whether a sum is a fact, or an equation that follows from facts alone."""
        return item in self.reach.metric or item.says == "=" and self.facts.holds(item, True)

    def uses(self, shape: Shape, starts: Iterable[Bound], most_open: int = MOST_OPEN, narrow: Shape | None = None,
             lead: Lead | None = None) -> Iterator[Use]:
        """The uses with these objects whose given literals hold, but for some of magnitudes. The shape
        of which they are may be made narrower for the join."""
        enough = self.work - self.share
        for bound in starts:
            self.spend(1)
            join = Join(narrow or shape, self.closure, self.ties, self.holds, self.nodes, most_open, lead)
            found = 0
            for objects, still_open in join.solutions(bound):
                found += 1
                yield self.use(shape, objects, still_open)
                if found >= MOST_FOUND:
                    self.cut = True
                    break
            self.spend(self.nodes - max(join.nodes, 0))
            if join.nodes < 0 or self.work < enough:
                self.cut = True
            if self.work < enough:
                return

    def use(self, shape: Shape, objects: tuple[int, ...], still_open: int) -> Use:
        """The theorem at these objects."""
        lines = 1 + self.closure.lines_of(coded(pattern, objects) for pattern in shape.given)
        lines += LINES_OF_SUM * sum(not self.is_there(sum_at(pattern, objects)) for pattern in shape.given_sums)
        pairs = list(zip(shape.sorts, objects))
        return Use(lines, still_open, len(pairs) - len(set(pairs)), shape, objects)


def shown_as(shape: Shape, wanted: Coded) -> Iterator[Bound]:
    """Objects with which a theorem shows a literal."""
    if isinstance(wanted, Comparison):
        for pattern in shape.shown_sums:
            yield from matches(pattern, wanted)
        return
    for each in shape.shown:
        bound = placed_at(each, wanted)
        if bound is not None:
            yield bound


def touched(patterns: Iterable[SumPattern], parts: list[Quantity]) -> Iterator[Bound]:
    """Objects with which one of the sums that a theorem shows has one of the terms."""
    seen = set()
    for pattern in patterns:
        for part in parts:
            for bound in placed(pattern, part):
                key = tuple(sorted(bound.items()))
                if key not in seen:
                    seen.add(key)
                    yield bound
