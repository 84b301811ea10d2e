"""How a literal that a step needs comes to be allowed: the lines that go before the step.

Each question is answered with whether it was found; the lines are written then, and their literals
are facts. A line that rests on facts of an outer block alone is written before the inner one.
"""

from __future__ import annotations

from collections.abc import Callable, Iterable
from functools import partial
from itertools import islice
from typing import NamedTuple

from .. import magnitudes
from ..clock import Clock
from ..closure import TRANSFER, Line
from ..codes import SEG, SIGN, Coded, Comparison, decode, encode
from ..literals import spell
from ..reach import POINTS_EQUAL, Reach
from ..transfers import Instance, instances, into_diagrams, worded
from .chaining import Chainer
from .page import INDENT, Page

# The transfers into diagrams that have few instances: they are looked at before lines are written.
QUICK = ("ms1", "ms2", "mr1", "ds3a", "ds4a", "da1b", "dr1a", "dr1b")
MOST_INSTANCES, MOST_CHAINED, MOST_HARVESTED, HARVESTS, MOST_KEPT = 5000, 40, 400, 3, 8


class Chained(NamedTuple):
    """A literal of diagrams that follows from magnitudes, with the sums that are written first."""

    item: Coded
    diagram: tuple[int, ...]
    metric: tuple[Comparison, ...]
    chain: tuple[Instance, ...]


class Supplier:
    """Writes on a page what a step lacks."""

    def __init__(self, reach: Reach, page: Page, clock: Clock) -> None:
        self.reach, self.page, self.clock = reach, page, clock
        self.closure = reach.closure
        self.chainer = Chainer(reach)
        self.is_deep = True  # whether all is tried, also what takes long
        self.is_lax = False  # whether sums that say something of the diagram are taken for written
        self.chains = 0  # how often a chain of sums was looked for, which takes long
        self.kept: dict[tuple[object, ...], list[Instance]] = {}  # what was carried, by the facts

    def need(self, item: Coded) -> bool:
        """Makes the literal allowed."""
        self.clock.check()
        if self.is_allowed(item):
            return True
        if isinstance(item, Comparison):
            return self.with_harvest(partial(self.need_metric, item))
        return self.with_harvest(partial(self.need_diagram, item, False))

    def fact(self, item: Coded) -> bool:
        """Makes the literal a fact."""
        self.clock.check()
        if self.reach.has(item):
            return True
        if isinstance(item, Comparison):
            return self.need(item) and self.hence(item)
        return self.with_harvest(partial(self.need_diagram, item, True))

    def with_harvest(self, attempt: Callable[[], bool]) -> bool:
        """Tries, and tries again with what magnitudes say of the diagram."""
        for number in range(HARVESTS):
            if attempt():
                return True
            if self.harvest():
                continue
            if not self.is_deep or not (self.is_lax or self.may_help(attempt, HARVESTS - number)):
                return False
            if not self.harvest_chained():
                return False
        return attempt()

    def may_help(self, attempt: Callable[[], bool], rounds: int) -> bool:
        """Whether an attempt succeeds where all that magnitudes may say of the diagram is taken for
        true: that is quickly seen, and the sums that say it are looked for only then."""
        def succeeds() -> bool:
            for _ in range(rounds):
                if not self.harvest_chained() | self.harvest():
                    return False
                if attempt():
                    return True
            return False

        self.is_lax = True
        try:
            return self.tried(succeeds) is not None
        finally:
            self.is_lax = False

    def tried(self, action: Callable[[], bool]) -> list[str] | None:
        """The lines that an action writes, or None where it fails; all is undone. Where blocks are
        open only the number of the lines counts."""
        closure, page = self.closure, self.page
        mark = self.reach.mark()
        closure.level -= 1
        facts, sums = dict(closure.facts), dict(self.reach.metric)
        lines, openings = list(page.lines), list(page.openings)
        try:
            return [line.text for line in page.lines[len(lines) :]] if action() else None
        finally:
            closure.facts = facts
            self.reach.back_to(mark)
            self.reach.metric = sums
            page.lines[:], page.openings[:] = lines, openings

    def harvest(self) -> bool:
        """Learns the literals of diagrams that follow from magnitudes by one transfer."""
        self.closure.saturate()
        before = len(self.closure.trail), len(self.closure.clashes)
        parts = {part for fact in self.reach.metric for part in fact.quantities()}
        for made in list(into_diagrams(parts, self.closure)):
            self.clock.check()
            if all(map(self.reach.will_follow, made.metric)):
                self.closure.add_transfer(made)
        return before != (len(self.closure.trail), len(self.closure.clashes))

    def harvest_chained(self) -> bool:
        """The same, where the magnitudes follow only with sums that have to be written first."""
        if self.is_lax:
            return self.harvest_all()
        found = []
        for made in self.carried():
            self.clock.check()
            chains = [self.chainer.chosen(item) for item in made.metric]
            if None not in chains:
                chain = [each for chosen in chains for each in chosen or []]
                diagram = [code for each in chain for code in each.diagram]
                found.append(Chained(made.item, (*made.diagram, *diagram), made.metric, tuple(chain)))
        for each in found:
            self.closure.add_transfer(each)
        return bool(found)

    def harvest_all(self) -> bool:
        """The same, where the sums are not looked for before the literal is."""
        before = len(self.closure.trail), len(self.closure.clashes)
        for made in self.carried():
            self.closure.add_transfer(made)
        return before != (len(self.closure.trail), len(self.closure.clashes))

    def carried(self) -> list[Instance]:
        """The transfers into the diagram whose magnitudes follow with all sums that may be written."""
        state = (tuple(self.reach.metric), tuple(self.closure.facts), self.reach.scope.size(),
                 tuple(made.item for made, _ in self.closure.transfers))
        if state not in self.kept:
            found = []
            for made in islice(self.chainer.into_diagrams(), MOST_HARVESTED):
                self.clock.check()
                found.append(made)
            if len(self.kept) >= MOST_KEPT:
                del self.kept[next(iter(self.kept))]
            self.kept[state] = found
        return self.kept[state]

    def hence(self, item: Coded) -> bool:
        """Writes the literal as a `hence` line."""
        self.reach.add(item)
        self.page.put("hence " + self.reach.spell(item))
        return True

    def is_turned_fact(self, item: Coded) -> bool:
        """Whether two points differ because they do in the other order: by the rule `ms2`."""
        if isinstance(item, Comparison):
            return False
        kind, positive, objects = decode(item)
        return kind == POINTS_EQUAL and not positive and self.reach.apart(objects[0], objects[1])

    # Diagrams

    def need_diagram(self, code: int, as_fact: bool) -> bool:
        """Makes a literal of the diagram allowed, or a fact."""
        if self.closure.reach(code):
            return self.cite([code])
        if self.by_transfer(code):
            return not as_fact or self.hence(code)
        if self.closure.clashes:
            return self.write(self.closure.clash_lines()) and self.claim(code, ["contradiction"])
        if self.refute(code):
            return True
        return self.by_chained_transfer(code) and (not as_fact or self.hence(code))

    def cite(self, codes: Iterable[int]) -> bool:
        """Writes the lines with which known literals become facts."""
        return self.write(self.reach.lines_to(codes))

    def write(self, lines: list[Line]) -> bool:
        """Writes lines of the closure."""
        for line in lines:
            if line.rule == TRANSFER and not self.need_premises(line.objects[0]):
                return False
            self.closure.add_fact(line.code, line.level)
            self.page.put(self.reach.words_of(line), line.level)
        return True

    def need_premises(self, place: int) -> bool:
        """Makes the metric premises of a transfer into the diagram follow."""
        made = self.closure.transfers[place][0]
        if self.is_lax:
            return True
        if isinstance(made, Chained) and not self.write_chain(made.chain):
            return False
        assert isinstance(made, (Instance, Chained))
        return all(self.need_arithmetic(item) or self.need_chain(item) for item in made.metric)

    def claim(self, item: int, block: list[str]) -> bool:
        """Writes a claim of one literal with its block."""
        self.page.put("claim " + self.reach.spell(item))
        for text in block:
            self.page.put(INDENT + text)
        self.reach.add(item)
        return True

    def refute(self, code: int) -> bool:
        """By two cases, of which the second is absurd."""
        mark = self.closure.mark()
        self.closure.add_fact(code ^ SIGN)
        self.closure.saturate()
        lines = self.closure.clash_lines() if self.closure.clashes else None
        self.closure.back_to(mark)
        if lines is None:
            return False
        if not self.write([line for line in lines if line.level <= mark.level]):
            return False
        block = [self.reach.words_of(line) for line in lines if line.level > mark.level]
        cases = ["cases " + self.reach.spell(code), INDENT + "qed", "else"]
        return self.claim(code, cases + [INDENT + text for text in [*block, "contradiction"]])

    # Magnitudes

    def need_metric(self, item: Comparison) -> bool:
        """Makes a literal of magnitudes allowed."""
        return (self.reach.follows(item) or self.by_transfer(item) or self.need_arithmetic(item)
                or self.need_chain(item))

    def by_transfer(self, item: Coded) -> bool:
        """The shortest way by one transfer rule whose metric premises follow from the facts, or
        will where points are said to differ."""
        for follows in (self.reach.follows, self.reach.will_follow):
            best = self.cheapest(item, follows)
            if best:
                return self.cite(best.diagram) and all(map(self.need_arithmetic, best.metric))
        return False

    def by_chained_transfer(self, code: int) -> bool:
        """By one transfer rule whose metric premises are chained first."""
        first = islice(instances(code, self.closure), MOST_CHAINED)
        for made in sorted(first, key=lambda each: self.closure.lines_of(each.diagram)):
            self.clock.check()
            if all(self.reach.will_follow(m) or self.chainer.chosen(m) for m in made.metric):
                return self.cite(made.diagram) and all(
                    self.need_arithmetic(m) or self.need_chain(m) for m in made.metric)
        return False

    def is_allowed(self, item: Coded) -> bool:
        """Whether a literal is allowed as the book stands."""
        if self.reach.has(item) or self.is_turned_fact(item):
            return True
        if isinstance(item, Comparison) and self.reach.follows(item):
            return True
        names = None if isinstance(item, Comparison) else QUICK
        return any(self.closure.lines_of(made.diagram) == 0 and all(map(self.reach.follows, made.metric))
                   for made in instances(item, self.closure, names))

    def may_follow(self, item: Coded) -> bool:
        """Whether a literal is allowed, or will be where lines are put before the step."""
        if self.is_allowed(item):
            return True
        if isinstance(item, Comparison):
            return self.cheapest(item, self.reach.follows) is not None
        return self.closure.reach(item)

    def cheapest(self, item: Coded, follows: Callable[[Comparison], bool]) -> Instance | None:
        """The transfer with the fewest lines whose metric premises follow."""
        self.closure.saturate()
        best, best_cost = None, 0
        for number, made in enumerate(instances(item, self.closure)):
            cost = self.closure.lines_of(made.diagram)
            if (best is None or cost < best_cost) and all(map(follows, made.metric)):
                best, best_cost = made, cost
            if best and best_cost == 0 or number > MOST_INSTANCES:
                break
        return best

    def need_arithmetic(self, item: Comparison | None) -> bool:
        """Makes a literal, or for None a contradiction, follow by arithmetic; points that follow
        to differ are first said to."""
        if self.reach.follows(item):
            return True
        self.closure.saturate()
        return self.reach.will_follow(item) and self.cite(self.needed_apart(item))

    def need_chain(self, item: Comparison | None) -> bool:
        """Makes a literal follow by transfers that are written as `hence` lines."""
        self.closure.saturate()
        self.chains += 1
        chosen = self.chainer.chosen(item)
        return chosen is not None and self.write_chain(chosen) and self.need_arithmetic(item)

    def write_chain(self, chain: Iterable[Instance]) -> bool:
        """Writes transfers as `hence` lines, those that are facts left out."""
        for made in chain:
            if self.reach.has(made.item):
                continue
            if not (self.cite(made.diagram) and all(map(self.need_arithmetic, made.metric))):
                return False
            self.reach.add(made.item)
            self.page.put("hence " + spell(worded(made, self.reach.scope)))
        return True

    def needed_apart(self, item: Comparison | None) -> list[int]:
        """Inequalities of points without any of which the literal does not follow."""
        facts = magnitudes.related(item, self.reach.metric)
        parts = {part for fact in [*facts, *([item] if item else [])] for part in fact.quantities()}
        pairs = sorted((part[1], part[2]) for part in parts if part[0] == SEG)
        needed = [pair for pair in pairs if self.reach.will_be_apart(*pair) and not self.reach.apart(*pair)]
        for pair in list(needed):
            fewer = [other for other in needed if other != pair]

            def apart(a: int, b: int) -> bool:
                return self.reach.apart(a, b) or (a, b) in fewer

            if magnitudes.follows(item, facts, apart):
                needed = fewer
        both = [[encode(POINTS_EQUAL, False, each) for each in (pair, pair[::-1])] for pair in needed]
        self.closure.shorten(code for pair in both for code in pair if self.closure.knows(code))
        return [min(pair, key=self.cost) for pair in both]

    def cost(self, code: int) -> int:
        """About how many lines it takes until a literal is a fact."""
        return self.closure.lines_of([code]) if self.closure.knows(code) else MOST_INSTANCES

    def contradiction(self) -> bool:
        """Makes the facts contradict each other."""
        self.clock.check()
        return self.with_harvest(self.need_contradiction)

    def need_contradiction(self) -> bool:
        """One way to that."""
        facts = self.closure.facts
        if any(code ^ SIGN in facts for code in facts) or self.reach.follows(None):
            return True
        self.closure.saturate()
        if self.closure.clashes:
            return self.write(self.closure.clash_lines())
        return self.need_arithmetic(None) or self.need_chain(None)
