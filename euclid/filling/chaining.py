"""Lines `hence` that an author may leave out: transfers whose diagram is known, forward.

For a metric literal that does not follow from the facts the transfers are gathered that speak of
its terms, or of terms that facts or other transfers tie to these. If it follows from all of them
together, a set of them is looked for of which none can be spared.
"""

from __future__ import annotations

from collections.abc import Callable, Collection, Iterator

from .. import magnitudes
from ..codes import KIND, SEG, Comparison, Quantity, quantity
from ..literals import CIRCLE, POINT
from ..magnitudes import System
from ..reach import Reach
from ..tester import Tester
from ..transfers import FURTHER, Instance, into_diagrams, touching

# What an author is likely to leave out, the plainest first.
OBVIOUS = ("ds1", "ds3b", "da2a", "dr2a", "da3a", "da3b")
LESS_OBVIOUS = (*OBVIOUS, "ds3a", "ds4a", "ds4b", "da1a", "da1b", "da1c", "da4", "da5a", "dr1a", "dr1b")
EQUAL_POINTS = (*LESS_OBVIOUS, "ms1", "ms2", "ms3", "ma1", "ma2", "mr1", "mr2")
MOST_CANDIDATES, ROUNDS = 300, 2
ON_CIRCLE, INSIDE, CENTER = (2 * KIND[word, (POINT, CIRCLE)] for word in ("on", "inside", "center"))
Best = dict[tuple[Comparison, tuple[Comparison, ...]], Instance]


class Chainer:
    """Finds transfers that may be written one after another."""

    def __init__(self, reach: Reach) -> None:
        self.reach = reach
        self.tester: Tester | None = None  # the last one

    def chosen(self, wanted: Comparison | None) -> list[Instance] | None:
        """Transfers with which the literal follows, in an order in which they may be written."""
        for names in (OBVIOUS, LESS_OBVIOUS, EQUAL_POINTS):
            found = self.candidates(wanted, names)
            if found and self.follows(wanted, found):
                return self.usable(fewest(lambda some: self.follows(wanted, some), found))
        return None

    def follows(self, wanted: Comparison | None, candidates: list[Instance]) -> bool:
        """Whether it follows from the facts and from those transfers that can be used."""
        facts = [*self.reach.metric, *map(given, self.usable(candidates))]
        return magnitudes.follows(wanted, facts, self.reach.will_be_apart)

    def usable(self, candidates: list[Instance]) -> list[Instance]:
        """Those whose metric premises are equal by the facts and by others that are usable."""
        done = [made for made in candidates if not made.metric]
        rest = [made for made in candidates if made.metric]
        if not rest:
            return done
        parts = {part for made in rest for item in made.metric for part in item.quantities()}
        system = System([*self.reach.metric, *map(given, done)], parts)
        for made in rest:
            if all(item.says == "=" and system.holds(item, True) for item in made.metric):
                done.append(made)
                if given(made).says == "=":
                    system.equate(dict(given(made).form))
        return done

    def into_diagrams(self) -> Iterator[Instance]:
        """Transfers into the diagram whose magnitudes follow from all facts with all sums that may
        be written."""
        facts = [*self.reach.metric, *map(given, self.usable(self.candidates(None, LESS_OBVIOUS)))]
        self.tester = tester = Tester(facts, self.reach.will_be_apart, self.tester)
        for made in into_diagrams(tester.parts, self.reach.closure, FURTHER):
            if all(map(tester.follows, made.metric)):
                yield made

    def candidates(self, wanted: Comparison | None, names: Collection[str]) -> list[Instance]:
        """The transfers that are tied to the literal, those that are cheap in lines first."""
        closure = self.reach.closure
        facts = magnitudes.related(wanted, self.reach.metric)
        parts = {part for fact in facts for part in fact.quantities()}
        parts |= set(wanted.quantities()) if wanted else self.radii()
        best: Best = {}
        done: set[Quantity] = set()
        for _ in range(ROUNDS):
            for part in sorted(parts - done):
                for made in touching(part, names, closure):
                    self.keep_cheaper(best, made)
            done |= parts
            parts = {part for item, _ in best for part in item.quantities()}
            if len(best) > MOST_CANDIDATES:
                break
        return sorted(best.values(), key=lambda made: closure.lines_of(made.diagram))

    def radii(self) -> set[Quantity]:
        """The segments from known centers to points on or inside of their circles."""
        closure, found = self.reach.closure, set()
        for circle in range(len(self.reach.scope.names[CIRCLE])):
            points = closure.beside(ON_CIRCLE, 0, [circle]) | closure.beside(INSIDE, 0, [circle])
            centers = closure.beside(CENTER, 0, [circle])
            found |= {quantity(SEG, (a, b)) for a in members(centers) for b in members(points) if a != b}
        return found

    def keep_cheaper(self, best: Best, made: Instance) -> None:
        """Keeps of the instances with one literal and the same metric premises the one whose
        diagram takes the fewest lines."""
        if not given(made).form or made.item in self.reach.metric:
            return
        key = given(made), made.metric
        lines_of = self.reach.closure.lines_of
        if key not in best or lines_of(made.diagram) < lines_of(best[key].diagram):
            best[key] = made


def members(objects: int) -> Iterator[int]:
    """The numbers of a set."""
    while objects:
        yield (objects & -objects).bit_length() - 1
        objects &= objects - 1


def given(made: Instance) -> Comparison:
    """The metric literal that an instance gives."""
    assert isinstance(made.item, Comparison)
    return made.item


def fewest(enough: Callable[[list[Instance]], bool], candidates: list[Instance]) -> list[Instance]:
    """A part of the candidates that is enough and of which none can be left out; those that come
    first are preferred."""
    def needed(base: list[Instance], rest: list[Instance], is_changed: bool) -> list[Instance]:
        if is_changed and enough(base):
            return []
        if len(rest) == 1:
            return rest
        half = len(rest) // 2
        later = needed(base + rest[:half], rest[half:], True)
        earlier = needed(base + later, rest[:half], bool(later))
        return earlier + later

    return needed([], candidates, True)
