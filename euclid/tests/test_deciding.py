"""What a use of a theorem would give, decided by numbers that are kept, beside `elements`."""

from __future__ import annotations

import itertools
import random
import unittest

from ..answers import check
from ..closure import Closure
from ..codes import EQUALITY, KIND, SIGN, Comparison, Scope, coded, encode
from ..filling.deciding import Decider
from ..literals import POINT, parse_literal
from ..magnitudes import nobody
from ..transfers import solutions, transfer_rules

NAMES = "abcd"
BETWEEN = KIND["between", (POINT, POINT, POINT)]
SORTS = {name: POINT for name in NAMES}
SEGMENTS = [f"seg {a} {b}" for a, b in itertools.combinations(NAMES, 2)]


def random_sum(rand: random.Random) -> str:
    """A sum of one or two segments."""
    return " + ".join(rand.sample(SEGMENTS, rand.randint(1, 2)))


def random_literal(rand: random.Random) -> str:
    """Two sums compared."""
    return f"{random_sum(rand)} {rand.choice(('=', '<', '<=', '!=', '='))} {random_sum(rand)}"


def is_accepted(given: list[str], wanted: str) -> bool:
    """Whether `elements` lets the one follow from the others."""
    book = ["theorem t", "points " + " ".join(NAMES), "given " + " ; ".join(given), f"show {wanted}", "proof",
            f"hence {wanted}", "qed", "end", ""]
    return check("\n".join(book)).is_accepted()


class Deciding(unittest.TestCase):
    """Sums that follow from facts with what is shown."""

    def setUp(self) -> None:
        self.scope = Scope()
        for name in NAMES:
            self.scope.bring(name, POINT)

    def coded(self, text: str) -> Comparison:
        """The comparison of a literal."""
        item = self.scope.code(parse_literal(text.split(), SORTS))
        assert isinstance(item, Comparison)
        return item

    def test_as_elements_decides(self) -> None:
        rand, counts = random.Random(7), {True: 0, False: 0}
        for _ in range(25):
            facts, wanted = [random_literal(rand) for _ in range(2)], random_literal(rand)
            decider = Decider(self.coded(wanted), map(self.coded, facts), nobody)
            for _ in range(4):
                shown = [random_literal(rand) for _ in range(rand.randint(1, 2))]
                said = is_accepted([*facts, *shown], wanted)
                forms = [self.coded(each) for each in shown]
                self.assertEqual(decider.gives(forms), said, (facts, shown, wanted))
                if said:
                    self.assertTrue(all(map(decider.may_give, forms)) or len(forms) > 1)
                counts[said] += 1
        self.assertGreater(min(counts.values()), 10)

    def test_kept_numbers_answer_again(self) -> None:
        decider = Decider(self.coded("seg a b = seg c d"), [self.coded("seg a b = seg b c")], nobody)
        shown = [self.coded("seg a b < seg b d")]
        self.assertFalse(decider.gives(shown))
        asked = decider.asked
        self.assertFalse(decider.gives(shown))
        self.assertEqual(decider.asked, asked)
        self.assertTrue(decider.gives([self.coded("seg b c = seg c d")]))


class Binding(unittest.TestCase):
    """The variables of a transfer rule, bound so that its other literals of diagrams are false."""

    def test_as_by_all_choices(self) -> None:
        rand, closure = random.Random(3), Closure()
        for number in range(4):
            closure.bring(POINT, number)
        for _ in range(6):
            closure.add_fact(encode(BETWEEN, True, rand.sample(range(4), 3)))
            closure.add_fact(encode(EQUALITY[POINT], False, rand.sample(range(4), 2)))
        closure.saturate()
        found_in = []
        for rule in transfer_rules():
            if set(rule.sorts) != {POINT}:
                continue
            found = sorted(tuple(each) for each in solutions(rule, {}, rule.sums[-1], closure))
            every = [objects for objects in itertools.product(range(4), repeat=len(rule.sorts))
                     if all(closure.knows(coded(pattern, objects) ^ SIGN) for pattern in rule.patterns)]
            self.assertEqual(found, sorted(every), rule.name)
            found_in += [rule.name] * (0 < len(every) < 4 ** len(rule.sorts))
        self.assertGreater(len(found_in), 2)
