"""What follows from facts: codes, closure, arithmetic, transfers."""

from __future__ import annotations

import unittest

from euclid.closure import Closure
from euclid.codes import EQUALITY, KIND, SEG, SIGN, Comparison, Unknown, comparison, encode
from euclid.contexts import Context, Origin
from euclid.literals import CIRCLE, LINE, POINT, is_same, parse_literal
from euclid.magnitudes import follows, nobody
from euclid.reach import Reach

BETWEEN = KIND["between", (POINT, POINT, POINT)]
ON = KIND["on", (POINT, LINE)]


def segments(**terms: int) -> dict[tuple[int, ...], int]:
    """The form of segments: `ab=1` is one of a segment from a to b."""
    return {(SEG, *("abcdefgh".index(letter) for letter in name)): c for name, c in terms.items()}


def reach_of(names: dict[str, str], *facts: str) -> Reach:
    """Objects, by their sorts, and facts."""
    context = Context()
    for sort in (POINT, LINE, CIRCLE):
        context.bring([(name, sort) for name in names.get(sort.plural, "").split()], Origin("declared", 1))
    for number, fact in enumerate(facts, 2):
        context.add([parse_literal(fact.split(), context.sorts)], Origin("given", number))
    return Reach.of(context)


def item(reach: Reach, words: str) -> int | Comparison:
    """A literal, coded."""
    return reach.code(parse_literal(words.split(), reach.scope.sorts))


def code(reach: Reach, words: str) -> int:
    """A literal of the diagram, coded."""
    found = item(reach, words)
    assert isinstance(found, int)
    return found


class CodesTest(unittest.TestCase):
    """Literals as numbers and back."""

    def test_a_literal_comes_back(self) -> None:
        reach = reach_of({"points": "a b c", "lines": "L M", "circles": "A"})
        for words in ("on a L", "not on a A", "between a b c", "not same-side a b M", "meets L A", "a != b", "L = M",
                      "ang a b c < right", "2 seg a b + seg b c <= seg c a", "seg a b != 0", "area a b c = area b c a"):
            literal = parse_literal(words.split(), reach.scope.sorts)
            self.assertTrue(is_same(reach.literal(reach.code(literal)), literal), words)

    def test_an_object_out_of_scope_is_told(self) -> None:
        reach = reach_of({"points": "a b"})
        with self.assertRaises(Unknown):
            reach.code(parse_literal(["a", "=", "z"], {"a": POINT, "z": POINT}))

    def test_more_objects_than_numbers_are_told(self) -> None:
        with self.assertRaises(Unknown):
            reach_of({"points": " ".join(f"p{n}" for n in range(65))})


class ClosureTest(unittest.TestCase):
    """Forward chaining over the rules of the diagram."""

    def test_a_block_is_forgotten(self) -> None:
        closure = Closure()
        for number in range(3):
            closure.bring(POINT, number)
        closure.add_fact(encode(BETWEEN, True, (0, 1, 2)))
        mark = closure.mark()
        before = dict(closure.reasons), [list(table) for table in closure.tables]
        closure.add_fact(encode(EQUALITY[POINT], True, (0, 1)))
        closure.saturate()
        self.assertTrue(closure.clashes)
        closure.back_to(mark)
        self.assertFalse(closure.clashes)
        self.assertEqual((closure.reasons, closure.tables), before)

    def test_clauses_are_used_backwards(self) -> None:
        closure = Closure()
        closure.bring(POINT, 0)
        closure.bring(POINT, 1)
        closure.bring(LINE, 0)
        closure.add_fact(encode(ON, True, (0, 0)))
        closure.add_fact(encode(ON, False, (1, 0)))
        differ = encode(EQUALITY[POINT], False, (0, 1))
        self.assertTrue(closure.reach(differ))
        self.assertEqual(len(closure.lines([differ])), 1)
        self.assertFalse(closure.reach(differ ^ SIGN))


class ReachTest(unittest.TestCase):
    """A context with what follows."""

    def test_lines_lead_to_what_the_diagram_shows(self) -> None:
        reach = reach_of({"points": "a b c d"}, "between a b c", "between b c d")
        wanted = code(reach, "between d c a")
        self.assertTrue(reach.shows(wanted))
        lines = [reach.words_of(line) for line in reach.lines_to([wanted])]
        self.assertEqual(lines[-1].split(" : ")[1], "between d c a")
        self.assertLessEqual(len(lines), 3)
        self.assertFalse(reach.shows(code(reach, "between a d c")))

    def test_a_fact_has_its_origin(self) -> None:
        reach = reach_of({"points": "a b c"}, "between a b c", "seg a b = seg b c")
        origin = reach.origin(item(reach, "seg c b = seg b a"))
        self.assertEqual(origin and origin.line, 3)
        self.assertIsNone(reach.origin(item(reach, "a != b")))

    def test_a_transfer_gives_a_sum(self) -> None:
        reach = reach_of({"points": "a b c"}, "between a b c")
        found = reach.transfers(item(reach, "seg a b + seg b c = seg a c"))
        self.assertEqual([made.rule.name for made in found][:1], ["ds1"])

    def test_points_that_will_differ(self) -> None:
        reach = reach_of({"points": "a b c"}, "between a b c")
        wanted = comparison(">", {(SEG, 0, 1): 1})
        self.assertTrue(reach.shows(code(reach, "a != b")))
        self.assertFalse(reach.follows(wanted))
        self.assertTrue(reach.will_follow(wanted))


class MagnitudesTest(unittest.TestCase):
    """Arithmetic."""

    def test_equations_and_inequalities(self) -> None:
        facts = [comparison("=", segments(ab=1, cd=-1)), comparison(">", segments(ef=1, cd=-1))]
        cases = ((">", segments(ef=1, ab=-1), True), (">", segments(ab=1), False), ("!=", segments(ef=1), True),
                 ("=", segments(ab=2, cd=-2), True), (">=", segments(ab=1, cd=-2, ef=1), True))
        for says, wanted, answer in cases:
            self.assertEqual(follows(comparison(says, wanted), facts, nobody), answer, wanted)

    def test_equal_from_both_sides(self) -> None:
        facts = [comparison(">=", segments(ab=1, cd=-1)), comparison(">=", segments(cd=1, ab=-1))]
        self.assertTrue(follows(comparison("=", segments(ab=1, cd=-1)), facts, nobody))
        facts.append(comparison("!=", segments(ab=1, cd=-1)))
        self.assertTrue(follows(None, facts, nobody))

    def test_points_that_differ_are_apart(self) -> None:
        wanted = comparison(">", segments(ab=1))
        self.assertFalse(follows(wanted, [], nobody))
        self.assertTrue(follows(wanted, [], lambda a, b: True))


if __name__ == "__main__":
    unittest.main()
