"""Proofs filled and stripped: `elements` has to accept what comes out."""

from __future__ import annotations

import unittest
import unittest.mock
from pathlib import Path

from euclid.answers import check
from euclid.filling.engine import fill_theorem
from euclid.filling.strip import strip_theorem
from euclid.filling.ways import ways_at
from euclid.library import load
from euclid.reading import read_book
from euclid.script import Theorem
from euclid.statements import Known

from .filling_books import BETWEEN, BLANK, I_1, PARTS, filled

TOP = Path(__file__).resolve().parents[2]
TWO = """theorem symmetric
points a b c d
given seg a b < seg c d ; a != b
show seg a c < seg b d
proof
qed
end
theorem use
points p q r s
given seg q p < seg r s ; p != q ; seg q s = seg r s
show seg p r < seg r s
proof
{}qed
end
"""
CIRCLES = """theorem X
points o d b f
circles A B
given center o A ; on d A ; not on b A ; not inside b A ; between o d b
given center o B ; on b B ; on f B
show not inside f A
proof
cases inside f A
  contradiction
else
  qed
end
"""


class FillTest(unittest.TestCase):
    """`fill_theorem`."""

    def lines(self, text: str) -> list[str]:
        """The lines of a filled text, which `elements` accepts."""
        found = filled(text)
        self.assertEqual([each.missing for each in found], [[]] * len(found))
        whole = "".join(each.text() for each in found)
        self.assertTrue(check(whole).is_accepted(), whole)
        return whole.split("\n")

    def test_lines_and_comments_of_the_author_stay(self) -> None:
        lines = self.lines(I_1)
        self.assertEqual([line for line in lines if line in I_1.split("\n")], I_1.split("\n"))
        self.assertIn("by x5 b a A B : meets A B", lines)
        self.assertLess(lines.index("# where they cross"), lines.index("let c meet A B"))

    def test_each_line_is_written_once_and_under_its_step(self) -> None:
        steps = [line for line in self.lines(I_1) if line.startswith(("by", "hence"))]
        self.assertEqual(len(steps), len(set(steps)))
        self.assertEqual(len(steps), 5)
        under = filled(I_1)[0].under()
        self.assertEqual(set(under), {12, 13})  # the crossing, and what is shown
        self.assertEqual(under[12][-1], "by x5 b a A B : meets A B")

    def test_a_wish_is_replaced_by_its_lines(self) -> None:
        lines = self.lines(BETWEEN.format("hence between d c a\n"))
        self.assertFalse([line for line in lines if line.startswith("hence")])
        self.assertEqual(self.lines(BETWEEN.format("")), lines)

    def test_what_was_filled_needs_nothing(self) -> None:
        text = "\n".join(self.lines(I_1))
        self.assertEqual(filled(text)[0].text(), text)

    def test_a_blank_has_the_least_object_that_fits(self) -> None:
        self.lines(BLANK)

    def test_sums_and_sides(self) -> None:
        self.assertIn("hence seg a b + seg b c = seg a c", self.lines(PARTS.format("")))

    def test_an_absurd_case_of_circles(self) -> None:
        lines = self.lines(CIRCLES)
        self.assertTrue(check(CIRCLES).kind == "unlicensed")
        self.assertTrue([line for line in lines if line.startswith("  hence")])

    def test_what_does_not_follow_is_named(self) -> None:
        missing = filled(PARTS.format(" ; on d L"))[0].missing
        self.assertEqual([(miss.line, miss.wanted) for miss in missing], [(8, "on d L")])

    def test_what_comes_nearest_is_told(self) -> None:
        text = "theorem T\npoints a b c\ngiven a != b ; between a b c\nshow between b a c\nproof\nqed\nend\n"
        self.assertEqual(filled(text)[0].missing[0].wanted, "between b a c")
        text = "theorem T\npoints a b c\nlines L\ngiven between a b c ; on a L\nshow on c L\nproof\nqed\nend\n"
        near = filled(text)[0].missing[0].why
        self.assertTrue(any("`b2 a b c L`" in each and "`on b L`" in each for each in near), near)

    def test_a_citation_that_its_rule_does_not_give(self) -> None:
        text = "theorem T\npoints a b c\ngiven between a b c\nshow a != c\nproof\nby b1a a b c : a != c\nqed\nend\n"
        self.assertEqual([miss.wanted for miss in filled(text)[0].missing], ["a != c"])
        self.assertEqual(check(text).step, 1)

    def test_other_lines_are_left_alone(self) -> None:
        text = "theorem T\npoints a\nshow a = a\nproof\nfoo\nend\n"
        found = filled(text)[0]
        self.assertEqual(found.text(), text)
        self.assertEqual(found.stopped_at, 5)

    def test_a_limit_of_time_holds_and_is_told(self) -> None:
        book = load([TOP / "library" / "book-1"]).book()
        theorem = book.theorem("I.44")
        assert theorem is not None
        found = fill_theorem(theorem, book.known_before(theorem), seconds=0.0)
        self.assertIn("out of time", found.stopped)
        self.assertEqual(found.text(), "".join(line.text + "\n" for line in theorem.lines))

    def test_the_first_book_without_its_citations(self) -> None:
        text = load([TOP / "library" / "book-1"]).text()
        bare = "".join(line + "\n" for line in text.split("\n")[:-1] if not line.lstrip().startswith("by "))
        self.assertFalse(check(bare).is_accepted())
        book, known, whole = read_book(bare), Known(), ""
        for item in book.items:
            lines = "".join(line.text + "\n" for line in item.lines)
            if isinstance(item, Theorem):
                lines = fill_theorem(item, known).text()
                known.theorems[item.title] = item.statement
            else:
                known.definitions[item.title] = item.statement
            whole += lines
        self.assertEqual(check(whole).count, 93)


class ApplyTest(unittest.TestCase):
    """Uses of earlier theorems."""

    def uses(self, text: str, most: int) -> tuple[list[str], int]:
        """What is put into the last theorem, and how much is missing in it."""
        last = filled(text, most)[-1]
        return last.applied, len(last.missing)

    def test_a_sum_that_follows_with_facts(self) -> None:
        self.assertEqual(self.uses(TWO.format(""), 1), (["apply symmetric p q r s"], 0))

    def test_none_is_put_in_unasked(self) -> None:
        self.assertEqual(self.uses(TWO.format(""), 0), ([], 1))

    def test_the_author_keeps_his(self) -> None:
        self.assertEqual(self.uses(TWO.format("apply symmetric p q r s\n"), 1), ([], 0))

    def test_ways_are_listed_and_tried(self) -> None:
        text = TWO.format("").replace("show seg a c < seg b d\nproof\n", "show seg a c < seg b d\nproof\nhence seg a b < seg c d\n")
        book = read_book(text)
        theorem = book.theorem("use")
        assert theorem is not None
        found = ways_at(book, theorem, 1)
        self.assertEqual(found.wanted, "seg p r < seg r s")
        self.assertEqual(found.ways[0].applied, "apply symmetric p q r s")
        self.assertFalse(found.ways[0].is_ready)  # the first theorem is not proved, so no use of it is accepted

    def test_a_ready_way(self) -> None:
        text = BETWEEN.format("")
        book = read_book(text)
        found = ways_at(book, book.theorems()[0], 1)
        self.assertEqual(found.wanted, "between a c d")
        self.assertTrue(found.ways[0].is_ready)


class StripTest(unittest.TestCase):
    """The reverse."""

    def test_strip_takes_out_what_fill_puts_back(self) -> None:
        full = read_book(filled(I_1)[0].text()).theorems()[0]
        self.assertEqual("".join(line.text + "\n" for line in strip_theorem(full, Known())), I_1)


if __name__ == "__main__":
    unittest.main()
