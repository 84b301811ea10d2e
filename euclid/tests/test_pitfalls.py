"""The pupils' mistakes: the true cause is in the first three lines of what `euclid check` says."""

from __future__ import annotations

import unittest
from pathlib import Path

from euclid.tests.running import inside

TOP = Path(__file__).resolve().parents[2]
PITFALLS = TOP / "examples" / "pitfalls"

# For each book the cause, by hand from the comment in it: what the first three lines have to say.
CAUSES: dict[str, list[str]] = {
    "another-rule": ["by g3 a A : inside a A"],
    "another-rule-of-circles": ["by x5 b a A B : meets A B"],
    "by-with-lengths": ["`hence` gives one of magnitudes"],
    "circle-through-nothing": ["let A circle a b"],
    "circular": ["in its own proof"],
    "comma": ["no commas"],
    "comment-after-words": ["a comment is a line of its own"],
    "equals-glued": ["`=` is a word of its own"],
    "false-of-lengths": ["`seg b c < seg a b` is false"],
    "greater": ["there is no sign `>`", "the lesser side comes first"],
    "hence-an-item": ["`hence` has one literal, and no item"],
    "hence-for-between": ["finds no rules of the diagram", "by b1a a b c : between c b a"],
    "hence-for-meets": ["finds no rules of the diagram", "by x5 b a A B : meets A B"],
    "hence-two-literals": ["`hence` has one literal"],
    "item-without-as": ["before the title of a definition comes `as`"],
    "later-definition": ["`equal-sides`", "further down"],
    "later-theorem": ["`part-less`", "further down"],
    "line-for-circle": ["`A` is a line", "line 8: `let A line a b`"],
    "line-not-declared": ["declare it before: `lines L`"],
    "lines-before-points": ["points first, then lines, then circles"],
    "missing-premise": ["`inside b B` is missing"],
    "misspelled-keyword": ["did you mean `hence`?"],
    "misspelled-object": ["did you mean `A`?"],
    "misspelled-relation": ["did you mean `meets`?"],
    "misspelled-rule": ["did you mean `g3`?"],
    "name-taken": ["the name `A` is taken", "line 8"],
    "names-in-another-order": ["with the names `b a A B` it is licensed"],
    "names-of-an-item": ["takes 3 names (x y z), not 2"],
    "no-colon": ["a colon is missing"],
    "no-end": ["`end` is missing", "`equilateral`"],
    "no-proof": ["a line `proof`"],
    "no-qed": ["a block is still open", "`qed`"],
    "not-ascii": ["ASCII", "write `!=`"],
    "one-point-of-a-segment": ["`seg` takes two points, not 1"],
    "point-before-it-is-drawn": ["`c`", "drawn further down, at line 14"],
    "qed-without-made": ["`qed` takes 1 name, for what is made"],
    "reserved-name": ["`on` is a word of the language"],
    "same-title": ["the title `equilateral`", "the first is at line 2"],
    "segment-against-angle": ["an angle is not compared with a segment"],
    "segment-as-AB": ["a segment is written `seg a c`"],
    "semicolon-glued": ["`;` is a word of its own"],
    "three-names-of-four": ["takes 4 names (a b A B), not 3"],
    "title-with-space": ["a title is one word: `part-less`"],
    "transfer-cited": ["`ds1` is a transfer rule", "`hence"],
    "true-but-not-yet": ["`hence seg a b + seg b c = seg a c` gives it"],
    "turned-round": ["says `c != b`, which is the other way round"],
    "twice-as-long": ["`seg b c = 2 seg a c` is false"],
    "two-circles-without-meet": ["`let c meet A B`"],
    "two-names-swapped": ["with the names `b a A B` it is licensed"],
}


class Pitfalls(unittest.TestCase):
    """Each pupils' mistake."""

    def test_all_are_here(self) -> None:
        self.assertEqual(sorted(CAUSES), sorted(path.stem for path in PITFALLS.glob("*.book")))

    def test_causes(self) -> None:
        for name, phrases in CAUSES.items():
            with self.subTest(name):
                done = inside("check", str(PITFALLS / f"{name}.book"))
                first = "\n".join(done.stderr.split("\n")[:3])
                for phrase in phrases:
                    self.assertIn(phrase, first)
                self.assertIn(done.status, (1, 2))
                self.assertNotIn("Traceback", done.stderr)

    def test_one_error_each(self) -> None:
        for name in CAUSES:
            with self.subTest(name):
                said = inside("check", "--quiet", str(PITFALLS / f"{name}.book"))
                self.assertEqual(said.stderr.count(": error: "), 1)


if __name__ == "__main__":
    unittest.main()
