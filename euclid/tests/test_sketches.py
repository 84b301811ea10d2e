"""Sketches and their books: where they part; and the page that shows them."""

from __future__ import annotations

import io
import re
import tempfile
import unittest
from contextlib import redirect_stderr, redirect_stdout
from pathlib import Path

from euclid.answers import check
from euclid.cli import main
from euclid.filling.engine import fill_theorem
from euclid.filling.sketches import partings
from euclid.library import load
from euclid.reading import read_book

TOP = Path(__file__).resolve().parents[2]
SKETCH = """theorem T
points a b c d
given between a b c ; between b c d
show between a c d ; seg a b < seg a c
proof
let L line a b
hence on c L
hence seg a b < seg a c
qed
end
"""
BOOK = """theorem T
points a b c d
# any comment
given between a b c ; between b c d
show between a c d ; seg a b < seg a c
proof
  by b1b a b c : a != b
  let L line a b
  claim on c L
    by b2 a b c L : on c L
    qed
  hence seg a b + seg b c = seg a c
  hence seg a b < seg a c
  qed
end
"""


class PartingTest(unittest.TestCase):
    """`partings`."""

    def test_a_book_with_more_lines_agrees(self) -> None:
        self.assertEqual(partings(SKETCH, BOOK), [])
        self.assertEqual(partings(SKETCH, SKETCH), [])

    def test_a_line_of_the_sketch_that_the_book_lacks(self) -> None:
        found = partings(SKETCH.replace("let L line a b", "let L line a c"), BOOK)
        self.assertEqual([(each.sketch_line, each.book_line) for each in found], [(6, 8)])
        found = partings(SKETCH, BOOK.replace("  hence seg a b < seg a c\n", ""))
        self.assertEqual([(each.sketch_line, each.book_line) for each in found], [(8, 13)])

    def test_a_line_of_the_book_that_may_not_be_put_in(self) -> None:
        found = partings(SKETCH, BOOK.replace("  hence seg a b +", "  let e on L\n  hence seg a b +"))
        self.assertEqual([(each.sketch_line, each.book_line) for each in found], [(8, 12)])
        drawn = BOOK.replace("    by b2 a b c L", "    let e on L\n    by b2 a b c L")
        self.assertEqual([each.book_line for each in partings(SKETCH, drawn)], [9])

    def test_theorems_that_only_one_has(self) -> None:
        other = SKETCH.replace("theorem T", "theorem U")
        self.assertEqual([each.text for each in partings(SKETCH + other, BOOK)], ["`U` is not in the book"])
        self.assertEqual([each.text for each in partings(SKETCH, BOOK + other)], ["`U` is not in the sketch"])
        both = [each.text for each in partings(SKETCH + other, other + SKETCH)]
        self.assertEqual(both, ["the theorems come in another order"])


class KeepingTest(unittest.TestCase):
    """What cannot be filled or stripped is never written over what there is."""

    def run_command(self, *words: str) -> str:
        """What a command says of what is wrong."""
        said = io.StringIO()
        with redirect_stdout(io.StringIO()), redirect_stderr(said):
            main(list(words))
        return said.getvalue()

    def test_a_book_whose_sketch_cannot_be_filled_stays(self) -> None:
        with tempfile.TemporaryDirectory() as folder:
            book, sketch = Path(folder) / "t.book", Path(folder) / "t.sketch"
            book.write_text(BOOK, encoding="ascii")
            sketch.write_text(SKETCH.replace("seg a b < seg a c\nproof", "seg a c < seg a b\nproof"), encoding="ascii")
            self.assertIn("t.book stays as it is", self.run_command("fill", "--write", str(book)))
            self.assertEqual(book.read_text(encoding="ascii"), BOOK)
            sketch.write_text(SKETCH, encoding="ascii")
            self.assertNotIn("stays as it is", self.run_command("fill", "--write", str(book)))
            self.assertNotEqual(book.read_text(encoding="ascii"), BOOK)

    def test_a_sketch_whose_book_is_not_accepted_stays(self) -> None:
        with tempfile.TemporaryDirectory() as folder:
            book, sketch = Path(folder) / "t.book", Path(folder) / "t.sketch"
            book.write_text(BOOK.replace("  by b1b a b c : a != b\n", ""), encoding="ascii")
            sketch.write_text(SKETCH, encoding="ascii")
            self.assertIn("t.sketch stays as it is", self.run_command("strip", "--write", str(book)))
            self.assertEqual(sketch.read_text(encoding="ascii"), SKETCH)


class PageTest(unittest.TestCase):
    """docs/sketches.md: each sketch there is filled, and agrees with the book below it."""

    def test_the_page(self) -> None:
        page = (TOP / "docs" / "sketches.md").read_text()
        blocks = [block for block in re.findall(r"^```\n(.*?)^```$", page, re.M | re.S) if block.startswith("theorem ")]
        library = load([TOP / "library" / "book-1"]).book()
        self.assertEqual([block.split()[1] for block in blocks], ["I.1", "I.1", "I.5", "I.5", "I.47", "I.47"])
        for sketch, book in zip(blocks[::2], blocks[1::2]):
            title = sketch.split()[1]
            own = library.theorem(title)
            assert own is not None
            known = library.known_before(own)
            theorem = read_book(sketch, known).theorems()[0]
            before = "".join(line.text + "\n" for item in library.items[: library.items.index(own)] for line in item.lines)
            self.assertTrue(check(before + fill_theorem(theorem, known).text()).is_accepted(), title)
            self.assertTrue(check(before + book).is_accepted(), title)
            self.assertFalse(check(before + sketch).is_accepted(), title)
            self.assertEqual(partings(sketch, book), [])
            counts = [len(read_book(text, known).theorems()[0].steps()) for text in (sketch, book)]
            self.assertIn(f"sketch has {counts[0]} steps", page)
            self.assertIn(f"book has {counts[1]} steps", " ".join(page.split()))


if __name__ == "__main__":
    unittest.main()
