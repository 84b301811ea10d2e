"""The commands that fill and strip: what they print, write and keep."""

from __future__ import annotations

import io
import resource
import tempfile
import unittest
import unittest.mock
from contextlib import redirect_stderr, redirect_stdout
from pathlib import Path

from euclid.answers import check
from euclid.cli import main
from euclid.filling.sketches import partings

from .filling_books import BETWEEN, BLANK, I_1, PARTS, filled


class CommandTest(unittest.TestCase):
    """`euclid fill` and `euclid strip`."""

    def setUp(self) -> None:
        folder = tempfile.TemporaryDirectory()
        self.addCleanup(folder.cleanup)
        self.folder = Path(folder.name)

    def run_main(self, *words: str) -> tuple[int, str, str]:
        """The status, standard output, standard error."""
        out, err = io.TextIOWrapper(io.BytesIO(), write_through=True), io.StringIO()
        with redirect_stdout(out), redirect_stderr(err):
            status = main(list(words))
        assert isinstance(out.buffer, io.BytesIO)
        return status, out.buffer.getvalue().decode(), err.getvalue()

    def file(self, name: str, text: str) -> str:
        """A file with a text; its path."""
        (self.folder / name).write_bytes(text.encode())
        return str(self.folder / name)

    def test_fill_writes_what_is_accepted(self) -> None:
        status, out, err = self.run_main("fill", self.file("I.1.book", I_1))
        self.assertEqual((status, err), (0, ""))
        self.assertTrue(check(out).is_accepted())

    def test_lines_that_end_otherwise_stay_so(self) -> None:
        _, out, _ = self.run_main("fill", self.file("I.1.book", I_1.replace("\n", "\r\n")))
        self.assertEqual(out.count("\n"), out.count("\r\n"))
        self.assertTrue(check(out).is_accepted())

    def test_a_false_step_is_refused_by_name_and_nothing_is_written(self) -> None:
        path = self.file("W.book", PARTS.format(" ; on d L"))
        status, out, err = self.run_main("fill", "--write", path)
        self.assertEqual(status, 1)
        self.assertIn("W.book:8:1: error: W, step 1 lacks `on d L`", err)
        self.assertEqual(Path(path).read_text(), PARTS.format(" ; on d L"))
        self.assertIn("0 of 1 accepted", out)

    def test_what_does_not_read_is_told(self) -> None:
        status, out, err = self.run_main("fill", self.file("X.book", "garbage\n"))
        self.assertEqual((status, out), (2, "garbage\n"))
        self.assertIn("X.book:1:1: error: malformed", err)

    def test_a_sketch_is_filled_beside_its_book(self) -> None:
        self.file("book.toml", 'title = "One"\nfiles = ["I.1.book"]\n')
        self.file("I.1.sketch", I_1)
        status, _, _ = self.run_main("fill", "--write", str(self.folder))
        self.assertEqual(status, 0)
        self.assertTrue(check((self.folder / "I.1.book").read_text()).is_accepted())
        self.assertEqual((self.folder / "I.1.sketch").read_text(), I_1)

    def test_a_use_of_a_theorem_is_put_into_the_sketch_as_well(self) -> None:
        head = "points v x b c\ngiven v != x ; between v b c\nshow ang x v b = ang x v c\nproof\n"
        text = f"theorem T\n{head}let L line v b\nlet M line v x\nqed\nend\ntheorem U\n{head}qed\nend\n"
        self.file("X.sketch", text)
        book = self.file("X.book", "")
        self.assertEqual(self.run_main("fill", "--write", book)[0], 1)
        status, _, err = self.run_main("fill", "--apply", "--write", book)
        self.assertEqual(status, 0, err)
        sketch = (self.folder / "X.sketch").read_text()
        self.assertEqual(sketch, "apply T v x b c\nqed".join(text.rsplit("qed", 1)))
        self.assertEqual(partings(sketch, Path(book).read_text()), [])

    def test_strip_writes_a_sketch(self) -> None:
        path = self.file("I.1.book", filled(I_1)[0].text())
        status, _, err = self.run_main("strip", "--write", path)
        self.assertEqual((status, err), (0, "9 steps, 4 of them kept\n"))
        self.assertEqual((self.folder / "I.1.sketch").read_text(), I_1)

    def test_strip_leaves_what_is_not_accepted(self) -> None:
        status, out, err = self.run_main("strip", self.file("W.book", PARTS.format("")))
        self.assertEqual((status, out), (1, PARTS.format("")))
        self.assertIn("W stays as it is", err)

    def shelf(self) -> dict[str, str]:
        """A library of two files, of which each book and each sketch has lines of its own; the texts by name."""
        texts = {}
        for name in "AB":
            first, second = (I_1.replace("I.1", f"{name}.{number}") for number in (1, 2))
            full = "".join(filled(text)[0].text() for text in (first, second))
            texts[f"{name}.book"] = full.replace("# where they cross", f"# book {name}")
            texts[f"{name}.sketch"] = "# of the sketch\n\n" + (first + "\n" + second).replace("# where they cross", f"# sketch {name}")
        for name, text in texts.items():
            self.file(name, text)
        self.file("book.toml", 'title = "Two"\nfiles = ["A.book", "B.book"]\n')
        return texts

    def test_strip_of_one_theorem_leaves_the_sketches_of_others(self) -> None:
        texts = self.shelf()
        status, out, err = self.run_main("strip", "--write", "--only", "B.1", str(self.folder))
        self.assertEqual((status, err), (0, "9 steps, 4 of them kept\n"))
        texts["B.sketch"] = texts["B.sketch"].replace("# sketch B", "# book B", 1)
        self.assertEqual({name: (self.folder / name).read_text() for name in texts}, texts)
        self.assertIn("B.sketch", out)

    def test_strip_of_one_theorem_beside_no_sketch(self) -> None:
        texts = self.shelf()
        (self.folder / "A.sketch").unlink()
        self.assertEqual(self.run_main("strip", "--write", "--only", "A.2", str(self.folder))[0], 0)
        sketch = (self.folder / "A.sketch").read_text()
        full = texts["A.book"].index("# the first", 1)
        self.assertEqual(sketch, texts["A.book"][:full] + I_1.replace("I.1", "A.2").replace("# where they cross", "# book A"))
        self.assertEqual((self.folder / "B.sketch").read_text(), texts["B.sketch"])

    def test_strip_of_one_theorem_that_the_sketch_lacks(self) -> None:
        texts = self.shelf()
        first, second = texts["A.sketch"].split("\n\n# the first", 1)[0], texts["A.sketch"].rsplit("# the first", 1)[1]
        self.file("A.sketch", f"{first}\n\n# the first{second}")
        self.assertEqual(self.run_main("strip", "--write", "--only", "A.1", str(self.folder))[0], 0)
        sketch = (self.folder / "A.sketch").read_text()
        self.assertEqual(sketch.split("\n\n", 1)[1], I_1.replace("I.1", "A.1").replace("# where they cross", "# book A")
                         + I_1.replace("I.1", "A.2").replace("# where they cross", "# sketch A"))

    def test_fill_of_one_theorem_leaves_the_books_of_others(self) -> None:
        texts = self.shelf()
        status, out, err = self.run_main("fill", "--write", "--only", "B.2", str(self.folder))
        self.assertEqual((status, err), (0, ""))
        head, tail = texts["B.book"].rsplit("# book B", 1)
        texts["B.book"] = f"{head}# sketch B{tail}"
        self.assertEqual({name: (self.folder / name).read_text() for name in texts}, texts)
        self.assertIn("5 lines put in; 1 of 1 accepted", out)

    def test_fill_of_one_theorem_puts_a_use_into_its_sketch_alone(self) -> None:
        head = "points v x b c\ngiven v != x ; between v b c\nshow ang x v b = ang x v c\nproof\n"
        first = f"theorem T\n{head}let L line v b\nlet M line v x\nqed\nend\n"
        text = f"# mine\n{first}\ntheorem U\n{head}qed\nend\n"
        self.file("X.sketch", text)
        book = self.file("X.book", "".join(each.text() for each in filled(first)) + text.split("\n\n")[1])
        status, _, err = self.run_main("fill", "--apply", "--write", "--only", "U", book)
        self.assertEqual(status, 0, err)
        self.assertEqual((self.folder / "X.sketch").read_text(), "apply T v x b c\nqed".join(text.rsplit("qed", 1)))
        self.assertTrue(check(Path(book).read_text()).is_accepted())

    def test_what_one_theorem_lacks_is_told_where_the_sketch_has_it(self) -> None:
        texts = self.shelf()
        self.file("B.sketch", "let c meet A A".join(texts["B.sketch"].rsplit("let c meet A B", 1)))
        status, _, err = self.run_main("fill", "--write", "--only", "B.2", str(self.folder))
        self.assertEqual(status, 1)
        self.assertIn("B.sketch:29:1: error: B.2, step 3 lacks `meets A A`", err)

    def test_two_books_of_which_the_second_lacks_a_line(self) -> None:
        first, short = filled(I_1)[0].text(), BETWEEN.format("")
        paths = [self.file("A.book", first), self.file("B.book", short)]
        self.file("book.toml", 'title = "Two"\nfiles = ["A.book", "B.book"]\n')
        wanted = filled(short)[0].text()
        self.assertEqual(wanted.count("\n"), short.count("\n") + 4)
        for words in (paths, [str(self.folder)]):
            self.file("B.book", short)
            self.assertEqual(self.run_main("fill", "--json", *words)[0], 0)
            status, out, err = self.run_main("fill", "--write", *words)
            self.assertEqual((status, err), (0, ""))
            self.assertIn("4 lines put in; 2 of 2 accepted", out)
            self.assertEqual([Path(path).read_text() for path in paths], [first, wanted])

    def test_one_book_for_standard_output_is_said_before_any_work(self) -> None:
        self.shelf()
        mine = self.file("mine.book", BETWEEN.format(""))
        with unittest.mock.patch("euclid.commands.fill.fill_books", side_effect=AssertionError("it worked")):
            for words, wanted in (([str(self.folder)], "here are 2: use --write\n"),
                                  ([str(self.folder), mine], "needs the library, and fill FOLDER/mine.book\n")):
                status, _, err = self.run_main("fill", *words)
                self.assertEqual(status, 3)
                self.assertTrue(err.endswith(wanted), err)

    def test_ways_at_a_step(self) -> None:
        status, out, _ = self.run_main("fill", "--at", "T", "1", self.file("T.book", BETWEEN.format("")))
        self.assertEqual(status, 0)
        self.assertIn("step 1 of T lacks `between a c d`\n1. ready\n", out)

    def test_blanks_that_may_mean_other_objects_are_told(self) -> None:
        text = BLANK.replace("not on b L\n", "not on b L ; on c L\n").replace("points b a", "points b c a")
        text = text.replace("given on a L\n", "given on a L ; a != b\n", 1).replace("points a\n", "points a b\n")
        text = text.replace("apply U _ L", "apply U _ b L")
        self.assertTrue(check(text).wanted == "match")
        status, out, err = self.run_main("fill", self.file("V.book", text))
        self.assertEqual(status, 0)
        self.assertIn("warning: the blanks of step 1 may be `c b L` or `a b L`", err)
        self.assertIn("by sub-on-1 c b L : c != b\napply U _ b L\n", out)

    def test_wrong_use(self) -> None:
        path = self.file("I.1.book", I_1)
        for words in (["--only", "X", path], ["--at", "I.1", "99", path], ["--at", "I.1", "x", path], [path, path[:-5] + "x"]):
            self.assertIn(self.run_main("fill", *words)[0], (2, 3), words)


class Memory(unittest.TestCase):
    def test_the_limit_is_said_and_given_back(self) -> None:
        before = resource.getrlimit(resource.RLIMIT_AS)
        with tempfile.TemporaryDirectory() as folder:
            book = Path(folder) / "one.book"
            book.write_text(I_1, encoding="ascii")
            said = io.StringIO()
            with unittest.mock.patch("euclid.commands.fill.fill", side_effect=MemoryError), redirect_stderr(said):
                status = main(["fill", str(book)])
        self.assertEqual((status, said.getvalue()), (4, "euclid: out of memory, at 2048 MB\n"))
        self.assertEqual(resource.getrlimit(resource.RLIMIT_AS), before)

if __name__ == "__main__":
    unittest.main()
