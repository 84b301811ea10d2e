"""`euclid find`, `give` and `apply`: what they find, and that what is called ready is accepted."""

from __future__ import annotations

import json
import random
import tempfile
import time
import unittest
from collections.abc import Iterator
from itertools import islice
from pathlib import Path
from typing import Any

from euclid.answers import check
from euclid.contexts import premises_of, situation_at
from euclid.giving import givers, readings
from euclid.library import Library, load
from euclid.literals import is_same, key, negation, parse_literal, renamed, spell
from euclid.matching import parse_patterns
from euclid.reading import STEPS, read_book
from euclid.rules import LETTERS, tables
from euclid.scratch import Scratch, Untried
from euclid.script import Apply, Book, By, Step, Theorem
from euclid.tests.running import Done, inside

TOP = Path(__file__).resolve().parents[2]
BOOK = str(TOP / "library" / "book-1")


def objects(done: Done) -> list[dict[str, Any]]:
    """The objects of JSON that a run wrote."""
    return [json.loads(line) for line in done.stdout.split("\n") if line]


class BookOne(unittest.TestCase):
    """Book I, read once."""

    library: Library
    book: Book

    @classmethod
    def setUpClass(cls) -> None:
        cls.library = load([Path(BOOK)])
        cls.book = cls.library.book()

    def steps(self, kind: type[Step], count: int) -> list[tuple[Theorem, Step]]:
        """Some steps of a kind, the same each time."""
        found = [(theorem, step) for theorem in self.book.theorems() for step in theorem.steps() if isinstance(step, kind)]
        return random.Random(7).sample(found, count)

    def with_lines(self, theorem: Theorem, number: int, lines: list[str]) -> str:
        """The text up to a theorem, with lines put before one of its steps."""
        place = theorem.steps()[number - 1].line.number
        texts = [line.text for line in self.library.lines() if line.number <= theorem.last]
        return "\n".join([*texts[: place - 1], *lines, *texts[place - 1 :], ""])


class Find(BookOne):
    """Theorems by what they show."""

    def titles(self, pattern: str) -> list[str]:
        """The titles that are found."""
        return [each["title"] for each in objects(inside("find", pattern, "--json", BOOK))]

    def test_patterns(self) -> None:
        # By hand, from the statements.
        self.assertEqual(self.titles("ang a b c = ang a c b"), ["I.5", "I.5.base"])
        self.assertEqual(self.titles("seg a b + seg b c = seg a c"), [])
        self.assertEqual(self.titles("ang _ _ _ + ang _ _ _ = 2 right"), ["I.13.half", "I.13", "I.29.int"])
        self.assertEqual(self.titles("2 right = ang _ _ _ + ang _ _ _"), ["I.13.half", "I.13", "I.29.int"])
        self.assertEqual(self.titles("meets M K"), ["meets.parallel"])
        self.assertIn("I.46", self.titles("not meets _ _ ; on a _ ; seg _ _ = seg _ _"))

    def test_names_are_bound(self) -> None:
        wide, narrow = self.titles("seg _ _ = seg _ _"), self.titles("seg a b = seg b c")
        self.assertLess(set(narrow), set(wide))
        self.assertIn("I.1", narrow)
        self.assertNotIn("I.2", narrow)

    def test_turned(self) -> None:
        self.assertEqual(self.titles("a != b ; seg c d = seg d e"), self.titles("b != a ; seg d e = seg c d"))
        self.assertEqual(self.titles("between a b c"), self.titles("between c b a"))

    def test_places_and_statements(self) -> None:
        done = inside("find", "ang a b c = ang a c b", BOOK)
        line = done.stdout.split("\n")[0]
        path, number, column = line.split(": ")[0].rsplit(":", 2)
        self.assertEqual((TOP / path).read_text().split("\n")[int(number) - 1], "theorem I.5")
        self.assertEqual((column, line.split(": ")[1]), ("1", "I.5 a b c d e L"))

    def test_nothing_and_wrong_words(self) -> None:
        self.assertEqual(inside("find", "area a b c = 0", BOOK).status, 1)
        for pattern in ("on a", "", "a b", "seg a b", "not", "; ;", "on on on", "seg a b = ang a b c"):
            done = inside("find", pattern, BOOK)
            self.assertEqual(done.status, 3, pattern)
            self.assertIn("is neither a title nor a pattern", done.stderr)

    def test_a_title(self) -> None:
        done = inside("find", "I.5.base", BOOK)
        self.assertEqual((done.status, done.stdout.count("\n")), (0, 3))
        self.assertIn(": I.5.base a b c L\n", done.stdout)
        self.assertEqual(inside("find", "I.5.bases", BOOK).status, 3)

    def test_blanks_are_different(self) -> None:
        first, = parse_patterns("between _ _ _")
        self.assertEqual(len(set(spell(first).split())), 4)


class Givers(unittest.TestCase):
    """The rules that give a literal, whatever the figure."""

    def test_every_place_of_every_rule(self) -> None:
        for rule in (*tables().diagram.values(), *tables().transfer.values()):
            for place in rule.clause:
                sorts = {variable: LETTERS[variable] for variable in rule.variables}
                names = {giver.rule for giver in givers(place, sorts)}
                others = [negation(each) for each in rule.clause if each is not place]
                if not any(is_same(each, place) for each in others):
                    self.assertIn(rule.name, names, spell(place))

    def test_lines_read_and_are_licensed(self) -> None:
        """Each `by` line, put behind what it needs, is accepted."""
        count = 0
        for text in ("not on c L", "a != b", "between a b c", "same-side a b L", "meets L M", "L = M", "inside a A",
                     "meets A B", "not between a b c", "not same-side a b L"):
            for literal, sorts in readings(text.split()):
                for giver in givers(literal, sorts):
                    if giver.line.startswith("by"):
                        lines = statement(giver.line.split(":")[0].split()[2:], giver.rule)
                        given = "given " + " ; ".join(map(spell, giver.needs)) if giver.needs else ""
                        book = ["theorem t", *lines, given, f"show {spell(literal)}", "proof", giver.line, "qed", "end", ""]
                        self.assertTrue(check("\n".join(book)).is_accepted(), book)
                        count += 1
        self.assertGreater(count, 60)

    def test_constructions(self) -> None:
        done = inside("give", "between a p b")
        self.assertIn("let p on L between a b\n    needs on a L ; on b L ; a != b\n", done.stdout)
        self.assertIn("let L line a b\n    needs a != b\n", inside("give", "on a L").stdout)
        self.assertIn("let p on M avoid L\n", inside("give", "not on p L").stdout)
        self.assertIn("needs area a b c = 0 ; a != b ; on a L ; on b L", inside("give", "on c L").stdout.replace(
            "a != b ; on a L ; on b L ; area a b c = 0", "area a b c = 0 ; a != b ; on a L ; on b L"))

    def test_wrong_words(self) -> None:
        for words in (("on c",), ("",), ("on c L", BOOK), ("on c L", "--at", "I.5", "x", BOOK),
                      ("on _ L", "--at", "I.5", "9", BOOK), ("on c b", "--at", "I.5", "9", BOOK)):
            self.assertEqual(inside("give", *words).status, 3, words)
        self.assertEqual(inside("give", "ang a b c < right").status, 1)


def statement(names: list[str], rule: str) -> list[str]:
    """The lines that declare the objects of an instance."""
    variables = tables().diagram[rule].variables
    rows: dict[str, list[str]] = {}
    for variable, name in zip(variables, names):
        rows.setdefault(LETTERS[variable].plural, []).append(name)
    return [" ".join([word, *dict.fromkeys(rows[word])]) for word in ("points", "lines", "circles") if word in rows]


class GiveAt(BookOne):
    """The ways to a literal before a step."""

    def test_steps_of_book_one(self) -> None:
        """The literal of a `by` step has a ready line, and each ready line is accepted in the book."""
        for theorem, step in self.steps(By, 12):
            assert isinstance(step, By)
            done = inside("give", spell(step.literal), "--at", theorem.title, str(step.number), "--json", BOOK)
            found = objects(done)
            if found[0]["kind"] == "fact":
                continue
            ready = [each["lines"] for each in found if each["kind"] == "ready"]
            self.assertTrue(ready, (theorem.title, step.number))
            for lines in ready:
                self.assertTrue(check(self.with_lines(theorem, step.number, lines)).is_accepted(), lines)

    def test_what_is_lacking_is_what_is_missing(self) -> None:
        """The facts of the step and what a line lacks are all its premises, and no premise too many."""
        for theorem, step in self.steps(By, 6):
            assert isinstance(step, By)
            done = inside("give", spell(step.literal), "--at", theorem.title, str(step.number), "--json", BOOK)
            situation = situation_at(theorem, self.book.known_before(theorem), step.number)
            assert situation is not None
            for each in objects(done):
                line = each.get("lines", ["hence"])[-1]
                if each["kind"] == "near" and line.startswith("by "):
                    words = line.split()
                    literal = parse_literal(words[words.index(":") + 1 :], situation.context.sorts)
                    cited = By(0, step.line, words[1], words[2 : words.index(":")], literal)
                    missing = [key(need) for need in premises_of(cited) if not situation.context.has(need)]
                    lacks = [key(parse_literal(text.split(), situation.context.sorts)) for text in each["lacks"]]
                    self.assertEqual(set(missing), set(lacks))

    def test_fact(self) -> None:
        done = inside("give", "seg a b = seg a c", "--at", "I.5", "9", BOOK)
        self.assertIn("it is a fact: given", done.stdout)

    def test_quick_in_i_47(self) -> None:
        theorem = self.book.theorem("I.47")
        assert theorem is not None
        step = [step for step in theorem.steps() if isinstance(step, By)][-1]
        self.assertGreater(step.number, 40)
        start = time.process_time()
        self.assertEqual(inside("give", spell(step.literal), "--at", "I.47", str(step.number), BOOK).status, 0)
        self.assertLess(time.process_time() - start, 2.0)  # a second, on a machine with nothing else to do


class Applications(BookOne):
    """Theorems that may be applied."""

    def test_steps_of_book_one(self) -> None:
        """What an `apply` step shows is reached by a ready line, and each one is accepted in the book."""
        for theorem, step in self.steps(Apply, 8):
            assert isinstance(step, Apply)
            situation = situation_at(theorem, self.book.known_before(theorem), step.number)
            used = self.book.known.theorems[step.title]
            assert situation is not None
            shown = [each for each in used.gives_at(step.arguments, [name for name, _ in step.new])
                     if not situation.context.has(each)]
            own = [each for each in shown if not any(name in spell(each).split() for name, _ in step.new)]
            if not own:
                continue
            start = time.process_time()
            found = objects(inside("apply", theorem.title, str(step.number), "--for", spell(own[0]), "--json", BOOK))
            self.assertLess(time.process_time() - start, 6.0)
            ready = [each["lines"] for each in found if each["kind"] == "ready"]
            self.assertTrue(ready, (theorem.title, step.number))
            for lines in ready[:3]:
                text = self.with_lines(theorem, step.number, [*lines, f"hence {spell(own[0])}"])
                self.assertTrue(check(text).is_accepted(), lines)

    def test_all(self) -> None:
        found = objects(inside("apply", "I.5", "23", "--json", BOOK))
        kinds = [each["kind"] for each in found]
        self.assertEqual(kinds, sorted(kinds, reverse=True))
        theorem = self.book.theorem("I.5")
        assert theorem is not None
        for each in found:
            accepted = check(self.with_lines(theorem, 23, each["lines"])).is_accepted()
            self.assertEqual(accepted, each["kind"] == "ready", each["lines"])
            self.assertTrue(each["lacks"] or each["kind"] == "ready")

    def test_fact(self) -> None:
        done = inside("apply", "I.5", "20", "--for", "a != b", BOOK)
        self.assertIn("it is a fact: step 1", done.stdout)

    def test_lines_before_a_theorem(self) -> None:
        """Where a `by` line before an `apply` line is out, lines come back with which a use is accepted."""
        longer = 0
        for theorem, step in islice(self.needed_citations(), 5):
            lines = [line for line in self.library.lines() if line.number <= theorem.last]
            text = "\n".join(line.text for line in lines if line.number != step.line.number) + "\n"
            self.assertFalse(check(text).is_accepted())
            book = read_book(text)
            use = book.theorems()[-1].steps()[step.number - 1]
            assert isinstance(use, Apply)
            wanted = spell(book.known.theorems[use.title].gives_at(use.arguments, [])[0])
            with tempfile.NamedTemporaryFile(suffix=".book") as file:
                Path(file.name).write_text(text)
                found = objects(inside("apply", theorem.title, str(step.number), "--for", wanted, "--json", file.name))
            ready = [each["lines"] for each in found if each["kind"] == "ready"]
            self.assertTrue(ready)
            longer += any(len(added) > 1 for added in ready)
            rows, place = text.split("\n"), use.line.number - 1
            start = next(at for at, row in enumerate(rows) if row == f"theorem {theorem.title}")
            for added in ready:
                tried = [*rows[:place], *added, f"hence {wanted}"]
                answer = check("\n".join([*tried, *rows[place:]]))
                at = sum(row.split()[:1] != [] and row.split()[0] in STEPS for row in tried[start:])
                self.assertTrue(answer.is_accepted() or answer.title == theorem.title and answer.step > at, added)
        self.assertGreater(longer, 2)

    def needed_citations(self) -> Iterator[tuple[Theorem, Step]]:
        """The `by` steps directly before an `apply` step that needs them."""
        for theorem in self.book.theorems():
            for step, use in zip(theorem.proof.steps, theorem.proof.steps[1:]):
                if isinstance(step, By) and isinstance(use, Apply) and not use.new and theorem.title != "I.5":
                    needs = self.book.known.theorems[use.title].needs_at(use.arguments)
                    if any(is_same(need, step.literal) for need in needs):
                        yield theorem, step

    def test_theorems_of_many_objects(self) -> None:
        theorem = self.book.theorem("I.46")
        assert theorem is not None
        step = next(each for each in theorem.steps() if each.line.words[:2] == ("apply", "I.34"))
        done = inside("apply", "I.46", str(step.number), "--of", "I.34", "--all", BOOK)
        self.assertIn(f"{step.line.text.strip()}    ready", done.stdout)

    def test_shows_what_the_theorem_shows(self) -> None:
        for each in objects(inside("apply", "I.5", "23", "--of", "I.4", "--json", BOOK)):
            words = each["lines"][-1].split()
            used = self.book.known.theorems["I.4"]
            names = {old: new for (old, _), new in zip(used.declared, words[2:])}
            self.assertEqual(each["shows"], [spell(renamed(literal, names)) for literal in used.shown])

    def test_wrong_words(self) -> None:
        for words in (("I.5", "9", "--of", "I.6"), ("I.5", "9", "--of", "I.66"), ("I.5", "9", "--for", "on a"),
                      ("I.5", "9", "--for", "on z L"), ("I.5", "99")):
            self.assertEqual(inside("apply", *words, BOOK).status, 3, words)


class Scratches(BookOne):
    """Lines that are tried."""

    def test_verdicts(self) -> None:
        theorem = self.book.theorem("I.47")
        assert theorem is not None
        scratch = Scratch(self.book, theorem, len(theorem.steps()))
        trials: list[list[str]] = [["hence right = right"], ["by eqr-p a : a = b"], ["nonsense"], ["apply I.1 a b as zz", "hence zz != a"],
                  [], ["by eqr-p a : a = a"]]
        self.assertEqual(scratch.ready(trials), [True, False, False, True, False, True])
        self.assertEqual(scratch.runs, 3)  # one, and one more for each that is refused

    def test_many_trials(self) -> None:
        theorem = self.book.theorem("I.5")
        assert theorem is not None
        scratch = Scratch(self.book, theorem, 20)
        self.assertEqual(scratch.ready([["by eqr-p a : a = a"]] * 400), [True] * 400)

    def test_every_block(self) -> None:
        for theorem in self.book.theorems()[::4]:
            for step in theorem.steps()[::3]:
                self.assertEqual(Scratch(self.book, theorem, step.number).ready([["hence right = right"]]), [True])

    def test_earlier_theorem_refused(self) -> None:
        good = "by x5 b a A B : meets A B"
        self.assertIn(good, self.library.text())
        book = read_book(self.library.text().replace(good, "by x5 a b A B : meets A B", 1))
        theorem = book.theorem("I.8")
        assert theorem is not None
        scratch = Scratch(book, theorem, 1)
        trials = [["hence right = right"], ["apply I.1 a b as zz"], ["apply I.2 a b c as zz"], ["let zz point"]]
        self.assertEqual(scratch.ready(trials), [True, False, False, True])
        self.assertLessEqual({"I.1", "I.2"}, scratch.left_out)
        self.assertNotIn("I.7", scratch.left_out)

    def test_step_before_is_refused(self) -> None:
        path = TOP / "examples" / "pitfalls" / "missing-premise.book"
        book = load([path]).book()
        theorem = book.theorems()[0]
        with self.assertRaises(Untried):
            Scratch(book, theorem, theorem.steps()[-1].number).ready([["hence right = right"]])


if __name__ == "__main__":
    unittest.main()
