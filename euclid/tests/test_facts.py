"""`euclid facts`: before each step what tools/verify.py has there, which shares no code."""

from __future__ import annotations

import importlib
import json
import sys
import unittest
from pathlib import Path
from typing import Any

from euclid.answers import check
from euclid.contexts import Context, Goal, Walker
from euclid.derivation import read_derivation
from euclid.library import load
from euclid.literals import key, parse_literal
from euclid.script import Step
from euclid.tests.running import inside

TOP = Path(__file__).resolve().parents[2]
BOOK = str(TOP / "library" / "book-1")
sys.path.insert(0, str(TOP / "tools"))
verify: Any = importlib.import_module("verify")


class Recorder(verify.Verifier):  # type: ignore[misc]
    """Keeps the context before each step."""

    def __init__(self, text: bytes) -> None:
        super().__init__(text, verify.Tables())
        self.seen: dict[tuple[str, int], Any] = {}
        self.title = ""

    def theorem(self, words: list[str]) -> None:
        self.title = words[1]
        super().theorem(words)

    def keep(self, context: Any) -> None:
        """Notes the context before the step at hand."""
        self.seen[self.title, self.step] = context


def recording(name: str) -> Any:
    """A method that notes its context before it does what it does."""
    def method(self: Recorder, words: list[str], context: Any, *rest: Any) -> Any:
        self.keep(context)
        return getattr(verify.Verifier, name)(self, words, context, *rest)

    return method


for each in ("by", "hence", "let", "apply", "claim", "superpose", "qed", "contradiction", "cases"):
    setattr(Recorder, each, recording(each))


class Facts(unittest.TestCase):
    """The contexts of all steps of Book I."""

    recorder: Recorder
    derivation: str

    @classmethod
    def setUpClass(cls) -> None:
        cls.derivation = check(load([Path(BOOK)]).text()).derivation
        cls.recorder = Recorder(cls.derivation.encode())
        assert cls.recorder.answer() == ("verified 93", 0)

    def test_contexts_of_all_steps(self) -> None:
        book, parts = load([Path(BOOK)]).book(), read_derivation(self.derivation).parts
        count = 0
        for theorem in book.theorems():
            def visit(step: Step, context: Context, goal: Goal) -> None:
                nonlocal count
                other = self.recorder.seen[theorem.title, step.number]
                self.assertEqual({name: sort.value[0] for name, sort in context.sorts.items()}, dict(other.scope))
                spelled = [spelled_by_verify(literal) for literal in other.facts.values()]
                mine = [key(literal) for literal in context.literals()]
                self.assertEqual([key(parse_literal(words, context.sorts)) for words in spelled], mine,
                                 (theorem.title, step.number))
                count += 1

            Walker(theorem, book.known_before(theorem), visit, parts[theorem.title].filled()).walk()
        self.assertEqual(count, 1945)

    def test_command(self) -> None:
        done = inside("facts", "I.47", "54", BOOK, "--json")
        self.assertEqual(done.status, 0)
        data = json.loads(done.stdout)
        other = self.recorder.seen["I.47", 54]
        self.assertEqual([each["name"] for each in data["objects"]], list(other.scope))
        self.assertEqual(len(data["facts"]), len(other.facts))
        steps = {each["origin"]["step"] for each in data["facts"]}
        self.assertLessEqual(steps, set(range(54)))

    def test_origins(self) -> None:
        done = inside("facts", "I.1", "5", BOOK)
        rows = [" ".join(line.split()) for line in done.stdout.split("\n")]
        self.assertIn("points a b declared", rows)
        self.assertIn("a != b given", rows)
        self.assertIn("on b A step 1, line 11", rows)
        self.assertIn("inside a A step 3, line 13", rows)
        self.assertEqual(rows[-2], "to show: seg a b = seg b c ; seg b c = seg c a")

    def test_cases_have_their_literals(self) -> None:
        done = inside("facts", "I.2", "4", BOOK)
        self.assertIn("a != b", done.stdout)
        self.assertIn("else of step 1", done.stdout)

    def test_blanks(self) -> None:
        book = str(TOP / "examples" / "I.1-I.5.book")
        steps = [(theorem.title, step) for theorem in load([Path(book)]).book().theorems() for step in theorem.steps()]
        title, number = next((title, step.number) for title, step in steps
                             if step.word == "apply" and "_" in step.line.words)
        parts = read_derivation(check(load([Path(book)]).text()).derivation).parts
        recorder = Recorder(check(load([Path(book)]).text()).derivation.encode())
        recorder.answer()
        data = json.loads(inside("facts", title, str(number + 1), book, "--json").stdout)
        self.assertEqual(len(data["facts"]), len(recorder.seen[title, number + 1].facts))
        self.assertIn(title, parts)

    def test_wrong_words(self) -> None:
        for words, said in ((("I.49", "1"), "did you mean"), (("I.1", "99"), "has 9 steps"),
                            (("I.1", "0"), "no number of a step"), (("I.1", "x"), "no number of a step")):
            done = inside("facts", *words, BOOK)
            self.assertEqual(done.status, 3)
            self.assertIn(said, done.stderr)


def spelled_by_verify(literal: Any) -> list[str]:
    """A literal of tools/verify.py as words of a book."""
    if literal.objects:
        words = [literal.word, *literal.objects]
        if literal.word == "=":
            words = [literal.objects[0], "=" if literal.positive else "!=", literal.objects[1]]
            return words
        return words if literal.positive else ["not", *words]
    sides = [side_words(literal.left), side_words(literal.right)]
    sign = {"=": ("=", "!="), "<": ("<", None)}[literal.word]
    if literal.positive:
        return [*sides[0], sign[0], *sides[1]]
    return [*sides[0], "!=", *sides[1]] if sign[1] else [*sides[1], "<=", *sides[0]]


def side_words(monomials: Any) -> list[str]:
    """A sum as words."""
    words: list[str] = []
    for number, (word, *points) in monomials:
        words += ["+"] * bool(words) + ([str(number)] if number != 1 else []) + [word, *points]
    return words or ["0"]


if __name__ == "__main__":
    unittest.main()
