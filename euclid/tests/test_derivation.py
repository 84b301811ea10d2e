"""Derivation texts read as certificates: every sum of Book I cancels, in both versions."""

from __future__ import annotations

import unittest
from pathlib import Path

from euclid import program
from euclid.answers import check
from euclid.derivation import Arithmetic, Proved, Reason, Transfer, Unread, all_proved, read_derivation
from euclid.library import load
from euclid.literals import Term, spell

TOP = Path(__file__).resolve().parents[2]


def all_reasons(reasons: list[Reason]) -> list[Reason]:
    """The reasons, and those of the parts of transfers."""
    found = []
    for reason in reasons:
        found.append(reason)
        if isinstance(reason.certificate, Transfer):
            found += all_reasons(list(reason.certificate.parts))
    return found


def is_absurd(reason: Reason, certificate: Arithmetic) -> bool:
    """Whether each sum says that 0 is more than 0."""
    for rows in certificate.sums:
        total: dict[Term, int] = {}
        senses = []
        for row in rows:
            form, sense = row.form(reason.literal, certificate.differs)
            senses.append(sense)
            if sense != "=" and row.multiplier < 0:
                return False
            for term, number in form.items():
                total[term] = total.get(term, 0) + row.multiplier * number
        if any(total.values()) or ">" not in senses:
            return False
    return len(certificate.sums) == (1 if certificate.differs is None else 2)


class BookOne(unittest.TestCase):
    """All certificates of Book I."""

    text: str
    titles: list[str]

    @classmethod
    def setUpClass(cls) -> None:
        library = load([TOP / "library" / "book-1"])
        cls.text = check(library.text()).derivation
        cls.titles = [each.title for each in library.book().theorems()]

    def every(self, text: str) -> list[Proved]:
        found = list(all_proved(read_derivation(text)))
        self.assertEqual([each.theorem.title for each in found], self.titles)
        return found

    def test_sums_cancel(self) -> None:
        upgraded = program.run(["upgrade"], self.text).output
        for text in (self.text, upgraded):
            sums = 0
            for each in self.every(text):
                for reason in all_reasons([one for some in each.reasons.values() for one in some]):
                    if isinstance(reason.certificate, Arithmetic):
                        sums += 1
                        self.assertTrue(is_absurd(reason, reason.certificate), each.theorem.title)
            self.assertGreater(sums, 100)

    def test_versions_agree(self) -> None:
        upgraded = program.run(["upgrade"], self.text).output
        for one, two in zip(self.every(self.text), self.every(upgraded)):
            for step in one.reasons:
                kinds = [type(each.certificate) for each in all_reasons(one.reasons[step])]
                self.assertEqual(kinds, [type(each.certificate) for each in all_reasons(two.reasons[step])])


class Blanks(unittest.TestCase):
    """What filled the blanks."""

    def test_arguments(self) -> None:
        library = load([TOP / "examples" / "I.1-I.5.book"])
        answer = check(library.text())
        book = library.book()
        derivation = read_derivation(answer.derivation)
        found = 0
        for theorem in book.theorems():
            filled = derivation.parts[theorem.title].filled()
            for step in theorem.steps():
                if step.word == "apply":
                    words = [word for word in step.line.words[2:] if word != "as"]
                    for word, argument in zip(words, filled[step.number]):
                        self.assertTrue(word in ("_", argument))
                        found += 1
        self.assertGreater(found, 10)

    def test_other_texts(self) -> None:
        for text in ("", "theorem T\n", "derivation 3\n"):
            with self.assertRaises(Unread):
                read_derivation(text)

    def test_transfer_parts(self) -> None:
        text = "\n".join([
            "derivation 1", "theorem backward", "points a b c", "circles A", "given center a A", "given on b A",
            "given not on c A", "show seg a c != seg a b", "proof", "qed", "| transfer ds3a a b c A", "| fact",
            "| fact", "| fact", "end", "accepted 1", ""])
        self.assertEqual(program.run(["verify"], text).output, "verified 1\n")
        reason = next(all_proved(read_derivation(text))).reasons[1][0]
        assert isinstance(reason.certificate, Transfer) and reason.literal is not None
        self.assertEqual(spell(reason.literal), "seg a c != seg a b")
        parts = [spell(part.literal) for part in reason.certificate.parts if part.literal]
        self.assertEqual(parts, ["center a A", "on b A", "not on c A"])


if __name__ == "__main__":
    unittest.main()
