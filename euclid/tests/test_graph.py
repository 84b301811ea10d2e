"""`euclid graph`: what Book I rests on, beside `elements uses` and the words of its derivation."""

from __future__ import annotations

import json
import re
import unittest
from pathlib import Path

from euclid.answers import check
from euclid.derivation import read_derivation
from euclid.graph import Graph, graph_of
from euclid.library import load
from euclid.tests.running import inside

TOP = Path(__file__).resolve().parents[2]
BOOK = str(TOP / "library" / "book-1")


class BookOne(unittest.TestCase):
    """All theorems of Book I."""

    text: str
    graph: Graph
    applies: dict[str, list[str]]

    @classmethod
    def setUpClass(cls) -> None:
        cls.text = check(load([Path(BOOK)]).text()).derivation
        cls.graph = graph_of(read_derivation(cls.text).parts.values())
        lines = (TOP / "library" / "book-1" / "uses.out").read_text(encoding="ascii").split("\n")
        cls.applies = {line.split()[1]: line.split()[2:] for line in lines if line.startswith("uses ")}

    def below(self, title: str) -> set[str]:
        """What a theorem rests on, by the lines of `elements uses`."""
        found, waiting = set[str](), list(self.applies[title])
        while waiting:
            each = waiting.pop()
            if each not in found:
                found.add(each)
                waiting += self.applies[each]
        return found

    def test_applies(self) -> None:
        self.assertEqual(len(self.applies), 93)
        self.assertEqual(self.graph.applies, self.applies)

    def test_below_and_above(self) -> None:
        order = list(self.applies)
        for title in order:
            below = self.below(title)
            self.assertEqual(self.graph.below[title], [each for each in order if each in below])
            self.assertEqual(self.graph.above[title], [each for each in order if title in self.below(each)])

    def test_rules(self) -> None:
        own: dict[str, set[str]] = {}
        for block in self.text.split("\ntheorem ")[1:]:
            found = re.findall(r"^by (\S+)|^\| transfer (\S+)|^(superpose)\b", block, re.M)
            own[block.split("\n", 1)[0]] = {word for words in found for word in words if word}
        for title in self.applies:
            wanted = own[title].union(*(own[each] for each in self.below(title)))
            self.assertEqual(self.graph.rules[title], sorted(wanted))

    def test_parallel_postulate(self) -> None:
        done = inside("graph", "--rule", "da5a", BOOK)
        rows = dict(re.findall(r"^(\S.*?)  +\d+  (.*(?:\n .*)*)", done.stdout, re.M))
        need = rows["rest on it"].split()
        without = rows["do not"].split()
        self.assertEqual(rows["use it"].split(), ["I.29.alt"])
        self.assertEqual(sorted([*need, *without]), sorted(self.applies))
        # Euclid's first 28 propositions and I.31 do without it, as is well known.
        for title in self.applies:
            number = re.match(r"I\.(\d+)", title)
            if number and (int(number[1]) < 29 or number[1] == "31"):
                self.assertIn(title, without)
        self.assertIn("I.32", need)

    def test_propositions(self) -> None:
        done = inside("graph", "--rule", "da5a", "--propositions", BOOK)
        self.assertEqual(done.stdout.split("\n")[1:], ["rest on it  19  I.29, I.30, I.32 to I.48",
                                                       "do not      29  I.1 to I.28, I.31", ""])

    def test_propositions_of_one_theorem(self) -> None:
        done = inside("graph", "--rule", "da5a", "--propositions", "--of", "I.29.int", "--of", "meets.parallel", BOOK)
        self.assertEqual(done.stdout.split("\n"), ["use it       0", "rest on it   1  I.29", "do not       0", ""])

    def test_superposition_is_of_three(self) -> None:
        done = inside("graph", "--rule", "superpose", BOOK)
        self.assertTrue(done.stdout.startswith("use it       2  I.4 I.8\n"))

    def test_unused(self) -> None:
        done = inside("graph", "--unused", BOOK)
        used = {each for applied in self.applies.values() for each in applied}
        self.assertEqual(done.stdout.split(), [title for title in self.applies if title not in used])

    def test_json(self) -> None:
        done = inside("graph", "--of", "I.16", "--json", BOOK)
        data = json.loads(done.stdout)
        self.assertEqual(data["applies"], self.applies["I.16"])
        self.assertEqual(set(data["restsOn"]), self.below("I.16"))
        self.assertEqual(data["appliedBy"], [title for title in self.applies if "I.16" in self.applies[title]])
        place = (TOP / "library" / "book-1" / "I.16.book").read_text().split("\n")[data["line"] - 1]
        self.assertEqual(place, "theorem I.16")

    def test_dot(self) -> None:
        done = inside("graph", "--of", "I.5", "--dot", BOOK)
        edges = set(re.findall(r'^  "(\S+)" -> "(\S+)";$', done.stdout, re.M))
        titles = {"I.5", *self.below("I.5")}
        self.assertEqual(edges, {(title, each) for title in titles for each in self.applies[title]})
        self.assertTrue(done.stdout.startswith("digraph") and done.stdout.endswith("}\n"))

    def test_wrong_words(self) -> None:
        for words, said in ((("--of", "I.51"), "did you mean"), (("--rule", "da5"), "did you mean")):
            done = inside("graph", *words, BOOK)
            self.assertEqual((done.status, done.stdout), (3, ""))
            self.assertIn(said, done.stderr)


class Refused(unittest.TestCase):
    """A book that is not accepted: the rest of it has its graph."""

    def test_left_out(self) -> None:
        done = inside("graph", "--unused", str(TOP / "examples" / "pitfalls" / "missing-premise.book"))
        self.assertEqual(done.status, 1)
        self.assertIn("is refused, and is left out", done.stderr)


if __name__ == "__main__":
    unittest.main()
