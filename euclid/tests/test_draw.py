"""`euclid draw`: facts judged from coordinates alone, the same figure each time, theorems that are refused."""

from __future__ import annotations

import os
import subprocess
import sys
import tempfile
import unittest
import xml.dom.minidom
from pathlib import Path

from euclid.drawing.course import Source
from euclid.drawing.figure import Figure
from euclid.drawing.layout import Layout
from euclid.drawing.search import chapters, find, find_statement
from euclid.drawing.sources import Sources
from euclid.library import load
from euclid.literals import spell
from euclid.tests.judge import false_facts

TOP = Path(__file__).resolve().parents[2]
LIBRARY = TOP / "library"
TITLES = "I.1 I.2 I.5 I.7 I.9 I.16 I.22 I.24 I.27 I.35 I.45 I.47 II.4 II.14 III.17 III.22 IV.5 IV.10".split()
REFUSED = """theorem half-done
points a b
given a != b
made points c
show seg a b = seg a c ; seg a b = seg b c
proof
let L line a b
let A circle a b
let B circle b a
let c meet A B
qed c
end
"""


def sources(paths: list[Path]) -> Sources:
    """The theorems of a library."""
    return Sources(load(paths).book())


ALL = sources([LIBRARY])


def source(title: str) -> Source:
    """A theorem of the libraries."""
    theorem = ALL.book.theorem(title)
    assert theorem is not None, title
    return ALL.source(theorem)


def euclid(*words: str, seed: str = "0") -> subprocess.CompletedProcess[str]:
    """Runs the companion."""
    return subprocess.run([sys.executable, str(TOP / "bin" / "euclid"), *words], capture_output=True, text=True,
                          env={**os.environ, "PYTHONHASHSEED": seed}, check=False)


class Facts(unittest.TestCase):
    """What holds in figures."""

    def test_all_facts_of_the_main_path_hold_on_paper(self) -> None:
        for title in TITLES:
            with self.subTest(title):
                scene, _ = find(source(title), starts=120)
                assert scene is not None
                values = dict(Layout(scene).values)
                self.assertEqual([], [(step, spell(fact)) for step, fact in false_facts(scene.events, values)])
                self.assertGreater(sum(len(event.facts) for event in scene.events), 4)

    def test_the_judge_sees_what_is_false(self) -> None:
        scene, _ = find(source("I.5"), starts=60)
        assert scene is not None
        values = dict(Layout(scene).values)
        x, y = values["a"][:2]
        values["a"] = (x + 0.1, y)
        false = [spell(fact) for _, fact in false_facts(scene.events, values)]
        self.assertIn("seg a b = seg a c", false)

    def test_givens_that_contradict_each_other_have_a_loose_figure_alone(self) -> None:
        self.assertIsNone(find(source("I.27.half"), starts=60)[0])
        loose, _ = find(source("I.27.half"), loose=True, starts=60)
        assert loose is not None
        self.assertIn("ang a b c = ang b c d", [spell(fact) for _, fact in loose.false])

    def test_what_is_supposed_holds_and_a_given_fact_does_not(self) -> None:
        scene, _ = find(source("I.6.half"), starts=60)
        assert scene is not None
        supposed = chapters(scene)[1]
        false = [spell(fact) for _, fact in supposed.false]
        self.assertIn("ang a b c = ang a c b", false)
        self.assertNotIn("seg a c < seg a b", false)

    def test_each_step_has_a_figure(self) -> None:
        theorem = source("I.6.half")
        scene, _ = find(theorem, starts=60)
        assert scene is not None
        shown = {event.step for each in chapters(scene) for event in each.events}
        self.assertEqual({step.number for step in theorem.theorem.steps()} - shown, set())

    def test_a_statement_needs_no_proof(self) -> None:
        scene = find_statement(source("I.46"))
        assert scene is not None
        self.assertEqual([], false_facts(scene.events, dict(Layout(scene).values)))

    def test_no_two_names_are_on_one_place(self) -> None:
        for title in ("I.5", "I.47", "III.22"):
            scene, _ = find(source(title), starts=60)
            assert scene is not None
            figure = Figure(scene)
            spots = [(spot[0] + move[0], spot[1] + move[1]) for spot, move in figure.name_spots.items()]
            for at, (x, y) in enumerate(spots):
                for other in spots[:at]:
                    self.assertFalse(abs(x - other[0]) < 8 and abs(y - other[1]) < 10, (title, x, y))


class Command(unittest.TestCase):
    """The command line."""

    def test_two_runs_write_the_same_bytes(self) -> None:
        runs = [euclid("draw", "I.9", str(LIBRARY / "book-1"), seed=seed) for seed in ("1", "2")]
        self.assertEqual(runs[0].returncode, 0, runs[0].stderr)
        self.assertEqual(runs[0].stdout, runs[1].stdout)
        xml.dom.minidom.parseString(runs[0].stdout)

    def test_a_step_colours_what_it_adds(self) -> None:
        whole = euclid("draw", "I.1", str(LIBRARY / "book-1")).stdout
        step = euclid("draw", "I.1", "--step", "2", str(LIBRARY / "book-1")).stdout
        self.assertNotIn('class="circle thin new"', whole)
        self.assertEqual(step.count('class="circle thin new"'), 1)

    def test_a_refused_theorem_is_drawn_up_to_its_step(self) -> None:
        with tempfile.TemporaryDirectory() as folder:
            book = Path(folder) / "a.book"
            book.write_text(REFUSED.replace("let A circle a b\n", "let A circle b b\n"), encoding="ascii")
            run = euclid("draw", "half-done", str(book))
            self.assertEqual(run.returncode, 0, run.stderr)
            self.assertNotIn("<circle class=\"circle", run.stdout)
            self.assertEqual(euclid("draw", "half-done", "--step", "2", str(book)).returncode, 3)
            book.write_text(REFUSED.replace("meet A B", "meet A A"), encoding="ascii")
            self.assertEqual(euclid("draw", "half-done", str(book)).stdout.count("<circle class=\"circle"), 2)

    def test_what_cannot_be_drawn_is_said(self) -> None:
        for words in (["I.999"], ["I.1", "--step", "999"], ["I.1", "--step", "-1"]):
            run = euclid("draw", *words, str(LIBRARY / "book-1"))
            self.assertEqual(run.returncode, 3, run.stderr)
            self.assertTrue(run.stderr.startswith("euclid: "), run.stderr)

    def test_a_folder_that_is_not_there(self) -> None:
        run = euclid("draw", "I.1", "-o", "nowhere/I.1.svg", str(LIBRARY / "book-1"))
        self.assertEqual((run.returncode, run.stderr), (4, "euclid: nowhere/I.1.svg: No such file or directory\n"))


if __name__ == "__main__":
    unittest.main()
