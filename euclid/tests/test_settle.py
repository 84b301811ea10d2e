"""The script of a page settles figures as the drawing does: the same measures, and facts that hold after moves."""

from __future__ import annotations

import json
import shutil
import subprocess
import unittest
from pathlib import Path

from euclid.drawing.figure import Figure
from euclid.drawing.frame import values_of
from euclid.drawing.search import find
from euclid.literals import spell
from euclid.pages.movable import Json, Movable, move_data
from euclid.tests.judge import false_facts
from euclid.tests.test_draw import TITLES, source

SCRIPT = Path(__file__).with_name("settle_test.js")


def movable(title: str, starts: int = 60) -> Movable | None:
    """A figure of a theorem, to be moved."""
    scene, _ = find(source(title), starts=starts)
    return None if scene is None else Movable(Figure(scene))


def settled(figures: dict[str, Movable]) -> list[dict[str, Json]]:
    """What the script says of each figure."""
    lines = [json.dumps([title, move_data(each, [spell(fact) for fact in each.facts], [])]) for title, each in figures.items()]
    done = subprocess.run(["node", str(SCRIPT)], input="\n".join(lines), capture_output=True, text=True, check=False)
    if done.returncode:
        raise AssertionError(done.stderr)
    return [json.loads(line) for line in done.stdout.splitlines()]


def wrong_after_moves(each: Movable, said: dict[str, Json]) -> list[str]:
    """What is wrong with the answers of the script for a figure."""
    found = []
    assert isinstance(said["values"], list) and isinstance(said["after"], list)
    x = [round(number, 6) for number in each.x]
    for value, (number, constraint) in zip(said["values"], each.constraints, strict=True):
        if abs(float(str(value)) - constraint.value(x)) > 1e-9:
            found.append(f"another measure: {spell(each.facts[number])}")
    for numbers in [said["start"], *said["after"]]:
        assert isinstance(numbers, list)
        values = values_of(each.frame, [float(str(number)) for number in numbers])
        found += [f"false: {spell(fact)}" for _, fact in false_facts(each.figure.events, values)]
    return found


@unittest.skipUnless(shutil.which("node"), "node is not installed")
class Settling(unittest.TestCase):
    """The script in node."""

    def test_measures_are_the_same_and_facts_hold_after_moves(self) -> None:
        figures = {title: found for title in TITLES if (found := movable(title)) is not None}
        self.assertGreater(len(figures), 12)
        held = moves = 0
        for title, said in zip(figures, settled(figures), strict=True):
            with self.subTest(title):
                self.assertEqual(said["broken"], -1)
                self.assertEqual(wrong_after_moves(figures[title], said), [])
                assert isinstance(said["after"], list)
                held, moves = held + int(str(said["held"])), moves + len(said["after"])
        self.assertLess(held, moves / 3)


if __name__ == "__main__":
    unittest.main()
