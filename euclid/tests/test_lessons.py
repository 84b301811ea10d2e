"""The lessons: each has a solution that is done, and is not done at its beginning."""

from __future__ import annotations

import tempfile
import unittest
from pathlib import Path

from ..library import Faulty
from ..places import TOP
from ..serve import jobs
from ..serve.lessons import Task, read_task, tasks
from ..serve.pool import Data

FOLDER = str(TOP / "lessons")


def judged(task: Task, text: str) -> Data:
    """What is said of a text in a task."""
    found = jobs.check({"kind": "check", "text": text, "folder": task.folder(), "until": task.until, "line": 1,
                        "euclid": task.length == "euclid", "lessons": FOLDER, "lesson": task.name})
    return dict(found["lesson"])


class Lessons(unittest.TestCase):
    def test_there_are_enough_and_each_is_solved_by_its_solution_alone(self) -> None:
        found = tasks(FOLDER)
        self.assertGreaterEqual(len(found), 24)
        for task in found.values():
            with self.subTest(task.name):
                self.assertEqual(judged(task, task.solution), {"done": True, "why": ""})
                self.assertFalse(judged(task, task.start)["done"])
                self.assertTrue(task.start.startswith(task.statement) and task.solution.startswith(task.statement))

    def test_another_statement_is_not_the_task(self) -> None:
        task = tasks(FOLDER)["01-center"]
        easier = task.solution.replace("given center o C", "given center o C ; inside o C")
        self.assertIn("statement", judged(task, easier)["why"])
        self.assertIn("not there", judged(task, task.solution.replace("center-inside", "another"))["why"])

    def test_a_theorem_of_the_library_is_read_in_its_place(self) -> None:
        task = next(each for each in tasks(FOLDER).values() if "I.32\n" in each.statement)
        cheat = task.statement + "proof\napply I.32.sum a b c L\nqed\nend\n"
        self.assertFalse(judged(task, cheat)["done"])

    def test_files_that_are_no_tasks(self) -> None:
        with tempfile.TemporaryDirectory() as name:
            path = Path(name) / "one.toml"
            for text in ("", "group = 1", "nonsense", 'group = "a"\ntitle = "b"\nwords = ""\nstatement = ""\nstart = ""\nmore = 1'):
                path.write_text(text, encoding="utf-8")
                with self.assertRaises(Faulty):
                    read_task(path)


if __name__ == "__main__":
    unittest.main()
