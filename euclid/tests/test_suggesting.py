"""bench/suggesting.py: which places are asked, and when its exit status is 1."""

from __future__ import annotations

import contextlib
import hashlib
import importlib
import io
import sys
import tempfile
import unittest
from pathlib import Path
from typing import Any
from unittest import mock

TOP = Path(__file__).resolve().parents[2]
sys.path.insert(0, str(TOP / "bench"))
suggesting: Any = importlib.import_module("suggesting")
SOME = [suggesting.Place("I.1", 1), suggesting.Place("I.1", 2), suggesting.Place("I.2", 1)]


class Suggesting(unittest.TestCase):
    """Three places, and programs that print their words."""

    def setUp(self) -> None:
        self.room = Path(self.enterContext(tempfile.TemporaryDirectory()))
        self.stored = self.room / "stored"
        self.keep(b"suggest I.1 1\nsuggest I.1 2\nsuggest I.2 1\n")
        self.enterContext(mock.patch.object(suggesting, "STORED", str(self.stored)))
        self.enterContext(mock.patch.object(suggesting, "places", lambda: SOME))

    def keep(self, answers: bytes) -> None:
        self.stored.write_text(hashlib.sha256(answers).hexdigest() + "\n")

    def program(self, name: str, *, last: str) -> str:
        path = self.room / name
        path.write_text(f'#!/bin/sh\ncat > /dev/null\necho "$@"\n{last}\n')
        path.chmod(0o755)
        return str(path)

    def run_with(self, *programs: str) -> tuple[int, str]:
        out = io.StringIO()
        with contextlib.redirect_stdout(out):
            status = suggesting.main(*programs)
        return status, out.getvalue()

    def test_right(self) -> None:
        """The stored sum: the figures are printed, and the status is 0."""
        status, out = self.run_with(self.program("one", last=""), self.program("two", last=""))
        self.assertEqual(status, 0)
        self.assertRegex(out, r"(?m)^places +3$")
        self.assertRegex(out, r"(?m)^most .* at I\.[12] [12]$")
        self.assertNotIn("WRONG", out)

    def test_another_sum(self) -> None:
        """Other answers than those stored."""
        self.keep(b"others")
        status, out = self.run_with(self.program("one", last=""))
        self.assertEqual(status, 1)
        self.assertIn("WRONG", out)

    def test_a_run_fails(self) -> None:
        """A run that ends with another status than 0, though its answer is the one stored."""
        status, out = self.run_with(self.program("one", last='[ "$3" = 1 ]'))
        self.assertEqual(status, 1)
        self.assertIn("I.1 2: it ends with the status 1\n", out)
        self.assertNotIn("WRONG", out)

    def test_another_program(self) -> None:
        """Each place is told at which the other program answers otherwise."""
        status, out = self.run_with(self.program("one", last=""), self.program("two", last='[ "$2" = I.1 ] || echo more'))
        self.assertEqual(status, 1)
        self.assertEqual(out.count("answers otherwise"), 1)
        self.assertIn("I.2 1: ", out)


class Places(unittest.TestCase):
    """The places of Book I."""

    def test_each_step(self) -> None:
        """The steps of each theorem, from 1 on."""
        steps: dict[str, list[int]] = {}
        for place in suggesting.places():
            steps.setdefault(place.title, []).append(place.step)
        self.assertIn("I.48", steps)
        for title, found in steps.items():
            self.assertEqual(found, list(range(1, len(found) + 1)), title)


if __name__ == "__main__":
    unittest.main()
