"""tools/manual.py: commands that pages show are run, and what they print is compared."""

from __future__ import annotations

import importlib
import os
import shutil
import sys
import tempfile
import unittest
from pathlib import Path
from typing import Any

TOP = Path(__file__).resolve().parents[2]
sys.path.insert(0, str(TOP / "tools"))
manual: Any = importlib.import_module("manual")
PAGE = """# A page

```
$ euclid-here one
one
$ euclid-here two words
..
words
```

```
$ other
not run
```

```
$ euclid-here > library/new; cat library/new library/old
WRONG
```
"""


class Pages(unittest.TestCase):
    """A tree with one page, and a program that prints its words."""

    def setUp(self) -> None:
        self.top = Path(self.enterContext(tempfile.TemporaryDirectory()))
        for folder in ("bin", "library", "docs"):
            (self.top / folder).mkdir()
        program = self.top / "bin" / "euclid-here"
        program.write_text('#!/bin/sh\nfor word in "$@"; do echo "$word"; done\n')
        os.chmod(program, 0o755)
        (self.top / "library" / "old").write_text("kept\n")
        self.page = self.top / "docs" / "page.md"
        self.page.write_text(PAGE)

    def test_findings(self) -> None:
        (page, number, what), = list(manual.check(self.top))
        self.assertEqual((page, number), (self.page, 18))
        self.assertIn("'kept'", what)
        self.assertEqual(os.listdir(self.top / "library"), ["old"])  # it ran in a copy

    def test_written(self) -> None:
        with open(os.devnull, "w", encoding="ascii") as nowhere:
            sys.stdout, before = nowhere, sys.stdout
            try:
                manual.write(self.top)
            finally:
                sys.stdout = before
        self.assertEqual(self.page.read_text(), PAGE.replace("WRONG", "kept"))
        self.assertEqual(list(manual.check(self.top)), [])

    def test_dots_stand_for_lines(self) -> None:
        for shown, printed, is_right in (
                (["a", "..", "c"], ["a", "b", "b", "c"], True), (["a", "..", "c"], ["a", "c"], True),
                (["a", ".."], ["a"], True), ([".."], [], True), (["a"], ["b"], False), (["a.c"], ["abc"], False),
                (["a", "..", "c"], ["a", "b"], False), ([], ["a"], False)):
            self.assertEqual(manual.fits(shown, printed), is_right, shown)

    def test_missing_program(self) -> None:
        shutil.rmtree(self.top / "bin")
        self.assertEqual(len(list(manual.check(self.top))), 2)


class Stored(unittest.TestCase):
    """What commands print of small books."""

    def test_outputs(self) -> None:
        page = TOP / "euclid" / "tests" / "outputs.md"
        blocks = manual.blocks_of(page.read_text())
        self.assertEqual(len(blocks), 7)
        for _, _, lines in blocks:
            self.assertEqual(manual.renewed(lines, TOP), lines)


if __name__ == "__main__":
    unittest.main()
