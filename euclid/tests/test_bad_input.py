"""Bad input: no command ends with a traceback, each with the exit status that the manual gives."""

from __future__ import annotations

import os
import tempfile
import unittest
from pathlib import Path

from euclid.cli import COMMANDS
from euclid.tests.running import euclid, inside

TOP = Path(__file__).resolve().parents[2]
BOOK = TOP / "library" / "book-1" / "I.01.book"
FAULTY, WRONG_USE, FAILED = 2, 3, 4

# The words before the paths: of each command that reads books, in one or two ways.
WORDS: dict[str, list[list[str]]] = {
    "apply": [["I.1", "3"], ["I.1", "3", "--for", "a != b"]],
    "facts": [["I.1", "3"], ["I.1", "3", "--json"]],
    "find": [["on _ _"]],
    "fmt": [[], ["--check"]],
    "give": [["a != b", "--at", "I.1", "3"]],
    "graph": [[], ["--of", "I.1"], ["--rule", "da5a"], ["--unused"], ["--dot"]],
    "rename": [["I.1", "one"], ["--in", "I.1", "a", "z"]],
    "trim": [[], ["--minimize"], ["--write"]],
    "check": [[]],
}
ASKING = ("apply", "facts", "find", "give")  # they answer of what can be read


class BadInput(unittest.TestCase):
    """Each command with each bad input."""

    def setUp(self) -> None:
        self.folder = Path(self.enterContext(tempfile.TemporaryDirectory()))

    def each(self, path: Path, statuses: set[int]) -> None:
        """Runs all commands on a path. Nothing may change."""
        before = self.files()
        for command, ways in WORDS.items():
            for words in ways:
                with self.subTest(f"{command} {' '.join(words)}"):
                    done = inside(command, *words, str(path))
                    self.assertNotIn("Traceback", done.stderr)
                    asked = {0, 1, WRONG_USE} if command in ASKING and path.is_file() else set()
                    self.assertIn(done.status, statuses | asked, done.stderr)
                    if done.status:
                        self.assertTrue(done.stderr or done.stdout)
        self.assertEqual(self.files(), before)

    def files(self) -> dict[str, int]:
        """The files, with the times of their last change."""
        return {str(path): path.stat().st_mtime_ns for path in self.folder.rglob("*") if path.is_file()}

    def put(self, name: str, data: bytes) -> Path:
        """A file in the folder."""
        path = self.folder / name
        path.parent.mkdir(exist_ok=True, parents=True)
        path.write_bytes(data)
        return path

    def test_all_commands_are_here(self) -> None:
        others = {"why", "draw", "fill", "strip", "lsp", "serve", "pages"}  # have tests of their own
        self.assertLessEqual(set(WORDS), set(COMMANDS))
        self.assertLessEqual(set(COMMANDS), set(WORDS) | others)

    def test_empty(self) -> None:
        self.each(self.put("a.book", b""), {0, 1, WRONG_USE})

    def test_binary(self) -> None:
        self.each(self.put("a.book", bytes(range(256)) * 64), {1, FAULTY, WRONG_USE})

    def test_lines_of_zeros(self) -> None:
        self.each(self.put("a.book", b"theorem T\npoints a\n\0\0\0\nend\n" * 3), {1, FAULTY, WRONG_USE})

    def test_gigabyte(self) -> None:
        path = self.put("a.book", b"")
        os.truncate(path, 1 << 30)
        self.each(path, {FAULTY})

    def test_missing(self) -> None:
        self.each(self.folder / "nothing.book", {FAULTY})

    def test_folder_without_config(self) -> None:
        self.each(self.folder, {FAULTY})

    def test_unreadable_bytes_of_config(self) -> None:
        for data in (b"\xff\xfe", b"files = [\n", b"files = 1\n", b'files = ["a.book"]\n', b'needs = ["nowhere"]\n',
                     b'colour = "red"\n', b"files = [1]\n", b"", b'title = "None"\n'):
            self.put("lib/book.toml", data)
            self.each(self.folder / "lib", {FAULTY})

    def test_cut_in_a_line(self) -> None:
        text = BOOK.read_bytes()
        for word in (b"orem I.1", b"s a b", b"made", b"of", b"x5", b" centers"):
            self.each(self.put("a.book", text[: text.rindex(word) + 1]), {1, FAULTY, WRONG_USE})

    def test_library_that_needs_itself(self) -> None:
        self.put("one/book.toml", b'title = "One"\nneeds = ["../two"]\nfiles = []\n')
        self.put("two/book.toml", b'title = "Two"\nneeds = ["../one"]\nfiles = []\n')
        self.each(self.folder / "one", {FAULTY})
        self.put("self/book.toml", b'needs = ["."]\n')
        self.each(self.folder / "self", {FAULTY})

    def test_folder_as_a_file(self) -> None:
        self.put("lib/book.toml", b'files = ["sub"]\n')
        (self.folder / "lib" / "sub").mkdir()
        self.each(self.folder / "lib", {FAULTY})

    def test_no_program(self) -> None:
        for words in (["graph"], ["trim"], ["check"], ["rename", "I.1", "x"]):
            done = euclid(*words, str(BOOK), ELEMENTS="/nowhere/elements")
            self.assertEqual(done.status, FAILED, words)
            self.assertNotIn("Traceback", done.stderr)
            self.assertIn("/nowhere/elements", done.stderr)

    def test_file_that_cannot_be_written(self) -> None:
        path = self.put("lib/a.book", BOOK.read_bytes().replace(b"let A", b"let   A"))
        self.assertEqual(inside("fmt", "--check", str(path)).status, 1)
        before = path.read_bytes()
        path.parent.chmod(0o555)
        try:
            done = euclid("fmt", str(path))
        finally:
            path.parent.chmod(0o755)
        if os.getuid():  # the superuser may write everywhere
            self.assertEqual(done.status, FAILED)
            self.assertEqual(path.read_bytes(), before)
        self.assertNotIn("Traceback", done.stderr)
        self.assertEqual(sorted(os.listdir(path.parent)), ["a.book"])

    def test_closed_pipe(self) -> None:
        import subprocess
        import sys

        command = [sys.executable, str(TOP / "bin" / "euclid"), "graph", str(TOP / "library")]
        with subprocess.Popen(command, stdout=subprocess.PIPE, stderr=subprocess.PIPE) as running:
            assert running.stdout is not None and running.stderr is not None
            running.stdout.readline()
            running.stdout.close()
            said = running.stderr.read()
            self.assertEqual(running.wait(), 0)
        self.assertEqual(said, b"")

    def test_wrong_words(self) -> None:
        cases: list[list[str]] = [
            [], ["nonsense"], ["facts"], ["facts", "I.1"], ["find"], ["graph", "--of"], ["rename", "a"],
            ["trim", "--nonsense"], ["give"], ["apply", "I.1", "-1"]]
        for words in cases:
            done = euclid(*words)
            self.assertEqual(done.status, WRONG_USE, words)
            self.assertNotIn("Traceback", done.stderr)

    def test_help(self) -> None:
        done = euclid("--help")
        self.assertEqual(done.status, 0)
        for command in COMMANDS:
            self.assertIn(f"\n  {command} ", done.stdout)
            said = inside(command, "--help")
            self.assertEqual(said.status, 0)
            self.assertIn("example: ", said.stdout)
        self.assertIn("example: euclid", done.stdout)
        self.assertIn("elements", euclid("--version").stdout)


if __name__ == "__main__":
    unittest.main()
