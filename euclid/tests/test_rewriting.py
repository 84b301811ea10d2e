"""`euclid fmt`, `rename` and `trim --write`: files that are exchanged, and what `elements` says of them."""

from __future__ import annotations

import os
import re
import shutil
import tempfile
import unittest
from pathlib import Path

from euclid import program
from euclid.answers import check
from euclid.library import load
from euclid.roles import Role, roles_of
from euclid.tests.running import euclid, inside

TOP = Path(__file__).resolve().parents[2]
BOOKS = TOP / "library"
UGLY = """\r
# first\r
\r
\r
theorem   on-or-not\r
points a   b c
lines  L
given a != b ;   on a L ; on b L ; between a c b
  show on c L
proof
# of two cases
    cases on c L
 # the first
      qed
else
\tclaim on c L
by b3 a c b L : on c L


qed
contradiction
end
# last"""
PLAIN = """# first

theorem on-or-not
points a b c
lines L
given a != b ; on a L ; on b L ; between a c b
show on c L
proof
# of two cases
cases on c L
  # the first
  qed
else
  claim on c L
    by b3 a c b L : on c L

    qed
  contradiction
end
# last
"""
TRICKY = """define g1
points a b
show a != b
end

theorem T.g
points g1 b
lines L M
given as g1 g1 b
given on g1 L ; on b L ; on g1 M ; on b M
show L = M
proof
# g1 is a point, and a rule, and a definition
by g1 g1 b L M : L = M
claim as g1 g1 b ; L = M
  qed
qed
end
"""


class Folder(unittest.TestCase):
    """A folder for files."""

    def setUp(self) -> None:
        self.folder = Path(self.enterContext(tempfile.TemporaryDirectory()))

    def book(self, text: str) -> Path:
        path = self.folder / "a.book"
        path.write_bytes(text.encode("latin-1"))
        return path

    def copy(self) -> Path:
        shutil.copytree(BOOKS, self.folder / "library")
        return self.folder / "library"

    def texts(self, folder: Path) -> dict[str, bytes]:
        return {str(path.relative_to(folder)): path.read_bytes() for path in folder.rglob("*") if path.is_file()}


class Fmt(Folder):
    """The layout."""

    def test_layout(self) -> None:
        path = self.book(UGLY)
        before = check(UGLY).derivation
        self.assertEqual(inside("fmt", "--check", str(path)).status, 1)
        self.assertEqual(path.read_bytes(), UGLY.encode())
        self.assertEqual(inside("fmt", str(path)).status, 0)
        self.assertEqual(path.read_text(), PLAIN)
        self.assertEqual(check(PLAIN).derivation, before)
        self.assertIn("accepted 1", before)
        self.assertEqual(inside("fmt", "--check", str(path)).status, 0)
        self.assertEqual(os.listdir(self.folder), ["a.book"])

    def test_stream(self) -> None:
        self.assertEqual(euclid("fmt", "-", text=UGLY.encode()).stdout, PLAIN)

    def test_library_is_laid_out(self) -> None:
        done = inside("fmt", "--check", str(BOOKS))
        self.assertEqual((done.status, done.stdout), (0, ""))

    def test_squeezed_library_comes_back(self) -> None:
        folder = self.copy() / "book-1"
        before = self.texts(folder)
        for path in folder.rglob("*.book"):
            lines = [re.sub(r" +", "  ", line.strip()) if not line.strip().startswith("#") else line.strip()
                     for line in path.read_text().split("\n")]
            path.write_text("\n\n".join(lines) if path.name == "I.01.book" else "\n".join(lines))
        self.assertEqual(inside("fmt", str(folder)).status, 0)
        after = self.texts(folder)
        self.assertEqual({name for name in before if before[name] != after[name]}, {"I.01.book"})

    def test_mode_stays(self) -> None:
        path = self.book(UGLY)
        path.chmod(0o640)
        inside("fmt", str(path))
        self.assertEqual(path.stat().st_mode & 0o7777, 0o640)

    def test_faulty_stays(self) -> None:
        text = UGLY.replace("by b3 a c b L :", "by b3 a c b L:")
        path = self.book(text)
        done = inside("fmt", str(path))
        self.assertEqual(done.status, 2)
        self.assertIn("a.book:17:", done.stderr)
        self.assertEqual(path.read_bytes(), text.encode())


class Roles(unittest.TestCase):
    """What words are."""

    def test_roles(self) -> None:
        line = "superpose a b c K onto d g h L as p q show as tri a b c ; on d L".split()
        names = [word for word, role in zip(line, roles_of(line)) if role == Role.NAME]
        self.assertEqual(names, "a b c K d g h L p q a b c d L".split())
        self.assertEqual([word for word, role in zip(line, roles_of(line)) if role == Role.TITLE], ["tri"])
        line = "by g1 g1 b L M : L = M".split()
        self.assertEqual([role.value for role in roles_of(line)],
                         "keyword rule name name name name other name other name".split())

    def test_every_name_of_book_one_is_declared(self) -> None:
        for item in load([BOOKS / "book-1"]).book().items:
            declared = set()
            used = set()
            for line in item.lines:
                if line.is_skipped():
                    continue
                names = {word for word, role in zip(line.words, roles_of(line.words)) if role == Role.NAME}
                used |= names
                if line.words[0] in ("points", "lines", "circles", "made", "let", "apply", "superpose"):
                    declared |= names
            self.assertEqual(used, declared & used)


class Rename(Folder):
    """Names."""

    def test_title_everywhere(self) -> None:
        folder = self.copy()
        before = check(load([folder]).text()).derivation
        done = inside("rename", "I.16", "sixteen", str(folder))
        self.assertEqual(done.status, 0)
        words, changed = re.subn(r"(?m)^(theorem|apply) I\.16( |$)", r"\1 sixteen\2", before)
        self.assertEqual(check(load([folder]).text()).derivation, words)
        self.assertEqual(sum(map(int, re.findall(r"\.book: (\d+) lines?$", done.stdout, re.M))), changed)
        self.assertIn("a comment has `I.16`", done.stderr)

    def test_object_of_one_theorem(self) -> None:
        folder = self.copy()
        names = {path: path.read_text() for path in folder.rglob("*.book")}
        self.assertEqual(inside("rename", "--in", "I.5", "d", "far", str(folder / "book-1")).status, 0)
        changed = [path for path in names if path.read_text() != names[path]]
        self.assertEqual([path.name for path in changed], ["I.05.book"])
        lines = zip(names[changed[0]].split("\n"), changed[0].read_text().split("\n"))
        others = [(old, new) for old, new in lines if old != new]
        self.assertTrue(others)
        for old, new in others:
            self.assertEqual(re.sub(r"(?<= )d(?= |$)", "far", old), new)
        self.assertTrue(check(load([folder]).text()).is_accepted())

    def test_grammar_tells_names_apart(self) -> None:
        path = self.book(TRICKY)
        self.assertTrue(check(TRICKY).is_accepted())
        self.assertEqual(inside("rename", "--in", "T.g", "g1", "p", str(path)).status, 0)
        text = path.read_text()
        self.assertIn("by g1 p b L M : L = M", text)
        self.assertIn("claim as g1 p b ; L = M", text)
        self.assertIn("define g1\npoints a b\nshow a != b", text)
        self.assertEqual(inside("rename", "g1", "apart", str(path)).status, 0)
        text = path.read_text()
        self.assertIn("by g1 p b L M : L = M", text)
        self.assertIn("given as apart p b", text)
        self.assertIn("define apart", text)
        self.assertTrue(check(text).is_accepted())

    def test_back_again(self) -> None:
        folder = self.copy()
        before = self.texts(folder)
        for old, new in (("I.4", "sas"), ("sas", "I.4")):
            self.assertEqual(inside("rename", old, new, str(folder)).status, 0)
        self.assertEqual(self.texts(folder), before)

    def test_sketches_follow(self) -> None:
        folder = self.copy()
        sketches = [path for path in folder.rglob("*.sketch") if "apply I.32 " in path.read_text()]
        self.assertTrue(sketches)
        self.assertEqual(inside("rename", "I.32", "angles", str(folder)).status, 0)
        for path in sketches:
            self.assertNotIn("apply I.32 ", path.read_text())
            self.assertIn("apply angles ", path.read_text())
        done = inside("check", str(folder))
        self.assertEqual((done.status, done.stderr), (0, ""))

    def test_line_ends_stay(self) -> None:
        path = self.book(TRICKY.replace("\n", "\r\n"))
        inside("rename", "--in", "T.g", "b", "c", str(path))
        self.assertEqual(path.read_bytes().count(b"\r\n"), TRICKY.count("\n"))

    def test_not_renamed(self) -> None:
        folder = self.copy()
        before = self.texts(folder)
        for words, said in (
                (("I.5", "I.6", str(folder)), "is there already"),
                (("I.51", "x", str(folder)), "did you mean"),
                (("I.5", "1x", str(folder)), "is no title"),
                (("I.5", "x", str(folder / "book-2")), "which these books need"),
                (("--in", "I.5", "b", "c", str(folder)), "is there already"),
                (("--in", "I.5", "b", "on", str(folder)), "is no name"),
                (("--in", "I.5", "zz", "y", str(folder)), "has no name `zz`")):
            done = inside("rename", *words)
            self.assertEqual(done.status, 3, words)
            self.assertIn(said, done.stderr)
        self.assertEqual(self.texts(folder), before)


class Trim(Folder):
    """Steps that nothing needs."""

    def test_numbers(self) -> None:
        done = inside("trim", str(BOOKS / "book-1"))
        text = check(load([BOOKS / "book-1"]).text()).derivation
        steps = re.compile(r"^(?:by|hence|let|apply|claim|superpose|qed|contradiction|cases)\b", re.M)
        whole, less = (len(steps.findall(each)) for each in (text, program.run(["trim"], text).output))
        self.assertEqual(done.stdout.split("\n")[-2], f"{whole - less} of {whole:,} steps, in 1 of 93 theorems")
        lines = done.stdout.count(": note: nothing needs step")
        self.assertLessEqual(lines, whole - less)

    def test_written(self) -> None:
        folder = self.copy() / "book-1"
        before = check(load([folder]).text()).derivation
        self.assertEqual(inside("trim", "--write", str(folder)).status, 0)
        self.assertEqual(check(load([folder]).text()).derivation, program.run(["trim"], before).output)
        self.assertTrue(inside("trim", str(folder)).stdout.startswith("0 of "))

    def test_sketches_follow(self) -> None:
        folder = self.copy()
        self.assertEqual(inside("trim", "--write", str(folder)).status, 0)
        done = inside("check", str(folder))
        self.assertEqual((done.status, done.stderr), (0, ""))

    def test_minimized(self) -> None:
        folder = self.copy() / "book-1"
        path = folder / "I.16.book"
        done = inside("trim", "--minimize", "--only", "I.16", "--write", str(folder))
        self.assertEqual(done.status, 0)
        lines = path.read_text().split("\n")
        start = lines.index("theorem I.16")
        steps = [at for at in range(start, len(lines)) if re.match(r" *(by|hence|let|apply)\b", lines[at])]
        idle = program.run(["trim"], check(load([BOOKS / "book-1"]).text()).derivation).output
        block = idle.split("\ntheorem I.16\n")[1].split("\nend\n")[0]
        self.assertLessEqual(len(steps), len(re.findall(r"(?m)^(?:by|hence|let|apply)\b", block)))
        texts = [file.text for file in load([path]).files[:-1]]
        front = "".join(texts)
        self.assertTrue(check(front + "\n".join(lines)).is_accepted())
        for at in steps:  # no line more can go
            self.assertFalse(check(front + "\n".join(lines[:at] + lines[at + 1 :])).is_accepted(), lines[at])

    def test_refused(self) -> None:
        done = inside("trim", str(TOP / "examples" / "pitfalls" / "missing-premise.book"))
        self.assertEqual((done.status, done.stdout), (1, ""))


if __name__ == "__main__":
    unittest.main()
