"""The language server in a real editor: Debian's Neovim, without a screen."""

from __future__ import annotations

import os
import shutil
import subprocess
import tempfile
import unittest
from pathlib import Path

from .lsp_client import TOP

BOOK = """# Points of a circle are equally far from its center.
theorem radii
points a b c
circles A
given center a A ; on b A ; on c A
show seg a b = seg a c
proof
hence seg a b = seg a c
qed
end

theorem again
points a b c d
lines L
circles A
given center a A ; on b A ; on c A ; between b d c ; on b L ; on d L
show seg a b = seg a c ; on c L
proof
apply radii a b c A
by b3 b d c L : on c L
qed
end
"""
WANTED = """filetype elements
diagnostic 20:1 again step 2: `b3` with these names does not give `on c L`, it uses it; `by b2 b d c L : on c L` is licensed
action write `by b2 b d c L : on c L` instead
mended
hover Points of a circle are equally far from its center.
definition small.book:2
completion some
renamed other-title
make euclid
"""


class Neovim(unittest.TestCase):
    @unittest.skipIf(shutil.which("nvim") is None, "there is no nvim")
    def test_what_a_user_does(self) -> None:
        with tempfile.TemporaryDirectory() as name:
            folder = Path(name)
            book, out = folder / "small.book", folder / "out"
            book.write_text(BOOK, encoding="ascii")
            environment = os.environ | {"BOOK": str(book), "OUT": str(out), "XDG_CONFIG_HOME": name, "XDG_DATA_HOME": name,
                                        "XDG_STATE_HOME": name, "PATH": f"{TOP / 'bin'}:{os.environ['PATH']}"}
            command = ["nvim", "--headless", "-u", "NONE", "--cmd", f"set rtp+={TOP / 'editors' / 'vim'}",
                       "--cmd", f"luafile {TOP / 'editors' / 'nvim' / 'elements.lua'}", "-c", "filetype plugin indent on",
                       "-c", f"luafile {TOP / 'euclid' / 'tests' / 'nvim_lsp.lua'}"]
            done = subprocess.run(command, env=environment, stdin=subprocess.DEVNULL, capture_output=True, timeout=90,
                                  check=False)
            self.assertTrue(out.exists(), done.stderr.decode(errors="replace"))
            self.assertEqual(out.read_text(encoding="utf-8"), WANTED)

    @unittest.skipIf(shutil.which("nvim") is None, "there is no nvim")
    def test_indents_are_those_of_fmt(self) -> None:
        source = (TOP / "library" / "book-3" / "III.35.book").read_text(encoding="ascii")
        with tempfile.TemporaryDirectory() as name:
            book = Path(name) / "flat.book"
            book.write_text("".join(line.lstrip() + "\n" for line in source.splitlines()), encoding="ascii")
            command = ["nvim", "-u", "NONE", "-es", "--cmd", f"set rtp+={TOP / 'editors' / 'vim'}",
                       "-c", "filetype plugin indent on", "-c", f"edit {book}", "-c", "normal! gg=G", "-c", "wq"]
            subprocess.run(command, stdin=subprocess.DEVNULL, capture_output=True, timeout=60, check=False)
            steps = [line for line in book.read_text(encoding="ascii").splitlines() if not line.lstrip().startswith("#")]
            self.assertEqual(steps, [line for line in source.splitlines() if not line.lstrip().startswith("#")])


if __name__ == "__main__":
    unittest.main()
