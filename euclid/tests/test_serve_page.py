"""The page of a classroom in a real browser: Debian's chromium, without a window."""

from __future__ import annotations

import unittest

from . import browser
from .serving import Serving

STATEMENT = "theorem first\npoints a b\ngiven a != b\nmade points c\nshow seg a c = seg a b ; seg b c = seg a b\nproof\n"
WRONG = STATEMENT + "let A circle a b\nlet B circle b a\nlet c on A\nqed c\nend\n"
RIGHT = STATEMENT + "let A circle a b\nlet B circle b a\nby g3 a A : inside a A\nby g3 b B : inside b B\n" \
                    "by x5 b a A B : meets A B\nlet c meet A B\nqed c\nend\n"
LESSONS = ("01-center", "02-other-end", "03-overlap")
SOLVED = ("by g3 o C : inside o C", "by b1a a b c : between c b a", "by b5 p q r s : between p q s")


@unittest.skipUnless(browser.is_there(), "there is no chromium with its driver")
class Page(unittest.TestCase):
    server: Serving
    page: browser.Browser

    @classmethod
    def setUpClass(cls) -> None:
        cls.server = Serving()
        cls.page = browser.Browser()

    @classmethod
    def tearDownClass(cls) -> None:
        cls.page.close()
        cls.server.__exit__()

    def tearDown(self) -> None:
        self.assertEqual(self.page.logs(), [])

    def opened(self, address: str = "") -> None:
        """The page, opened anew, with its first check done."""
        self.page.go("about:blank")
        self.page.go(address or self.server.address)
        self.assertTrue(self.page.wait("return document.documentElement.dataset.checked", 40))

    def choose(self, task: str) -> None:
        """Chooses a task, or the page of one's own."""
        self.checked("const s = document.getElementById('task'); s.value = arguments[0]; s.dispatchEvent(new Event('change'))", task)

    def write(self, text: str) -> None:
        """Puts a text into the editor, as typing does."""
        self.checked("const t = document.getElementById('text'); t.focus(); t.value = arguments[0]; "
                     "t.dispatchEvent(new Event('input'))", text)

    def checked(self, script: str, *arguments: str) -> None:
        """Does something, and waits for the check after it."""
        before = self.page.run("return document.documentElement.dataset.checked ?? '0'")
        self.page.run(script, *arguments)
        self.assertTrue(self.page.wait(f"return document.documentElement.dataset.checked > {before}", 40), "no check came")

    def test_a_proof_wrong_and_right(self) -> None:
        self.opened()
        self.choose("")
        self.write(WRONG)
        self.assertEqual(self.page.text("#verdict"), "1 thing to mend")
        self.assertIn("seg b c = seg a b", self.page.text("#messages h3"))
        self.assertIn("A counterexample", self.page.text("#messages caption"))
        self.assertEqual(self.page.text("#gutter .wrong"), "10")
        self.assertEqual(self.page.text("#colours .wrong-words"), "qed")
        self.write(RIGHT)
        self.assertEqual(self.page.text("#verdict"), "Accepted: each step follows")
        self.assertEqual(self.page.text("#messages"), "")
        self.assertTrue(self.page.wait("return !document.getElementById('picture').hidden && document.getElementById('picture').naturalWidth > 50", 40))
        self.assertTrue(self.page.run("return document.getElementById('picture').alt.length > 20"))

    def test_three_lessons(self) -> None:
        self.opened()
        for name, line in zip(LESSONS, SOLVED):
            self.choose(name)
            self.assertEqual(self.page.text("#lesson-done"), "the proof is not accepted yet")
            self.page.click("#hint")
            self.assertEqual(self.page.run("return document.querySelectorAll('#lesson-hints li').length"), 1)
            text = str(self.page.run("return document.getElementById('text').value"))
            self.write(text.replace("proof\n\n", f"proof\n{line}\n"))
            self.assertEqual(self.page.text("#lesson-done"), "Done")
        done = self.page.run("return [...document.querySelectorAll('#task option')].filter((each) => each.textContent.startsWith('\u2713')).length")
        self.assertEqual(done, 3)

    def test_a_text_is_kept_for_each_task_and_answers_are_hidden(self) -> None:
        self.opened()
        self.choose(LESSONS[0])
        self.assertNotIn("g3", self.page.text("#messages h3"))
        self.assertIn("g3", str(self.page.run("return document.querySelector('#messages details').textContent")))
        start = str(self.page.run("return document.getElementById('text').value"))
        self.write(start.replace("qed", "# mine\nqed"))
        self.choose(LESSONS[1])
        self.choose(LESSONS[0])
        self.assertIn("# mine", str(self.page.run("return document.getElementById('text').value")))
        self.opened()
        self.choose(LESSONS[0])
        self.assertIn("# mine", str(self.page.run("return document.getElementById('text').value")))
        self.checked("document.getElementById('again').click()")
        self.assertEqual(self.page.run("return document.getElementById('text').value"), start)
        self.checked("document.execCommand('undo')")
        self.assertIn("# mine", str(self.page.run("return document.getElementById('text').value")))

    def test_an_old_answer_is_shown_as_old(self) -> None:
        self.opened()
        self.choose("")
        self.write(RIGHT)
        self.page.run("const t = document.getElementById('text'); t.value += '# more\\n'; t.dispatchEvent(new Event('input'))")
        self.assertEqual(self.page.text("#verdict"), "Checking ..")
        self.assertTrue(self.page.wait("return !document.documentElement.classList.contains('old')", 40))

    def test_a_link_has_the_text(self) -> None:
        self.opened()
        self.choose("")
        self.write(RIGHT)
        self.page.click("#share")
        link = str(self.page.wait("return document.getElementById('shared').open && document.getElementById('link').value"))
        self.assertIn("#", link)
        self.opened(link)
        self.assertEqual(self.page.run("return document.getElementById('text').value"), RIGHT)
        self.page.click("#share")
        self.page.wait("return document.getElementById('shared').open")
        self.page.click("#close")

    def test_a_long_text_is_saved_as_a_file(self) -> None:
        self.opened()
        self.choose("")
        self.page.run("const bytes = crypto.getRandomValues(new Uint8Array(60000)); "
                      "document.getElementById('text').value = '# ' + Array.from(bytes, (each) => String.fromCharCode(97 + each % 26)).join('')")
        self.page.click("#share")
        self.assertTrue(self.page.wait("return document.getElementById('shared').open && document.getElementById('link').hidden"))
        self.page.click("#close")

    def test_at_euclids_length(self) -> None:
        self.opened()
        self.choose("")
        short = "".join(line + "\n" for line in RIGHT.splitlines() if not line.startswith("by "))
        self.write(short)
        self.assertEqual(self.page.text("#verdict"), "1 thing to mend")
        self.checked("document.getElementById('euclid').click()")
        self.assertEqual(self.page.text("#verdict"), "Accepted: each step follows")
        self.assertEqual(self.page.text("#steps details.put summary"), "3 lines that the figure shows")

    def test_keyboard_and_sizes(self) -> None:
        self.opened()
        self.choose("")
        self.write(STATEMENT + "by x\nqed a\nend\n")
        self.page.run("const t = document.getElementById('text'); const at = t.value.indexOf('by x') + 4; t.focus(); t.setSelectionRange(at, at)")
        self.page.keys("Tab")
        self.assertIn("x5", self.page.text("#offers"))
        self.page.keys("Escape", "Escape", "Tab")
        self.assertNotEqual(self.page.run("return document.activeElement.id"), "text")
        self.page.size(360, 740)
        self.assertTrue(self.page.run("return document.documentElement.scrollWidth <= 360"))
        self.page.click("#large")
        self.assertTrue(self.page.run("return document.documentElement.scrollWidth <= 360"))
        self.page.size(1280, 900)
        self.page.media(prefers_color_scheme="dark")
        dark = self.page.run("return getComputedStyle(document.body).backgroundColor")
        self.page.media(prefers_color_scheme="light")
        self.assertNotEqual(dark, self.page.run("return getComputedStyle(document.body).backgroundColor"))


if __name__ == "__main__":
    unittest.main()
