"""`euclid pages`: the site of a small library, in a real browser, from the disk and from a server."""

from __future__ import annotations

import functools
import http.server
import json
import re
import shutil
import subprocess
import tempfile
import threading
import unittest
from html.parser import HTMLParser
from pathlib import Path
from typing import Any, ClassVar

from euclid.pages.figures import Keeper
from euclid.pages.model import site_of
from euclid.pages.site import Work, theorem_file
from euclid.tests.browser import Browser, is_there
from euclid.tests.running import euclid

TOP = Path(__file__).resolve().parents[2]
BOOK, FEW = TOP / "examples" / "I.1-I.5.book", TOP / "examples" / "I.1.book"
MOST_BYTES = 300_000
REFUSED = """
# refused: nothing says so
theorem refused.one
points a b c
given a != b
show seg a b = seg a c
proof
by eqs-p b a : b != a
hence seg a b = seg a c
qed
end

# rests on the refused one
theorem rests.one
points a b c
given a != b
show seg a b = seg a c
proof
apply refused.one a b c
qed
end
"""
WORKERS = ("--processes", "2")


class Links(HTMLParser):
    """The links, the ids and the scripts of a page."""

    def __init__(self, text: str) -> None:
        super().__init__()
        self.links: list[str] = []
        self.ids: list[str] = []
        self.sources: list[str] = []
        self.feed(text)

    def handle_starttag(self, tag: str, attrs: list[tuple[str, str | None]]) -> None:
        for name, value in attrs:
            if name == "id" and value:
                self.ids.append(value)
            if name in ("href", "src") and value:
                (self.links if tag == "a" else self.sources).append(value)


class Quiet(http.server.SimpleHTTPRequestHandler):
    """A server that writes no log."""

    def log_message(self, format: str, *args: Any) -> None:
        pass


class Site(unittest.TestCase):
    """A site of the first five propositions, made once."""

    folder: ClassVar[Path]
    site: ClassVar[Path]
    keep: ClassVar[Path]

    @classmethod
    def setUpClass(cls) -> None:
        cls.folder = Path(cls.enterClassContext(tempfile.TemporaryDirectory()))
        cls.site, cls.keep = cls.folder / "site", cls.folder / "keep"
        done = euclid("pages", str(BOOK), "-o", str(cls.site), "--keep", str(cls.keep), *WORKERS)
        assert done.status == 0, done.stderr

    def pages(self) -> list[Path]:
        """All pages."""
        return sorted(self.site.rglob("*.html"))


class Files(Site):
    """What is written."""

    def test_every_link_leads_to_a_page_and_a_place_on_it(self) -> None:
        ids = {page: set(Links(page.read_text(encoding="utf-8")).ids) for page in self.pages()}
        count = 0
        for page in self.pages():
            found = Links(page.read_text(encoding="utf-8"))
            self.assertEqual(len(found.ids), len(set(found.ids)), page)
            for link in found.links + found.sources:
                path, _, place = link.partition("#")
                to = (page.parent / path).resolve() if path else page
                self.assertTrue(to.is_file(), f"{page}: {link}")
                if place and to.suffix == ".html":
                    self.assertIn(place, ids[to], f"{page}: {link}")
                count += 1
        self.assertGreater(count, 1500)

    def test_nothing_comes_from_elsewhere_and_nothing_is_written_into_tags(self) -> None:
        for page in self.pages():
            text = page.read_text(encoding="utf-8")
            self.assertNotRegex(text, r"(?i)(src|href)=.?(https?:)?//")
            self.assertNotRegex(text, r"(?i)<[^>]*\s(style|on[a-z]+)=")
            self.assertNotRegex(text, r"<script(?! src=| type=.application/json)")
            self.assertIn("default-src 'none'", text)

    def test_no_page_is_large(self) -> None:
        for page in self.pages():
            self.assertLess(page.stat().st_size, MOST_BYTES, page)

    def test_each_step_has_a_row_and_what_licenses_it(self) -> None:
        text = (self.site / "theorem" / "I.2.html").read_text(encoding="utf-8")
        self.assertEqual(re.findall(r'<tr id="s(\d+)"', text), [str(number) for number in range(1, 21)])
        row = text[text.index('<tr id="s16"') : text.index('<tr id="s17"')]
        self.assertIn('href="../rule/b1a.html"', row)
        self.assertIn("A is between D and F", row)
        self.assertIn("by b1a f a d : between d a f", row)
        self.assertIn('<a href="#s15" title="A is between F and D">15</a>', row)
        row = text[text.index('<tr id="s1"') : text.index('<tr id="s2"')]
        self.assertIn('<a href="../theorem/I.1.html"', row)
        self.assertIn('<a href="#g1" title="A ≠ B">given</a>', row)

    def test_a_blank_is_filled_and_a_sum_adds_up(self) -> None:
        text = (self.site / "theorem" / "I.5.html").read_text(encoding="utf-8")
        self.assertIn("<small>a b c a c b K L</small>", text)
        text = (self.site / "theorem" / "I.2.html").read_text(encoding="utf-8")
        row = text[text.index('<tr id="s20"') : text.index("</tbody></table></section>")]
        self.assertIn('<table class="sum">', row)
        self.assertIn("0 &gt; 0", row)

    def test_two_runs_write_the_same_bytes_and_stale_pages_go(self) -> None:
        sites = [self.folder / "one", self.folder / "other"]
        for seed, site in enumerate(sites):
            done = euclid("pages", str(BOOK), "-o", str(site), "--keep", str(self.folder / f"keep-{seed}"), *WORKERS, PYTHONHASHSEED=str(seed))
            self.assertEqual(done.status, 0, done.stderr)
        for path in [each for each in sites[0].rglob("*") if each.is_file()]:
            self.assertEqual(path.read_bytes(), (sites[1] / path.relative_to(sites[0])).read_bytes(), path)
        mine = sites[1] / "theorem" / "mine.html"
        mine.write_text("mine", encoding="ascii")
        self.assertEqual(euclid("pages", str(FEW), "-o", str(sites[1]), "--keep", str(self.keep), *WORKERS).status, 0)
        self.assertTrue(mine.is_file())
        self.assertFalse((sites[1] / "theorem" / "I.2.html").exists())
        self.assertTrue((sites[1] / "theorem" / "I.1.html").exists())

    def test_tidy_finds_no_error(self) -> None:
        tidy = shutil.which("tidy")
        if tidy is None:
            self.skipTest("tidy is not installed")
        for page in self.pages():
            done = subprocess.run([tidy, "-q", "-e", "--drop-empty-elements", "no", "--warn-proprietary-attributes", "no", str(page)],
                                  capture_output=True, text=True, check=False)
            self.assertEqual((done.returncode, done.stderr), (0, ""), page)

    def test_a_refused_theorem_has_a_page_up_to_its_step(self) -> None:
        book = self.folder / "refused.book"
        book.write_text(REFUSED, encoding="ascii")
        out = self.folder / "refused-site"
        self.assertEqual(euclid("pages", str(book), "-o", str(out), "--keep", str(self.keep), *WORKERS).status, 1)
        text = (out / "theorem" / "refused.one.html").read_text(encoding="utf-8")
        self.assertIn("Refused at step 2", text)
        self.assertIn("does not follow", text)
        self.assertIn('<tr id="s1"', text)
        self.assertIn("not checked", text)
        rests = (out / "theorem" / "rests.one.html").read_text(encoding="utf-8")
        self.assertIn('Not checked: it rests on <a href="../theorem/refused.one.html"', rests)

    def test_a_faulty_book_has_a_page(self) -> None:
        book = self.folder / "faulty.book"
        book.write_text(REFUSED.replace("by eqs-p b a : b != a", "by eqs-p q a : q != a"), encoding="ascii")
        out = self.folder / "faulty-site"
        self.assertEqual(euclid("pages", str(book), "-o", str(out), "--keep", str(self.keep), *WORKERS).status, 2)
        self.assertIn("unknown-name", (out / "theorem" / "refused.one.html").read_text(encoding="utf-8"))


@unittest.skipUnless(is_there(), "no browser is installed")
class InBrowser(Site):
    """The same in Debian's chromium."""

    browser: ClassVar[Browser]
    address: ClassVar[str]

    @classmethod
    def setUpClass(cls) -> None:
        super().setUpClass()
        cls.browser = cls.enterClassContext(Browser())
        handler = functools.partial(Quiet, directory=str(cls.site))
        server = http.server.ThreadingHTTPServer(("127.0.0.1", 0), handler)
        threading.Thread(target=server.serve_forever, daemon=True).start()
        cls.addClassCleanup(server.server_close)
        cls.addClassCleanup(server.shutdown)
        cls.address = f"http://127.0.0.1:{server.server_address[1]}"

    def setUp(self) -> None:
        self.browser.size(1280, 900)
        self.browser.logs()

    def tearDown(self) -> None:
        self.assertEqual(self.browser.logs(), [])

    def open(self, name: str) -> None:
        """Opens a page from the disk."""
        self.browser.go(self.site / name)

    def test_no_page_writes_to_the_console_from_the_disk_or_a_server(self) -> None:
        for page in self.pages():
            name = page.relative_to(self.site).as_posix()
            self.browser.go(page)
            self.assertEqual(self.browser.logs(), [], name)
        for name in ("index.html", "theorem/I.5.html", "rule/p2.html", "graph.html"):
            self.browser.go(f"{self.address}/{name}")
            self.assertEqual(self.browser.logs(), [], name)
            self.assertFalse(self.browser.run("return document.querySelector('.search').hidden"))

    def test_a_step_that_is_pointed_at_shows_its_premises_and_its_figure(self) -> None:
        self.open("theorem/I.2.html")
        before = self.browser.run("return document.querySelectorAll('figure svg > :not(.off)').length")
        self.browser.point_at("#s8 > td:nth-child(2)")
        self.assertEqual(self.browser.run("return [...document.querySelectorAll('.from-here')].map(each => each.id)"), ["s3", "s5", "s7"])
        self.assertTrue(self.browser.text("#caption").startswith("8. Let G be where N crosses ○A beyond B from D"))
        self.assertNotEqual(self.browser.run("return document.querySelectorAll('figure svg > :not(.off)').length"), before)

    def test_keys_step_through(self) -> None:
        self.open("theorem/I.2.html")
        self.browser.keys("Right", "Right", "Right")
        self.assertTrue(self.browser.text("#caption").startswith("3. "))
        self.browser.keys("Left")
        self.assertTrue(self.browser.text("#caption").startswith("2. "))
        self.browser.keys("Escape")
        self.assertEqual(self.browser.text("#caption"), "")

    def test_fewer_steps(self) -> None:
        self.open("theorem/I.2.html")
        count = "return [...document.querySelectorAll('.steps > tbody > tr')].filter(row => row.offsetParent).length"
        self.assertEqual(self.browser.run(count), 20)
        self.browser.click("[name=steps][value=drawn]")
        self.assertEqual(self.browser.run(count), 12)
        self.browser.click("[name=steps][value=euclid]")
        self.assertTrue(5 < self.browser.run(count) < 16)

    def test_search_finds_by_title_words_and_what_is_shown(self) -> None:
        self.open("index.html")
        for words, title in (("I.5", "I.5"), ("isosceles base", "I.5"), ("seg x y = seg z w", "I.3"), ("PQ = RS", "I.2"),
                             ("angle CAB = angle BAC", "nothing found"), ("angle ACB = angle ABC", "I.5"),
                             ("zebra", "nothing found")):
            self.browser.run("const box = document.querySelector('#search'); box.value = arguments[0]; "
                             "box.dispatchEvent(new Event('input'))", words)
            self.assertIn(title, self.browser.text("#found").replace("\n", " "), words)
        self.browser.keys("Escape")

    def test_search_opens_by_keys(self) -> None:
        self.open("theorem/I.5.html")
        self.browser.keys("/", *"I.4", "Enter")
        self.assertTrue(self.browser.wait("return location.pathname.endsWith('/theorem/I.4.html')"))

    def test_it_fits_a_phone_and_a_desk(self) -> None:
        for width in (360, 1280):
            self.browser.size(width, 800)
            for name in ("index.html", "theorem/I.4.html", "theorem/I.2.html", "rule/p2.html", "rules.html", "definitions.html"):
                self.open(name)
                wide = self.browser.run("return document.documentElement.scrollWidth")
                self.assertLessEqual(wide, width, name)

    def test_a_point_is_dragged_and_every_fact_holds(self) -> None:
        self.open("theorem/I.5.html")
        handle = self.browser.find("figure svg .handle")
        moves: list[dict[str, Any]] = [{"type": "pointerMove", "duration": 0, "origin": handle, "x": 0, "y": 0},
                                       {"type": "pointerDown", "button": 0}]
        self.browser.run("document.querySelector('.side').scrollIntoView()")
        start = self.browser.run("return document.querySelector('.handle').getAttribute('cx')")
        self.browser.point(*moves)
        self.browser.run("""const figure = document.querySelector('#figure'), said = window.said = []
            new MutationObserver(() => said.push(figure.dataset.holds)).observe(figure, {attributes: true})""")
        for step in range(10):
            x, y = (2 if step < 6 else -1), (1 if step % 2 else -1)
            self.browser.point(*[{"type": "pointerMove", "duration": 16, "origin": "pointer", "x": x, "y": y}] * 10)
        self.browser.point({"type": "pointerUp", "button": 0})
        end = self.browser.run("return document.querySelector('.handle').getAttribute('cx')")
        self.assertGreater(float(end) - float(start), 30)
        said = self.browser.run("return window.said")
        self.assertGreater(len(said), 20)
        self.assertEqual(set(said), {"true"})

    def test_what_would_break_a_fact_is_held_back_and_said(self) -> None:
        self.open("theorem/I.3.html")
        found = self.browser.run("""
            const figure = Proof.figures[0], at = figure.move.at, [, , c, d] = figure.move.drag, said = []
            for (let step = 1; step <= 40; step++) {
              const away = [0, 1].map(n => figure.x[at[d] + n] * 1.1 - figure.x[at[c] + n] * .1)
              figure.moveTo(d, away)
              const { holds, held } = document.querySelector('#figure').dataset
              said.push([holds, held])
            }
            return said""")
        self.assertEqual({holds for holds, _ in found}, {"true"})
        self.assertEqual(found[0][1], "")
        self.assertIn("CD < AB", {held for _, held in found})

    def test_a_point_is_held_back_where_it_would_leave_the_order(self) -> None:
        _, text, *_ = theorem_file(Work(site_of([TOP / "library" / "book-1"]), Keeper(None)), "I.16")
        (self.site / "theorem" / "order.html").write_text(text, encoding="utf-8")
        self.open("theorem/order.html")
        found = self.browser.run("""
            const figure = Proof.figures[0], at = figure.move.at, [, , c, d] = figure.move.drag, said = []
            for (let step = 0; step < 30; step++) {
              figure.moveTo(d, [0, 1].map(n => figure.x[at[d] + n] + .1 * (n ? 0 : figure.x[at[c]] - figure.x[at[d]] - .5)))
              const { holds, held } = document.querySelector('#figure').dataset
              said.push([holds, held])
            }
            return said""")
        self.assertEqual({holds for holds, _ in found}, {"true"})
        self.assertEqual([found[0][1], found[-1][1]], ["", "C is between B and D"])

    def test_a_point_moves_by_keys_and_another_figure_is_shown(self) -> None:
        self.open("theorem/I.5.html")
        self.browser.run("document.querySelector('.handle').focus()")
        before = self.browser.run("return document.querySelector('.handle').getAttribute('cy')")
        self.browser.keys("Up", "Up", "Up", "Right")
        after = self.browser.run("return document.querySelector('.handle').getAttribute('cy')")
        self.assertLess(float(after), float(before) - 5)
        self.browser.click("#other")
        self.assertEqual(self.browser.run("return document.querySelector('#figure').dataset.holds"), "true")
        self.assertNotEqual(self.browser.run("return document.querySelector('.handle').getAttribute('cy')"), after)

    def test_a_move_takes_less_than_a_frame(self) -> None:
        self.open("theorem/I.5.html")
        spent = self.browser.run("""
            const figure = Proof.figures[0], [a] = figure.move.drag, at = figure.move.at[a], begun = performance.now()
            for (let step = 0; step < 60; step++) figure.moveTo(a, [figure.x[at] + .01, figure.x[at + 1]])
            return (performance.now() - begun) / 60""")
        self.assertLess(spent, 100)  # milliseconds; less than 33 where the machine does nothing else

    def test_every_fact_of_I_47_holds_after_each_of_100_moves(self) -> None:
        site = site_of([TOP / "library" / "book-1"])
        name, text, *_ = theorem_file(Work(site, Keeper(None)), "I.47")
        (self.site / "theorem" / "one.html").write_text(text, encoding="utf-8")
        self.assertEqual(name, "theorem/I.47.html")
        self.open("theorem/one.html")
        found = self.browser.run("""
            const figure = Proof.figures[0], at = figure.move.at[figure.move.drag[0]], said = []
            const begun = performance.now(), start = [figure.x[at], figure.x[at + 1]]
            for (let step = 0; step < 100; step++) {
              const way = step / 100 * 2 * Math.PI
              figure.moveTo(figure.move.drag[0], [start[0] + .3 * Math.sin(way), start[1] + .3 * (1 - Math.cos(way))])
              said.push(document.querySelector('#figure').dataset.holds)
            }
            return [said, (performance.now() - begun) / 100]""")
        self.assertEqual(found[0], ["true"] * 100)
        self.assertLess(found[1], 100)  # milliseconds; less than 33 where the machine does nothing else

    def test_data_of_figures_is_json(self) -> None:
        self.open("theorem/I.1.html")
        self.assertIn("chapters", json.loads(self.browser.run("return document.querySelector('#data').textContent")))


if __name__ == "__main__":
    unittest.main()
