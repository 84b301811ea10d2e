"""Makes a site: every page, over as many processes as there are processors."""

from __future__ import annotations

import multiprocessing
import os
from collections.abc import Iterator
from dataclasses import dataclass
from pathlib import Path

from ..drawing.sources import source_of
from ..writing import exchange_bytes
from .figures import Keeper, kept_or_drawn
from .folds import folded_lines
from .graph_page import graph_page
from .indexes import contents, definitions_page, needs_page, search_script
from .model import Site
from .rule_pages import figure_of, laws, rule_page, rules_page
from .theorem_page import TheoremPage

ASSETS = Path(__file__).resolve().parent / "assets"
SCRIPTS = ("settle.js", "figure.js", "page.js")
LIST = "made-by-euclid.txt"  # what a run made, so that the next one takes away what is no more


@dataclass
class Made:
    """What a run made."""

    files: int = 0
    bytes: int = 0
    largest: tuple[int, str] = (0, "")
    figures: int = 0
    holding: int = 0  # figures of theorems in which all facts of the main path hold


@dataclass
class Work:
    """What the processes have in common: it is set before they begin."""

    site: Site
    keeper: Keeper


WORK: list[Work] = []
Job = tuple[str, str]  # a kind of page, and a title or name
Page = tuple[str, str, bool, bool]  # a file, its text, whether there is a figure, and whether all facts hold in it


def made_page(job: Job) -> Page:
    """A page that has figures."""
    kind, name = job
    return theorem_file(WORK[0], name) if kind == "theorem" else rule_file(WORK[0], name)


def theorem_file(work: Work, title: str) -> Page:
    """The page of a theorem."""
    entry = work.site.entries[title]
    figures = kept_or_drawn(work.keeper, source_of(entry.theorem, entry.known, entry.outcome), entry.made_from)
    text = TheoremPage(work.site, entry, figures, folded_lines(work.site, entry, work.keeper)).text()
    holds = bool(figures.chapters) and not figures.chapters[0].false
    return f"theorem/{entry.file}", text, bool(figures.chapters), holds


def rule_file(work: Work, name: str) -> Page:
    """The page of a rule or a construction."""
    law = next(each for each in laws() if each.name == name)
    return f"rule/{law.file}", rule_page(work.site, law, figure_of(law, work.keeper)), False, False


def plain_files(work: Work) -> Iterator[tuple[str, str]]:
    """The other files."""
    site = work.site
    yield "index.html", contents(site)
    yield "definitions.html", definitions_page(site)
    yield "needs.html", needs_page(site)
    yield "graph.html", graph_page(site)
    yield "rules.html", rules_page(site)
    yield "search.js", search_script(site)
    yield "style.css", (ASSETS / "style.css").read_text(encoding="utf-8")
    yield "icon.svg", (ASSETS / "icon.svg").read_text(encoding="utf-8")
    yield "euclid.js", script()


def script() -> str:
    """The script of all pages."""
    parts = [(ASSETS / name).read_text(encoding="utf-8") for name in SCRIPTS]
    return "'use strict'\n" + "\n".join(part.replace("if (typeof module !== 'undefined') module.exports = Settle\n", "")
                                        for part in parts)


def make(site: Site, folder: Path, keeper: Keeper, processes: int | None = None) -> Made:
    """Writes all files of a site into a folder."""
    writer = Writer(folder)
    work = Work(site, keeper)
    WORK[:] = [work]
    titles = sorted(site.entries, key=lambda title: -len(site.entries[title].theorem.steps()))
    jobs = [("theorem", title) for title in titles] + [("rule", law.name) for law in laws()]
    count = min(processes or len(os.sched_getaffinity(0)), len(jobs))
    if count > 1:
        with multiprocessing.get_context("fork").Pool(count) as pool:
            pages = pool.imap_unordered(made_page, jobs, chunksize=1)
            for name, text in plain_files(work):
                writer.write(name, text)
            for page in pages:
                writer.take(page)
    else:
        for job in jobs:
            writer.take(made_page(job))
        for name, text in plain_files(work):
            writer.write(name, text)
    writer.end()
    return writer.made


class Writer:
    """Writes files into a folder, and counts them."""

    def __init__(self, folder: Path) -> None:
        self.folder, self.made = folder, Made()
        self.names: list[str] = []
        self.before = self.listed()

    def listed(self) -> list[str]:
        """The files of the run before."""
        try:
            return (self.folder / LIST).read_text(encoding="utf-8").split("\n")
        except OSError:
            return []

    def take(self, page: Page) -> None:
        """Writes the page of a theorem."""
        name, text, is_drawn, holds = page
        self.made.figures += is_drawn
        self.made.holding += holds
        self.write(name, text)

    def write(self, name: str, text: str) -> None:
        """Writes one file."""
        data = text.encode("utf-8")
        path = self.folder / name
        path.parent.mkdir(parents=True, exist_ok=True)
        if not path.is_file() or path.read_bytes() != data:
            exchange_bytes(path, data, is_synced=False)
        self.names.append(name)
        self.made.files += 1
        self.made.bytes += len(data)
        if name.endswith(".html"):
            self.made.largest = max(self.made.largest, (len(data), name))

    def end(self) -> None:
        """Takes away the files of the run before that are no more, and lists those of this one."""
        for name in set(self.before) - set(self.names) - {""}:
            path = (self.folder / name).resolve()
            if path.is_relative_to(self.folder.resolve()) and path.is_file():
                path.unlink()
        exchange_bytes(self.folder / LIST, "\n".join([*sorted(self.names), ""]).encode("utf-8"))
