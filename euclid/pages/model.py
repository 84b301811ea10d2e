"""What a site is made from: the items of a library with what became of them, and where their pages are."""

from __future__ import annotations

import hashlib
import json
from collections.abc import Mapping
from dataclasses import dataclass, field
from pathlib import Path

from .. import program
from ..checking import Outcome, Verdict, keys_of, uses_of
from ..diagnose import Diagnoser, Report
from ..diagnosis import Diagnosis
from ..derivation import Part
from ..graph import Graph, graph_of
from ..library import Library, load
from ..rules import Tables, tables
from ..script import Definition, Item, Let, Theorem
from ..statements import Known

THEOREMS, RULES, DEFINITIONS = "theorem/", "rule/", "definitions.html"


@dataclass
class Entry:
    """A theorem of the site."""

    theorem: Theorem
    outcome: Outcome
    known: Known
    file: str  # its page
    group: int  # the book that it is in
    made_from: str  # all that its page is made from
    diagnosis: Diagnosis | None = None

    @property
    def title(self) -> str:
        """Its title."""
        return self.theorem.title

    @property
    def is_accepted(self) -> bool:
        """Whether `elements` accepted it."""
        return self.outcome.verdict == Verdict.ACCEPTED

    @property
    def part(self) -> Part | None:
        """Its block of the derivation text."""
        return self.outcome.part

    @property
    def refused_at(self) -> int:
        """The step at which it is refused, or 0."""
        answer = self.outcome.answer
        return answer.step if self.outcome.verdict == Verdict.REFUSED and answer else 0

    @property
    def comment(self) -> str:
        """Its comment, without the title that may be before it."""
        said = self.theorem.comment
        for front in (f"{self.title}: ", f"{self.title} "):
            if said.startswith(front):
                return said.removeprefix(front)
        return said


@dataclass
class Group:
    """A book: a folder with a title, or a file."""

    title: str
    entries: list[Entry] = field(default_factory=list)
    definitions: list[Definition] = field(default_factory=list)


@dataclass
class Site:
    """All that pages are made from."""

    title: str
    report: Report
    groups: list[Group]
    entries: dict[str, Entry]
    graph: Graph
    own_shapes: dict[str, dict[int, None]]  # the constructions of each theorem's own steps
    shapes: dict[str, set[int]]  # the constructions that each theorem uses in all
    verified: str

    @property
    def library(self) -> Library:
        """The library."""
        return self.report.library

    @property
    def definitions(self) -> list[Definition]:
        """All definitions, in order."""
        return [item for item in self.report.book.items if isinstance(item, Definition)]

    @property
    def tables(self) -> Tables:
        """The rules."""
        return tables()

    def is_accepted(self, item: Item) -> bool:
        """Whether an item is accepted."""
        return item.title not in self.report.refused_titles()

    def order(self) -> list[Entry]:
        """The theorems in order."""
        return list(self.entries.values())


def site_of(paths: list[Path]) -> Site:
    """The site of the books and libraries of a command line, with what they need."""
    library = load(paths)
    report = Diagnoser().report(library)
    keys = keys_of(report.book.items, uses_of(report.book.items))
    diagnoses: Mapping[str, Diagnosis] = {each.title: each for each in report.diagnoses if each.title}
    groups: list[Group] = []
    entries: dict[str, Entry] = {}
    files: set[str] = set()
    known = Known()
    for item, outcome, made_from in zip(report.book.items, report.outcomes.items, keys):
        group = group_of(groups, library, item)
        if isinstance(item, Theorem) and item.title not in entries:
            file = file_for(item.title, files)
            entry = Entry(item, outcome, known.copy(), file, groups.index(group), "", diagnoses.get(item.title))
            entry.made_from = sum_of(entry, made_from)
            entries[item.title] = entry
            group.entries.append(entry)
        elif isinstance(item, Definition):
            group.definitions.append(item)
        if item.fault is None:
            kind = known.theorems if isinstance(item, Theorem) else known.definitions
            kind.setdefault(item.title, item.statement)
    graph = graph_of(outcome.part for outcome in report.outcomes.items if outcome.part is not None)
    groups = [group for group in groups if group.entries or group.definitions]
    title = title_of(library, groups)
    own = {each: shapes_in(entry.theorem) for each, entry in entries.items()}
    return Site(title, report, groups, entries, graph, own, shapes_of(own, graph), verified())


def sum_of(entry: Entry, made_from: str) -> str:
    """A sum of a theorem, of the statements that it uses, and of its derivation."""
    part = entry.part
    below = [] if part is None else [line.text for lines in part.below.values() for line in lines]
    own = [] if part is None else [line.text for line in part.lines]
    parts = [entry.title, made_from, str(entry.refused_at), *own, *below]
    return hashlib.sha256("\n".join(parts).encode("latin-1", "replace")).hexdigest()


def group_of(groups: list[Group], library: Library, item: Item) -> Group:
    """The book of an item: the title of its folder, or the name of its file."""
    path = next((file.path for file in reversed(library.files) if file.start <= item.first), Path("-"))
    title = next((title for folder, title in library.titles if folder == path.parent), path.stem)
    found = next((group for group in groups if group.title == title), None)
    if found is None:
        found = Group(title)
        groups.append(found)
    return found


def title_of(library: Library, groups: list[Group]) -> str:
    """The title of the site: that of the first folder that was asked for."""
    return library.titles[0][1] if library.titles else groups[0].title if groups else "A library"


def file_for(title: str, taken: set[str]) -> str:
    """The name of a page, which differs from the others where capitals do not count too."""
    name, number = title, 1
    while name.lower() in taken:
        number += 1
        name = f"{title}-{number}"
    taken.add(name.lower())
    return name + ".html"


def shapes_in(theorem: Theorem) -> dict[int, None]:
    """The constructions of a theorem's own steps, by their numbers."""
    return {step.construction.number: None for step in theorem.steps() if isinstance(step, Let)}


def shapes_of(own: Mapping[str, Mapping[int, None]], graph: Graph) -> dict[str, set[int]]:
    """The constructions that each theorem uses in all, by their numbers."""
    found: dict[str, set[int]] = {}
    for title in graph.applies:
        found[title] = set(own[title]).union(*(found.get(each, set()) for each in graph.applies[title]))
    return found


def verified() -> str:
    """The program that verified it: its name, version and sum."""
    own = hashlib.sha256(program.program().read_bytes()).hexdigest()
    return f"elements {program.version().split(' (')[0]}, sha256 {own}"


def where(site: Site, item: Item) -> str:
    """The file and the line of an item, the same wherever the library is."""
    file = next((file for file in reversed(site.library.files) if file.start <= item.first), None)
    if file is None:
        return f"line {item.first}"
    folder = file.path.parent
    named = f"{folder.name}/{file.path.name}" if any(folder == each for each, _ in site.library.titles) else file.path.name
    return f"{named}, line {item.first - file.start + 1}"


def script_text(name: str, data: object) -> str:
    """A script that is a value: what is fetched could not be read from the disk."""
    return f"var {name} = {json.dumps(data, separators=(',', ':'), ensure_ascii=True)}\n"
