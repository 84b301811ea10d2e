"""Contents, definitions, which theorems need what, and what the search looks at."""

from __future__ import annotations

from dataclasses import dataclass

from ..literals import Sort
from ..script import Definition
from .markup import count_of, esc, items, plain_words, sentence, table, tag
from .model import Entry, Site, script_text, where
from .notation import Notation, letters_of, sentences
from .rows import start_sorts
from .rule_pages import laws
from .shell import heading, page, theorem_link, theorem_links

NARROW = "auxiliary"  # a comment that begins so is of a theorem that others need


def contents(site: Site) -> str:
    """The page that one comes to first."""
    accepted = sum(entry.is_accepted for entry in site.order())
    steps = sum(len(entry.theorem.steps()) for entry in site.order())
    lead = f"{accepted} of {len(site.entries)} theorems are accepted, with {steps:,} steps in all. Each step is licensed by a " \
           "rule, a construction, an earlier theorem or arithmetic, and its page says by which."
    if accepted == len(site.entries):
        lead = f"{accepted} theorems with {steps:,} steps, all accepted. Each step is licensed by a rule, a construction, an " \
               "earlier theorem or arithmetic, and its page says by which."
    parts = [heading(site.title, lead)]
    if len(site.groups) > 1:
        parts.append(f"<p>{' · '.join(f'<a href={chr(34)}#book-{at}{chr(34)}>{esc(group.title)}</a>' for at, group in enumerate(site.groups, 1))}</p>")
    for number, group in enumerate(site.groups, 1):
        parts.append(f'<h2 id="book-{number}">{esc(group.title)}</h2>')
        if group.entries:
            parts.append(f'<ul class="book">{"".join(map(item_of, group.entries))}</ul>')
        if group.definitions:
            links = " ".join(f'<a href="definitions.html#{esc(each.title)}">{esc(each.title)}</a>' for each in group.definitions)
            parts.append(f'<p class="many"><span class="count">definitions</span> {links}</p>')
    return page(site, site.title, "".join(parts), current="index.html", about=lead)


def item_of(entry: Entry) -> str:
    """A theorem in the contents."""
    words = ["aux"] if entry.comment.lower().startswith(NARROW) else []
    words += [] if entry.is_accepted else ["no"]
    refused = "" if entry.is_accepted else " (not accepted)"
    return tag("li", f'<a href="theorem/{esc(entry.file)}">{esc(entry.title)}</a> <span>{esc(sentence(entry.comment))}{refused}</span>',
               class_=" ".join(words))


# ---- definitions


def definitions_page(site: Site) -> str:
    """All definitions, each with what it says and who speaks of it."""
    parts = [heading("Definitions", "A definition is a short way to write some literals; where a book says `as`, they are meant.")]
    for definition in site.definitions:
        parts.append(definition_text(site, definition))
    if not site.definitions:
        parts.append("<p>There are none here.</p>")
    return page(site, "Definitions", "".join(parts), current="definitions.html")


def definition_text(site: Site, definition: Definition) -> str:
    """One definition."""
    statement = definition.statement
    sorts: dict[str, Sort] = dict(statement.declared)
    notation = Notation(letters_of(sorts))
    users = [entry.title for entry in site.order() if speaks_of(entry, definition.title)]
    lines = "\n".join(line.text for line in definition.lines if line.number >= definition.first and line.text.strip())
    said = items(map(esc, sentences(notation, statement.shown, sorts)))
    count = count_of(len(users), "theorem")
    who = f'<p class="many"><span class="count">{count} with it</span> {theorem_links(site, users)}</p>' if users else ""
    return (f'<section id="{esc(definition.title)}"><h2>{esc(definition.title)}</h2>'
            f'<p>{esc(sentence(definition.comment))}</p><ul>{said}</ul>'
            f'<details class="formal"><summary>As the book has it</summary><pre>{esc(lines)}</pre></details>{who}'
            f'<p class="verdict"><span>{esc(where(site, definition))}</span></p></section>')


def speaks_of(entry: Entry, title: str) -> bool:
    """Whether a theorem uses a definition."""
    return any(first == "as" and second == title for line in entry.theorem.lines
               for first, second in zip(line.words, line.words[1:]))


# ---- who needs what


@dataclass(frozen=True)
class Need:
    """What a theorem may need: rules, groups of rules, or constructions."""

    name: str
    rules: frozenset[str] = frozenset()
    groups: tuple[str, ...] = ()
    shapes: frozenset[int] = frozenset()
    about: str = ""


NEEDS = (
    Need("parallel postulate", frozenset({"da5a", "da5b"}), about="two lines meet where the inner angles are less than two right ones"),
    Need("super\u00adposition", frozenset({"superpose"}), about="a triangle laid on another place"),
    Need("circles", shapes=frozenset({11}), about="a circle is drawn"),
    Need("circle meets line", shapes=frozenset({13, 14, 15, 16}), about="a point where a line crosses a circle"),
    Need("circle meets circle", shapes=frozenset({17, 18, 19, 20}), about="a point where two circles cross"),
    Need("Pasch", groups=("Pasch axioms",), about="order of points and sides of lines"),
    Need("angles", groups=("Diagrams and angles",), about="angles added and compared"),
    Need("areas", groups=("Diagrams and areas", "Congruent triangles"), about="areas added and compared"),
)


def rules_of(site: Site, need: Need) -> frozenset[str]:
    """The rules that are meant."""
    known = site.tables
    groups = {rule.name for rule in [*known.diagram.values(), *known.transfer.values()] if rule.group in need.groups}
    return need.rules | groups


def has_need(site: Site, title: str, need: Need) -> bool:
    """Whether a theorem rests on it."""
    return bool(rules_of(site, need) & set(site.graph.rules.get(title, ()))) or bool(need.shapes & site.shapes.get(title, set()))


def needs_page(site: Site) -> str:
    """Which theorems rest on what."""
    parts = [heading("What needs what", "What the proofs that are here rest on, in all: their own steps and those of all theorems "
                     "that they apply. Other proofs may need less.")]
    explained = "".join(f"<li><b>{esc(need.name)}</b>: {esc(need.about)}</li>" for need in NEEDS)
    parts.append(f"<ul>{explained}</ul>")
    for group in site.groups:
        rows = [[theorem_link(site, entry.title),
                 *('<span role="img" aria-label="yes">●</span>' if has_need(site, entry.title, need) else ""
                   for need in NEEDS)] for entry in group.entries if entry.title in site.graph.applies]
        if rows:
            head = ("Theorem", *(esc(need.name) for need in NEEDS))
            parts.append(tag("h2", esc(group.title)) + f'<div class="wide">{table(head, rows, class_="needs")}</div>')
    return page(site, "What needs what", "".join(parts), current="needs.html")


# ---- search


def search_script(site: Site) -> str:
    """What the search looks at: titles, files, words, and what is shown."""
    rows: list[list[str]] = []
    for entry in site.order():
        sorts = start_sorts(entry.theorem)
        notation = Notation(letters_of(sorts))
        shown = "; ".join(notation.literal(each, sorts) for each in entry.theorem.statement.shown)
        rows.append([entry.title, f"theorem/{entry.file}", entry.comment, shown])
    for definition in site.definitions:
        rows.append([definition.title, f"definitions.html#{definition.title}", f"definition: {definition.comment}", ""])
    for law in laws():
        rows.append([law.title, f"rule/{law.file}", plain_words(law.words), ""])
    return script_text("SEARCH", rows)
