"""A page for each rule and construction: what it says, a small figure, who uses it."""

from __future__ import annotations

import re
from collections.abc import Mapping, Sequence
from dataclasses import dataclass

from ..drawing.attempt import Scene
from ..drawing.course import Bare, Source
from ..drawing.figure import Figure
from ..drawing.letters import Letters
from ..drawing.search import find
from ..literals import Literal, Sort, spell_all
from ..rules import LETTERS, Construction, Rule, tables
from ..script import Block, Theorem
from ..statements import Known, Objects, Statement
from ..syntax import source_line
from .figures import MAKERS, Keeper, inline_svg, sum_of_code
from .movable import parts_shown
from .markup import count_of, esc, items, link, plain_words, table, tag, words_in
from .model import Site
from .notation import DRAWN, Notation, sentences
from .shell import construction_file, heading, page, rule_link, theorem_links

ROOT = "../"
STARTS = 60  # of the solver for a small figure
ARTICLE = "Avigad, Dean and Mumma, “A formal system for Euclid’s Elements” (2009)"
LETTER = Notation(Letters())


@dataclass(frozen=True)
class Law:
    """A rule, a construction or the superposition, as a page has it."""

    name: str
    file: str
    title: str
    words: str
    kind: str
    line: str  # as books have it
    given: tuple[Literal, ...]
    then: tuple[Literal, ...]
    variables: tuple[str, ...]
    new: tuple[str, ...] = ()
    axiom: str = ""
    is_any: bool = False  # whether one of the conclusions holds, and not all

    @property
    def sorts(self) -> dict[str, Sort]:
        """The sorts of its letters."""
        return {letter: LETTERS[letter] for letter in (*self.variables, *self.new)}


def laws() -> list[Law]:
    """All, in the order of docs/rules.md."""
    known = tables()
    found = [of_rule(rule) for rule in [*known.diagram.values(), *known.transfer.values()]]
    found += [of_construction(each) for each in known.constructions]
    if known.superposition is not None:
        shape = known.superposition
        letters = tuple(word for word in shape.pattern if len(word) == 1)
        found.append(Law("superposition", "superposition.html", "Superposition",
                         "A triangle is put onto a point, along a line, and on a side of it: Euclid’s way of laying one "
                         "figure on another. The copy is there in the block of the step alone.",
                         "superposition", shape.line, shape.needs, shape.gives, letters, shape.new))
    return found


def of_rule(rule: Rule) -> Law:
    """A rule."""
    kind = f"{'transfer rule' if rule.is_transfer else 'rule of diagrams'}, {rule.group}"
    line = "" if rule.is_transfer else f"by {rule.name} {' '.join(rule.variables)} : LIT"
    return Law(rule.name, f"{rule.name}.html", rule.name, rule.words, kind, line, rule.premises, rule.conclusions,
               rule.variables, axiom=rule.axiom, is_any=True)


def of_construction(shape: Construction) -> Law:
    """A construction."""
    return Law(f"construction-{shape.number}", construction_file(shape.number), f"Construction {shape.number}: {shape_words(shape)}",
               shape.words, "construction", shape.line, shape.needs, shape.gives, shape.arguments, shape.new)


def shape_words(shape: Construction) -> str:
    """The name of a construction in words."""
    return re.sub(r"(?<=[a-z])(?=[A-Z])", " ", shape.shape).lower()


# ---- figures


def statement_of(law: Law) -> Theorem:
    """The law as a theorem, to draw it."""
    def objects(letters: Sequence[str]) -> Objects:
        return [(letter, LETTERS[letter]) for letter in letters]

    shown = list(law.then[:1] if law.is_any else law.then)
    statement = Statement(law.name, objects(law.variables), list(law.given), objects(law.new), shown)
    head = source_line(1, f"theorem {law.name}")
    return Theorem(law.name, [head], head, statement, proof=Block())


def scene_of(law: Law) -> Scene | None:
    """A small figure in which the law holds, where one is found."""
    found, _ = find(Source(statement_of(law), Known()), Bare, starts=STARTS)
    return found if found is not None and not found.false else None


def figure_of(law: Law, keeper: Keeper) -> str:
    """The figure of a law, kept or drawn."""
    path = keeper.path("rules", sum_of_code(MAKERS), law.name, spell_all(law.given), spell_all(law.then), " ".join(law.sorts))
    text = keeper.get(path)
    if text is None:
        scene = scene_of(law)
        text = whole_svg(Figure(scene)) if scene is not None and scene.values else "-"
        text = text.encode("ascii", "xmlcharrefreplace").decode()
        keeper.put(path, text)
    return "" if text == "-" else text


def whole_svg(figure: Figure) -> str:
    """The whole figure alone."""
    return inline_svg(figure, parts_shown(figure, []))


# ---- pages


def rule_page(site: Site, law: Law, svg: str) -> str:
    """The page of a law."""
    said = clause(law)
    figure = ""
    if svg:
        label = f"Figure: {plain_words(law.words)}"
        figure = f'<figure>{svg.replace("<svg ", f"<svg aria-label={chr(34)}{esc(label)}{chr(34)} ", 1)}</figure>'
    axiom = "" if not law.axiom else f"<p>{esc(axiom_words(law.axiom))}</p>"
    formal = f"<p>A line of a book: <code>{esc(law.line)}</code></p>" if law.line else \
        "<p>No line cites it: the program finds it, and its certificates say at which objects.</p>"
    text = (f'<p class="crumbs">{link(f"{ROOT}rules.html", "Rules")}</p>{heading(law.title, law.words)}'
            f'<p class="verdict"><span>{esc(law.kind)}</span></p>'
            f'<div class="rule"><div><div class="clause">{said}</div>{formal_clause(law)}{formal}{axiom}</div>{figure}</div>'
            f"{users(site, law)}")
    return page(site, law.title, text, ROOT, about=law.words)


def axiom_words(axiom: str) -> str:
    """Which axiom of the article it stands for."""
    if axiom.lower().startswith("none"):
        return f"No axiom of {ARTICLE} is known that it stands for."
    return f"{axiom} in {ARTICLE}."


def clause(law: Law) -> str:
    """What it needs and what follows, in the notation of geometry."""
    given = sentences(LETTER, law.given, law.sorts)
    then = [LETTER.literal(each, law.sorts) for each in law.then]
    if law.kind == "construction":
        number = int(law.name.split("-")[1])
        names = {letter: LETTER.name(letter, sort) for letter, sort in law.sorts.items()}
        front = f"<p>Let {esc(DRAWN[number].format(**names))}.</p>"
        needs = f"<p>It needs</p><ul>{items(map(esc, given))}</ul>" if given else "<p>It needs nothing.</p>"
        gives = f"<p>It gives</p><ul>{items(map(esc, then))}</ul>" if then else "<p>It gives no fact.</p>"
        return front + needs + gives
    if law.is_any:
        joined = f"<ul>{items(map(esc, then))}</ul>" if len(then) < 2 else \
            f"<p>at least one of</p><ul>{items(map(esc, then))}</ul>"
        return f"<p>If</p><ul>{items(map(esc, given))}</ul><p>then</p>{joined if then else '<p>there is a contradiction.</p>'}"
    return f"<p>It needs</p><ul>{items(map(esc, given))}</ul><p>and gives, in its block,</p><ul>{items(map(esc, then))}</ul>"


def formal_clause(law: Law) -> str:
    """The same as books spell it."""
    lines = [f"variables  {' '.join(law.variables)}"] if law.is_any else []
    lines += [("if    " if law.is_any else "needs ") + spell_all(law.given)] if law.given else []
    lines += [("then  " if law.is_any else "gives ") + (" or " if law.is_any else " ; ").join(
        spell_all([each]) for each in law.then)] if law.then else []
    return f'<details class="formal"><summary>As books spell it</summary><pre>{esc(chr(10).join(lines))}</pre></details>'


def users(site: Site, law: Law) -> str:
    """Which theorems use it, and how many rest on it."""
    own, below = uses(site, law)
    if not below:
        return "<h2>Who uses it</h2><p>no theorem here</p>"
    proofs, rest = count_of(len(own), "proof"), "rests" if len(below) == 1 else "rest"
    return (f'<h2>Who uses it</h2><p class="many"><span class="count">in {proofs}</span> {theorem_links(site, own, ROOT)}</p>'
            f'<p class="many"><span class="count">{len(below)} {rest} on it in all</span> {theorem_links(site, below, ROOT)}</p>')


def uses(site: Site, law: Law) -> tuple[list[str], list[str]]:
    """The theorems whose own steps use it, and all that rest on it."""
    graph = site.graph
    if law.kind == "construction":
        number = int(law.name.split("-")[1])
        own = [title for title in graph.applies if number in own_shapes(site, title)]
        return own, [title for title in graph.applies if number in site.shapes.get(title, ())]
    name = "superpose" if law.kind == "superposition" else law.name
    return [title for title, rules in graph.uses.items() if name in rules], graph.resting_on(name)


def own_shapes(site: Site, title: str) -> Mapping[int, None]:
    """The constructions that a theorem's own steps use."""
    return site.own_shapes.get(title, {})


def rules_page(site: Site) -> str:
    """All rules and constructions, in groups."""
    known = site.tables
    parts = [heading("Rules", "Every step is licensed by one of these: a rule of diagrams that it cites, a rule that carries "
                     "facts between diagrams and magnitudes, a construction, or the superposition.")]
    groups: dict[str, list[Rule]] = {}
    for rule in [*known.diagram.values(), *known.transfer.values()]:
        groups.setdefault(("Transfer: " if rule.is_transfer else "") + rule.group, []).append(rule)
    for name, rules in groups.items():
        rows = [[rule_link(site, rule.name), words_in(rule.words), str(len(site.graph.resting_on(rule.name)))] for rule in rules]
        parts.append(tag("h2", esc(name)) + table(("Rule", "In words", "Theorems that rest on it"), rows, class_="plain"))
    rows = [[link(f"rule/{construction_file(each.number)}", f"{each.number}"), f"<code>{esc(each.line)}</code>",
             words_in(each.words), str(sum(each.number in shapes for shapes in site.shapes.values()))]
            for each in known.constructions]
    parts.append(tag("h2", "Constructions") + table(("No.", "Line", "In words", "Theorems that rest on it"), rows, class_="plain"))
    count = len(site.graph.resting_on("superpose"))
    parts.append(tag("h2", "Superposition") + f"<p>{rule_link(site, 'superpose')}: a triangle laid on another place; "
                 f"{count} theorems rest on it.</p>")
    return page(site, "Rules", "".join(parts), current="rules.html", about="All rules and constructions of System E")
