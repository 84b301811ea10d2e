"""The page of a theorem: what it says, its figure, every step with what licenses it, what it rests on."""

from __future__ import annotations

import json
import re

from ..drawing.letters import Letters, lines_in
from ..literals import POINT, Sort
from ..script import Theorem
from .figures import Drawn
from .markup import count_of, esc, items, link, sentence, words_in
from .model import Entry, Site, where
from .notation import Notation, sentences
from .proof_table import ProofTable
from .rows import Proof, proof_of, start_sorts
from .statement import said_in
from .shell import page, rule_link, theorem_link, theorem_links

ROOT = "../"
MOST_BYTES = 300_000  # of a page


class TheoremPage:
    """One page."""

    def __init__(self, site: Site, entry: Entry, figures: Drawn, folded: frozenset[int] = frozenset()) -> None:
        self.site, self.entry, self.figures, self.folded = site, entry, figures, folded
        self.theorem: Theorem = entry.theorem
        self.brief = 0
        self.proof: Proof = proof_of(entry.theorem, entry.known, entry.part)
        self.sorts = start_sorts(entry.theorem)
        self.notation = Notation(Letters.of(self.all_points(), lines_in(entry.theorem)))
        self.given = said_in(entry.theorem, entry.known, self.notation, self.sorts, "given", ROOT)

    def all_points(self) -> list[str]:
        """All points of the theorem, so that letters are the same in the figure."""
        found = [name for name, sort in self.sorts.items() if sort == POINT]
        for row in self.proof.rows:
            found += [name for name, sort in row.sorts.items() if sort == POINT]
        return list(dict.fromkeys(found))

    def text(self) -> str:
        """The page; what is long is left out where it would be too large."""
        for self.brief in range(3):
            found = self.whole()
            if len(found.encode("utf-8")) <= MOST_BYTES:
                break
        return found

    def whole(self) -> str:
        """The page as it is."""
        entry = self.entry
        body = "\n".join([
            self.head(), '<div class="split">', self.statement(), f'<div class="side">{self.figure()}</div>',
            f'<div class="text">{self.refusal()}', self.steps(), self.rests(), "</div>", "</div>",
            self.neighbours("foot"), self.data()])
        return page(self.site, entry.title, body, ROOT, about=f"{entry.title}: {entry.comment}")

    def head(self) -> str:
        """Title, comment, neighbours."""
        entry, group = self.entry, self.site.groups[self.entry.group]
        crumbs = link(f"{ROOT}index.html#book-{entry.group + 1}", esc(group.title))
        return (f'{self.neighbours("head")}<p class="crumbs">{crumbs}</p><h1>{esc(entry.title)}</h1>'
                f'<p class="lead">{esc(sentence(entry.comment))}</p>{self.verdict()}')

    def verdict(self) -> str:
        """What `elements` said of it."""
        entry, count = self.entry, len(self.theorem.steps())
        source = f"{esc(where(self.site, self.theorem))}"
        if entry.is_accepted:
            steps = f"{count} step" + "s" * (count != 1)
            return f'<p class="verdict ok">Accepted: {steps}, each licensed. <span>{source}</span></p>{self.summary()}'
        if entry.diagnosis is not None:
            to = f"#s{entry.refused_at}" if entry.refused_at else "#refused"
            what = f"Refused at step {entry.refused_at}" if entry.refused_at else "Faulty"
            return f'<p class="verdict no">{link(to, what)}. <span>{source}</span></p>'
        on = theorem_link(self.site, entry.outcome.on, ROOT)
        return f'<p class="verdict no">Not checked: it rests on {on}. <span>{source}</span></p>'

    def summary(self) -> str:
        """What it rests on, in numbers."""
        title, graph = self.entry.title, self.site.graph
        if title not in graph.applies:
            return ""
        theorems, rules = count_of(len(graph.below[title]), "theorem"), count_of(len(graph.rules[title]), "rule")
        above = len(graph.above[title])
        words = f"rests on {theorems} and {rules}; {above} {'rests' if above == 1 else 'rest'} on it"
        return f'<p class="verdict"><a href="#rests">It {words}</a></p>'

    def neighbours(self, place: str) -> str:
        """The theorems before and after it."""
        order = self.site.order()
        at = order.index(self.entry)
        before = order[at - 1] if at else None
        after = order[at + 1] if at + 1 < len(order) else None
        found = []
        for each, word, rel in ((before, "←", "prev"), (after, "→", "next")):
            if each is not None:
                text = f"{word} {each.title}" if rel == "prev" else f"{each.title} {word}"
                found.append(link(f"{each.file}", esc(text), rel=rel, title=each.comment))
        label = "Before and next" if place == "head" else "Before and next, again"
        return f'<nav class="near {place}" aria-label="{label}">{"".join(found)}</nav>'

    # The statement

    def statement(self) -> str:
        """What it says, in the notation of geometry and as the book has it."""
        statement = self.theorem.statement
        parts = []
        declared = self.declared(statement.declared)
        if declared:
            parts.append(f"<dt>Let there be</dt><dd>{declared}</dd>")
        if self.given:
            given = "".join(f'<li id="g{number}">{said.text}</li>' for number, said in enumerate(self.given, 1))
            parts.append(f'<dt id="given">Given</dt><dd><ul>{given}</ul></dd>')
        if statement.made:
            parts.append(f"<dt>There can be drawn</dt><dd>{self.declared(statement.made)}</dd>")
        word = "such that" if statement.made else "Then"
        shown = said_in(self.theorem, self.entry.known, self.notation, self.sorts, "show", ROOT)
        parts.append(f"<dt>{word}</dt><dd><ul>{items(said.text for said in shown)}</ul></dd>")
        formal = "\n".join(line.text.strip() for line in self.theorem.lines
                           if line.number >= self.theorem.first and not line.is_comment() and line.text.strip()
                           and (self.theorem.proof_line is None or line.number < self.theorem.proof_line.number))
        return (f'<section id="statement" tabindex="-1"><h2>What it says</h2><dl>{"".join(parts)}</dl>'
                f'<details class="formal"><summary>As the book has it</summary><pre>{self.with_definitions(esc(formal))}</pre></details></section>')

    def with_definitions(self, text: str) -> str:
        """The lines of a book with links to the definitions that they use."""
        def linked(found: re.Match[str]) -> str:
            title = found[1]
            return f"as {link(f'{ROOT}definitions.html#{title}', title)}" if title in self.entry.known.definitions else found[0]

        return re.sub(r"\bas ([A-Za-z][A-Za-z0-9._-]*)", linked, text)

    def declared(self, objects: list[tuple[str, Sort]]) -> str:
        """Objects by their sorts."""
        found = []
        for sort in Sort:
            names = [self.notation.name(name, each) for name, each in objects if each == sort]
            if names:
                word = sort.value if len(names) == 1 else sort.plural
                found.append(f"{word} {', '.join(names)}")
        return esc("; ".join(found))

    # The figure

    def figure(self) -> str:
        """Its figures, of which one is shown; what is under them is for the script."""
        if not self.figures.chapters:
            return '<figure id="figure"><figcaption>No figure was found.</figcaption></figure>'
        found = []
        for number, chapter in enumerate(self.figures.chapters):
            label = f"Figure of {self.entry.title}. {chapter.title or self.alternative()}"
            svg = chapter.svg.replace("<svg ", f'<svg aria-label="{esc(label)}" ', 1)
            hidden = " hidden" if number else ""
            said = f'<p class="chapter">{esc(chapter.title)}</p>' if chapter.title else ""
            false = f'<p class="false">Here these do not hold: {esc("; ".join(chapter.false[:6]))}' \
                    f'{" .." if len(chapter.false) > 6 else ""}.</p>' if chapter.false else ""
            found.append(f'<div class="chapter-{number}" data-chapter="{number}"{hidden}>{svg}{said}{false}</div>')
        buttons = ('<div class="buttons" hidden><button type="button" id="back" aria-label="Step before" title="Step before (left arrow)">←<span> step</span></button>'
                   '<button type="button" id="forth" aria-label="Next step" title="Next step (right arrow)"><span>step </span>→</button>'
                   '<button type="button" id="whole" title="The whole figure (Escape)">whole<span> figure</span></button>'
                   '<button type="button" id="other" title="Another figure of the same theorem">another<span> figure</span></button></div>')
        return (f'<figure id="figure"><div class="paper">{"".join(found)}</div>'
                f'<figcaption id="caption" aria-live="polite"></figcaption>{buttons}</figure>')

    def alternative(self) -> str:
        """What is given and shown, for who does not see the figure."""
        statement = self.theorem.statement
        given = "; ".join(sentences(self.notation, statement.given, self.sorts))
        shown = "; ".join(sentences(self.notation, statement.shown, self.sorts))
        return (f"Given: {given}. " if given else "") + f"Shown: {shown}."

    # The proof

    def refusal(self) -> str:
        """What `euclid check` answers."""
        diagnosis = self.entry.diagnosis
        if diagnosis is None:
            return ""
        details = "\n".join(diagnosis.details(self.site.library))
        return (f'<section id="refused" class="refused"><h2>Why it is not accepted</h2><p>{words_in(diagnosis.message)}</p>'
                f"<pre>{esc(details)}</pre></section>")

    def steps(self) -> str:
        """The proof as a table."""
        table = ProofTable(self.site, self.entry, self.proof, self.notation, self.folded, self.given, self.brief)
        left_out = f"<p>The certificates are left out here, since the page would be too large: " \
                   f"<code>euclid why {esc(self.entry.title)}</code> has them.</p>" if self.brief > 1 else ""
        return left_out + table.text()

    # What it rests on

    def rests(self) -> str:
        """What it rests on and what rests on it, and the rules that it needs in all."""
        title, graph = self.entry.title, self.site.graph
        if title not in graph.applies:
            return ""
        below, above = graph.below[title], graph.above[title]
        direct, users = graph.applies[title], graph.applied_by[title]
        rules = graph.rules[title]
        parts = [
            self.lists("It rests on", direct, below, "directly", "in all"),
            self.lists("Rests on it", users, above, "directly", "in all"),
            f"<h3>Rules that it needs in all</h3><p class=\"many\">"
            f"{' '.join(rule_link(self.site, rule, ROOT) for rule in rules) or 'none'}</p>"]
        return f'<section id="rests"><h2>What it rests on</h2>{"".join(parts)}</section>'

    def lists(self, head: str, near: list[str], all_of_them: list[str], near_word: str, all_word: str) -> str:
        """Theorems, those near and all."""
        if not all_of_them:
            return f"<h3>{head}</h3><p>no theorem</p>"
        anchor = "rests-on" if head == "It rests on" else "rests-on-it"
        return (f'<h3 id="{anchor}">{head}</h3><p class="many"><span class="count">{near_word} {len(near)}</span> '
                f"{theorem_links(self.site, near, ROOT)}</p>"
                f'<p class="many"><span class="count">{all_word} {len(all_of_them)}</span> '
                f"{theorem_links(self.site, all_of_them, ROOT)}</p>")

    def data(self) -> str:
        """What the script needs: figures, and which step has which."""
        steps = {str(step): list(places) for step, places in self.figures.steps.items()}
        data = {"steps": steps, "chapters": [chapter.data for chapter in self.figures.chapters]}
        text = json.dumps(data, separators=(",", ":"), ensure_ascii=True).replace("</", "<\\/")
        return f'<script type="application/json" id="data">{text}</script>'
