"""The proof as a table: number, line, by what it is licensed, and the steps that it follows from."""

from __future__ import annotations

from collections.abc import Mapping, Sequence

from ..contexts import Origin
from ..derivation import Arithmetic, Certificate, Fact, Transfer
from ..literals import Key, Literal, Sort, key, negation
from ..script import Apply, By, Cases, Claim, Contradiction, Hence, Let, Qed, Superpose
from .certificates import Certificates
from .markup import esc, link, plain_words
from .model import Entry, Site
from .notation import Notation, sentences
from .rows import Premise, Proof, Row
from .rule_pages import shape_words
from .statement import Said
from .shell import construction_file, rule_link, theorem_link

ROOT = "../"
DEEPEST = 8  # blocks that are indented
MOST_SAID = 6  # literals of one step that are said in its cell


class ProofTable:
    """The table of one proof."""

    def __init__(self, site: Site, entry: Entry, proof: Proof, notation: Notation, folded: frozenset[int],
                 given: Sequence[Said], brief: int = 0) -> None:
        """Where it is brief, premises have no words for who points at them; where it is very brief, there are no
        certificates."""
        self.brief = brief
        self.site, self.entry, self.proof, self.notation, self.folded = site, entry, proof, notation, folded
        self.given: dict[Key, str] = {}
        for number, said in enumerate(given, 1):
            for literal in said.literals:
                self.given.setdefault(key(literal), f"g{number}")

    def text(self) -> str:
        """The section."""
        count = len(self.proof.theorem.steps())
        own = count - sum(row.step.line.number in self.folded and not row.is_else for row in self.proof.rows)
        choices = [("all", f"all {count}"), ("drawn", "drawn or compared")]
        if self.folded:
            choices.append(("euclid", f"Euclid’s length, {own}"))
        radios = "".join(
            f'<label><input type="radio" name="steps" value="{value}"{" checked" if value == "all" else ""}>{esc(words)}</label>'
            for value, words in choices)
        rows = "".join(self.row(row) for row in self.proof.rows)
        head = "".join(f'<th scope="col">{word}</th>' for word in ("No.", "Step", "By what", "From"))
        return (f'<section id="proof"><h2>Proof</h2><fieldset class="choice" hidden><legend>Steps</legend>{radios}</fieldset>'
                f'<p class="keys" hidden>Point at a step, or go with <kbd>→</kbd> and <kbd>←</kbd>: the figure follows. '
                f'Drag a point, or choose one with <kbd>Tab</kbd> and move it with the arrows.</p>'
                f'<table class="steps"><thead><tr>{head}</tr></thead><tbody>{rows}</tbody></table></section>')

    def row(self, row: Row) -> str:
        """One row."""
        step, depth = row.step, min(row.depth, DEEPEST)
        classes = [f"d{depth}"] if depth else []
        classes += ["fold"] if step.line.number in self.folded else []
        classes += ["quiet"] if row.is_quiet else []
        refused = self.entry.refused_at
        classes += ["after"] if refused and step.number > refused else []
        if row.is_else:
            said = f"Otherwise: {esc(self.said(negation(self.literal_of(step)), row.sorts))}"
            return (f'<tr id="e{step.number}" class="{" ".join([*classes, "opens"])}"><th scope="row"></th>'
                    f'<td><div>{said}</div><code>else</code></td><td>the other case of {self.step_link(step.number)}</td>'
                    "<td></td></tr>")
        classes += ["opens"] if step.blocks() else []
        classes += ["closes"] if isinstance(step, (Qed, Contradiction)) else []
        classes += ["bad"] if refused and step.number == refused else []
        words = f' class="{" ".join(classes)}"' if classes else ""
        return (f'<tr id="s{step.number}"{words}><th scope="row"><a href="#s{step.number}">{step.number}</a></th>'
                f"<td><div>{self.says(row)}</div><code>{esc(' '.join(step.line.words))}</code>{self.details(row)}</td>"
                f"<td>{self.by_what(row)}</td><td>{self.premises(row)}</td></tr>\n")

    def literal_of(self, step: object) -> Literal:
        """The literal of a step `cases`."""
        assert isinstance(step, Cases)
        return step.literal

    def step_link(self, number: int) -> str:
        """A link to a step."""
        return f'<a href="#s{number}">{number}</a>'

    def said(self, literal: Literal, sorts: Mapping[str, Sort]) -> str:
        """A literal."""
        return self.notation.literal(literal, sorts)

    def all_said(self, literals: list[Literal], sorts: Mapping[str, Sort]) -> str:
        """Literals, one after the other."""
        found = sentences(self.notation, literals, sorts)
        more = f" and {len(found) - MOST_SAID} more" if len(found) > MOST_SAID else ""
        return esc("; ".join(found[:MOST_SAID]) + more)

    # What a step says

    def says(self, row: Row) -> str:
        """What a step says."""
        step, sorts = row.step, row.sorts
        if isinstance(step, (By, Hence)):
            return esc(self.said(step.literal, sorts))
        if isinstance(step, Let):
            drawn = self.notation.drawn(step.construction, step.letters, sorts)
            avoided = ", ".join(self.notation.name(name, sort) for name, sort in step.avoided)
            return esc(f"Let {drawn}" + (f", off {avoided}" if avoided else ""))
        if isinstance(step, Apply):
            return self.applied(step, row)
        if isinstance(step, Claim):
            return f"Claim: {self.all_said(step.literals, sorts)}"
        if isinstance(step, Superpose):
            return esc(self.superposed(step, sorts)) + f", to show: {self.all_said(step.literals, sorts)}"
        if isinstance(step, Cases):
            return f"Case: {esc(self.said(step.literal, sorts))}"
        if isinstance(step, Contradiction):
            return "Contradiction"
        return f"Shown: {self.all_said(row.needs, sorts)}" if row.needs else "Shown"

    def applied(self, step: Apply, row: Row) -> str:
        """What a theorem gives."""
        new = ", ".join(self.notation.name(name, sort) for name, sort in step.new)
        front = f"Let {esc(new)} be drawn: " if new else ""
        return front + (self.all_said(row.gives, row.sorts) or "what it shows")

    def superposed(self, step: Superpose, sorts: Mapping[str, Sort]) -> str:
        """Which triangle is laid where."""
        names = {letter: self.notation.name(name, sorts.get(name)) for letter, name in step.letters.items()}
        return "Triangle {a}{b}{c} is laid on {d}, along {L}: a copy {d}{p}{q}".format(**names)

    # By what

    def by_what(self, row: Row) -> str:
        """What licenses a step."""
        step = row.step
        if self.entry.refused_at and step.number >= self.entry.refused_at:
            return "<b>refused</b>" if step.number == self.entry.refused_at else "not checked"
        if isinstance(step, By):
            return f"{rule_link(self.site, step.rule, ROOT)} <small>{esc(' '.join(step.names))}</small>"
        if isinstance(step, Let):
            shape = step.construction
            return link(f"{ROOT}rule/{construction_file(shape.number)}", esc(f"construction {shape.number}, {shape_words(shape)}"),
                        title=plain_words(shape.words))
        if isinstance(step, Apply):
            arguments = self.proof.filled.get(step.number, step.arguments)
            return f"{theorem_link(self.site, step.title, ROOT)} <small>{esc(' '.join(arguments))}</small>"
        if isinstance(step, Superpose):
            return rule_link(self.site, "superpose", ROOT)
        if isinstance(step, (Claim, Cases)):
            return "the block below" if isinstance(step, Claim) else "both cases below"
        return self.ways(row)

    def ways(self, row: Row) -> str:
        """By what what is needed is allowed, each once."""
        found: dict[str, None] = {}
        for reason in row.reasons:
            found[self.way(reason.certificate)] = None
        if len(found) > 1:
            found.pop("facts", None)
        return ", ".join(found)

    def way(self, certificate: Certificate) -> str:
        """By what a literal is allowed."""
        if isinstance(certificate, Transfer):
            return rule_link(self.site, certificate.rule, ROOT)
        if isinstance(certificate, Arithmetic):
            return "arithmetic"
        return "facts"

    def details(self, row: Row) -> str:
        """The certificates, on demand; those that are facts alone say nothing more than the premises."""
        reasons = [reason for reason in row.reasons if not isinstance(reason.certificate, Fact)]
        if not reasons or self.brief > 1:
            return ""
        origins = {premise.literal: premise.origin for premise in row.premises}

        def named(literal: Literal) -> str:
            origin = origins.get(literal)
            return esc(self.said(literal, row.sorts)) + (f" ({self.origin_link(origin, literal)})" if origin else "")

        certificates = Certificates(self.notation, row.sorts, named, f"{ROOT}rule/")
        texts = "".join(certificates.reason(reason) for reason in reasons)
        return f"<details><summary>certificate</summary><div>{texts}</div></details>"

    # From what

    def premises(self, row: Row) -> str:
        """Links to the steps that a step follows from."""
        found: dict[str, list[Premise]] = {}
        order = sorted(row.premises, key=lambda premise: premise.origin.line)
        for premise in order:
            found.setdefault(self.origin_word(premise.origin), []).append(premise)
        return " ".join(self.premise_link(word, premises, row) for word, premises in found.items())

    def premise_link(self, word: str, premises: list[Premise], row: Row) -> str:
        """A link to a step, or to what of the given is used."""
        targets = list(dict.fromkeys(self.target(premise.origin, premise.literal) for premise in premises))
        title = "" if self.brief else "; ".join(self.said(premise.literal, row.sorts) for premise in premises)
        every = " ".join(target[1:] for target in targets) if len(targets) > 1 else ""
        return link(targets[0], esc(word), title=title, data_all=every)

    def target(self, origin: Origin, literal: Literal) -> str:
        """Where a fact comes from."""
        if origin.kind in ("given", "declared"):
            return f"#{self.given.get(key(literal), 'given')}"
        return f"#e{origin.step}" if origin.kind == "else" else f"#s{origin.step}"

    def origin_word(self, origin: Origin) -> str:
        """A short word for where a fact comes from."""
        return "given" if origin.kind in ("given", "declared") else \
            f"else {origin.step}" if origin.kind == "else" else str(origin.step)

    def origin_link(self, origin: Origin, literal: Literal) -> str:
        """A link to where a fact comes from."""
        return link(self.target(origin, literal), esc(self.origin_word(origin)))
