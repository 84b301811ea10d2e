"""Certificates as readers have them: the rule of a transfer with its premises, a sum as a table."""

from __future__ import annotations

from collections.abc import Callable, Mapping

from ..derivation import Arithmetic, Certificate, Clash, Fact, Reason, Row, Transfer
from ..literals import Literal, Metric, Sort, negation
from ..rules import tables
from .markup import esc, link, tag, words_in
from .notation import Notation

Named = Callable[[Literal], str]  # a literal with a link to where it comes from


class Certificates:
    """The certificates of one step."""

    def __init__(self, notation: Notation, sorts: Mapping[str, Sort], named: Named, rules: str) -> None:
        self.notation, self.sorts, self.named = notation, sorts, named
        self.rules = rules  # the folder of the rules' pages

    def said(self, literal: Literal) -> str:
        """A literal."""
        return esc(self.notation.literal(literal, self.sorts))

    def reason(self, reason: Reason) -> str:
        """Why a literal is allowed."""
        what = self.said(reason.literal) if reason.literal is not None else "the contradiction"
        return f"<p><b>{what}</b> {self.certificate(reason.certificate, reason.literal)}</p>" if \
            self.is_short(reason.certificate) else f"<p><b>{what}</b></p>{self.certificate(reason.certificate, reason.literal)}"

    def is_short(self, certificate: Certificate) -> bool:
        """Whether it is said in a line."""
        return isinstance(certificate, (Fact, Clash))

    def certificate(self, certificate: Certificate, wanted: Literal | None) -> str:
        """A certificate."""
        if isinstance(certificate, Fact):
            return f"is a fact: {self.named(certificate.literal)}"
        if isinstance(certificate, Clash):
            other = negation(certificate.literal)
            return f"both are facts: {self.named(certificate.literal)} and {self.named(other)}"
        if isinstance(certificate, Transfer):
            return self.transfer(certificate)
        return self.arithmetic(certificate, wanted)

    def transfer(self, certificate: Transfer) -> str:
        """An instance of a transfer rule, with its premises."""
        rule = tables().transfer[certificate.rule]
        names = ", ".join(self.notation.name(name, sort) for name, sort in zip(certificate.names, rule.sorts))
        parts = "".join(f"<li>{self.part(part)}</li>" for part in certificate.parts)
        return (f"<p>by {link(f'{self.rules}{rule.name}.html', rule.name)}: {words_in(rule.words)} "
                f"At {esc(names)}:</p><ul>{parts}</ul>")

    def part(self, reason: Reason) -> str:
        """A premise of a transfer."""
        said = self.said(reason.literal) if reason.literal is not None else ""
        if isinstance(reason.certificate, Fact):
            return self.named(reason.certificate.literal)
        return f"{said} {self.certificate(reason.certificate, reason.literal)}"

    def arithmetic(self, certificate: Arithmetic, wanted: Literal | None) -> str:
        """Sums that come to nothing, as tables."""
        intro = "<p>by arithmetic. "
        if certificate.differs is not None:
            about = "what is to be shown" if certificate.of_goal else "that"
            intro += f"One of two is less, since {self.said(certificate.differs)}; each way the sum is impossible. " \
                if not certificate.of_goal else f"Were {about} false, one of two would be less; each way the sum is impossible. "
        elif any(row.word == "goal" for row in certificate.sums[0]):
            intro += "Were it false, these would add up to 0 &gt; 0. "
        else:
            intro += "These add up to 0 &gt; 0. "
        return intro + "</p>" + "".join(self.sum(rows, wanted, certificate.differs) for rows in certificate.sums)

    def sum(self, rows: tuple[Row, ...], wanted: Literal | None, differs: Literal | None) -> str:
        """The rows of a sum with their multipliers; a line below them adds up."""
        found = []
        for row in rows:
            form, sense = row.form(wanted, differs)
            terms = " ".join(self.monomial(number, each) for number, each in
                             ((number, self.notation.term(term)) for term, number in form.items())) or "0"
            terms = terms.removeprefix("+ ")
            sign = {"=": "=", ">": ">", ">=": "≥"}.get(sense, sense)
            times = str(row.multiplier).replace("-", "−")
            found.append(f'<tr><td>{times} ×</td><td>{esc(terms)} {esc(sign)} 0</td>'
                         f"<td>{self.source(row, wanted)}</td></tr>")
        strict = any(row.form(wanted, differs)[1] == ">" for row in rows)
        found.append(f'<tr class="total"><td>sum</td><td>0 {"&gt;" if strict else "≥"} 0</td>'
                     "<td>cannot be</td></tr>")
        head = '<tr><th scope="col">times</th><th scope="col">what</th><th scope="col">from</th></tr>'
        return tag("table", f"<thead>{head}</thead><tbody>{''.join(found)}</tbody>", class_="sum")

    def monomial(self, number: int, term: str) -> str:
        """A term with its coefficient and sign."""
        size = "" if abs(number) == 1 else f"{abs(number)} "
        return f"{'+' if number > 0 else '−'} {size}{term}"

    def source(self, row: Row, wanted: Literal | None) -> str:
        """Where a row comes from."""
        if row.word == "fact" and row.literal is not None:
            return self.named(row.literal)
        if row.word == "goal" and isinstance(wanted, Metric):
            return f"supposed: {self.said(negation(wanted))}"
        term = esc(self.notation.term(row.term)) if row.term is not None else ""
        return {"pos": f"{term} is more than 0: its ends differ", "least": f"{term} is at least 0",
                "top": f"{term} is at most two right angles", "right": "a right angle is more than 0",
                "above": "the one is more", "below": "the one is less"}.get(row.word, row.word)
