"""Theorems to draw, with what the derivation knows of them."""

from __future__ import annotations

from ..checking import Checker, Outcome, Verdict
from ..contexts import Filled
from ..derivation import Arithmetic, Certificate, Clash, Fact, Part, Proved, Reason, Unread, proved
from ..literals import Literal, negation
from ..script import Book, Theorem
from ..statements import Known
from .course import Source

NEWEST = 2  # the version of derivation texts that has the others' spellings too


class Sources:
    """The theorems of a book as `elements` answered it: those that it accepted with their reasons, one that it
    refused up to the step."""

    def __init__(self, book: Book) -> None:
        self.book = book
        outcomes = Checker().check(book).items
        self.outcomes = {item.title: outcome for item, outcome in zip(book.items, outcomes)
                         if isinstance(item, Theorem)}

    def source(self, theorem: Theorem) -> Source:
        """A theorem, with what is known of it."""
        return source_of(theorem, self.book.known_before(theorem), self.outcomes.get(theorem.title))


def source_of(theorem: Theorem, known: Known, outcome: Outcome | None) -> Source:
    """A theorem with its blanks filled, its reasons, and the step at which it is refused."""
    if outcome is None:
        return Source(theorem, known)
    refused = outcome.answer.step if outcome.verdict == Verdict.REFUSED and outcome.answer else 0
    filled, reasons = found_in(outcome.part, theorem, known) if outcome.part else ({}, {})
    return Source(theorem, known, filled, reasons, refused)


def found_in(part: Part, theorem: Theorem, known: Known) -> tuple[Filled, dict[int, list[Literal]]]:
    """What a block of a derivation text says of the blanks and the reasons of a theorem."""
    try:
        proof = proved(part, theorem, known, NEWEST)
    except Unread:
        return part.filled(), {}
    return proof.filled, premises(proof)


def premises(proof: Proved) -> dict[int, list[Literal]]:
    """What each step follows from: the facts of its certificates."""
    return {number: list(dict.fromkeys(fact for reason in reasons for fact in facts_of(reason)))
            for number, reasons in proof.reasons.items()}


def facts_of(reason: Reason) -> list[Literal]:
    """The facts that a certificate uses; a step that is among the facts follows from no other."""
    return facts_below(reason.certificate)


def facts_below(certificate: Certificate) -> list[Literal]:
    """The facts of a certificate and of its parts."""
    if isinstance(certificate, Fact):
        return [certificate.literal]
    if isinstance(certificate, Arithmetic):
        return certificate.facts()
    if isinstance(certificate, Clash):
        return [certificate.literal, negation(certificate.literal)]
    return [fact for part in certificate.parts for fact in facts_below(part.certificate)]
