"""Inlay hints: by what a step is licensed, the blanks as they were filled, the numbers of steps."""

from __future__ import annotations

from ..contexts import BLANK
from ..derivation import Arithmetic, Clash, Proved, Reason, Transfer
from ..script import Apply, By, Step, Theorem
from .checking import Checker
from .documents import Document, position
from .protocol import Json
from .settings import Settings
from .workspace import Project

PARAMETER = 2  # a kind of hint


def hints(document: Document, project: Project, checker: Checker, settings: Settings, first: int, last: int) -> list[Json]:
    """The hints of the lines of a document from one to another, both from 0."""
    start = project.library.number(document.path, 1)
    if start is None:
        return []
    found: list[Json] = []
    for theorem in project.book.theorems():
        if theorem.last < start + first or theorem.first > start + last:
            continue
        proved = checker.proved(project, theorem)
        for step in theorem.steps():
            if start + first <= step.line.number <= start + last:
                found += step_hints(step, step.line.number - start + 1, proved, settings)
    return found


def step_hints(step: Step, number: int, proved: Proved | None, settings: Settings) -> list[Json]:
    """The hints of one step, on a line with this number in its document."""
    text = step.line.text
    found: list[Json] = []
    if settings.hints_steps:
        place = position(text, number, step.line.columns[0])
        found.append({"position": place, "label": str(step.number), "paddingRight": True})
    if proved is None:
        return found
    if settings.hints_filled and isinstance(step, Apply) and BLANK in step.arguments:
        for at, argument in enumerate(step.arguments, 2):
            if argument == BLANK:
                behind = position(text, number, step.line.columns[at] + 1)
                found.append({"position": behind, "label": f"= {proved.filled[step.number][at - 2]}", "kind": PARAMETER})
    label = by_what(step, proved.reasons.get(step.number, []))
    if settings.hints_by_what and label:
        behind = position(text, number, len(text.rstrip()) + 1)
        found.append({"position": behind, "label": label, "paddingLeft": True})
    return found


def by_what(step: Step, reasons: list[Reason]) -> str:
    """By what a step is licensed, in a word or two; nothing where its own line says so, or facts do."""
    if isinstance(step, By):
        return ""
    said = dict.fromkeys(word for reason in reasons if (word := reason_word(reason)))
    return "by " + ", ".join(said) if said else ""


def reason_word(reason: Reason) -> str:
    """A certificate in a word: a rule, arithmetic, or nothing for a fact."""
    certificate = reason.certificate
    if isinstance(certificate, Transfer):
        return certificate.rule
    if isinstance(certificate, Arithmetic):
        return "arithmetic"
    if isinstance(certificate, Clash):
        return "a fact and its negation"
    return ""


def theorem_of(project: Project, number: int) -> Theorem | None:
    """The theorem on a line of the joined text."""
    item = project.book.item_at_line(number)
    return item if isinstance(item, Theorem) else None
