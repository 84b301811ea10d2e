"""Derivation texts, of version 1 or 2: blocks with their certificates, and what filled the blanks.

It reads what `elements` wrote, or what `elements verify` has verified, and checks nothing itself.
"""

from __future__ import annotations

from collections.abc import Iterator
from dataclasses import dataclass, field

from .contexts import Context, Filled, Goal, Walker, needs_of
from .literals import Literal, Metric, Term, form_of, is_same, negation, parse_literal
from .reading import STEPS, read_lines
from .rules import tables
from .script import Book, Contradiction, Step, Theorem
from .statements import Known
from .syntax import SourceLine, lines_of

MARK = "|"


class Unread(Exception):
    """A text that is no derivation, or whose certificates do not belong to its steps."""


# ---- certificates


@dataclass(frozen=True)
class Fact:
    """It is among the facts: the fact as it is written there or in the certificate."""

    literal: Literal


@dataclass(frozen=True)
class Row:
    """A row of a sum, with its multiplier. It has a literal (`fact`), a term (`pos`, `top`, `least`) or neither."""

    multiplier: int
    word: str  # fact, goal, pos, top, least, right, above, below
    literal: Literal | None = None
    term: Term | None = None

    def form(self, wanted: Literal | None, differs: Literal | None) -> tuple[dict[Term, int], str]:
        """What the row says: a form, and how it is compared with 0 (`=`, `>=` or `>`)."""
        if self.word == "fact" and isinstance(self.literal, Metric):
            return compared(self.literal)
        if self.word == "goal" and isinstance(wanted, Metric):
            denied = negation(wanted)
            assert isinstance(denied, Metric)
            return compared(denied)
        if self.word in ("above", "below") and isinstance(differs, Metric):
            sign = 1 if self.word == "above" else -1
            return {term: sign * n for term, n in counting(differs).items()}, ">"
        right = Term("right")
        if self.term is None:
            return {right: 1}, ">"
        if self.word == "top":
            return {right: 2, self.term.normal(): -1}, ">="
        return {self.term.normal(): 1}, ">" if self.word == "pos" else ">="


def counting(literal: Metric) -> dict[Term, int]:
    """The left side less the right one, without terms that are 0."""
    return {term: n for term, n in form_of(literal).items() if not term.is_nothing()}


def compared(literal: Metric) -> tuple[dict[Term, int], str]:
    """What a fact of magnitudes says: a form, and how it is compared with 0."""
    form = counting(literal)
    if literal.relation in ("=", "!="):
        return form, literal.relation
    return {term: -n for term, n in form.items()}, ">" if literal.relation == "<" else ">="


@dataclass(frozen=True)
class Arithmetic:
    """It follows from facts of magnitudes: one sum, or two where something is said to differ."""

    sums: tuple[tuple[Row, ...], ...]
    differs: Literal | None = None  # of the goal or a fact: its form is `above` and `below`
    of_goal: bool = False  # whether it is the goal that differs

    def facts(self) -> list[Literal]:
        """The facts that it uses, each once."""
        found = [row.literal for rows in self.sums for row in rows if row.literal is not None]
        if self.differs is not None and not self.of_goal:
            found.append(self.differs)
        return list(dict.fromkeys(found))


@dataclass(frozen=True)
class Clash:
    """A literal of the diagram and its negation are both facts."""

    literal: Literal


@dataclass(frozen=True)
class Transfer:
    """An instance of a transfer rule gives it; each part says why one of its premises holds."""

    rule: str
    names: tuple[str, ...]
    parts: tuple[Reason, ...]


Certificate = Fact | Arithmetic | Clash | Transfer


@dataclass(frozen=True)
class Reason:
    """A literal that a step needs, with its certificate; no literal where facts contradict each other."""

    literal: Literal | None
    certificate: Certificate


# ---- texts


@dataclass
class Part:
    """The block of one theorem: its lines, and the certificate lines below each step."""

    title: str
    lines: list[SourceLine] = field(default_factory=list)
    below: dict[int, list[SourceLine]] = field(default_factory=dict)

    def filled(self) -> dict[int, list[str]]:
        """The arguments of each `apply` step, by the number of the step."""
        found: dict[int, list[str]] = {}
        number = 0
        for line in self.lines:
            if line.words[0] in STEPS:
                number += 1
            if line.words[0] == "apply":
                words = list(line.words)
                found[number] = words[2 : words.index("as") if "as" in words else len(words)]
        return found


@dataclass
class Derivation:
    """A derivation text: its version and its blocks by title, in order."""

    version: int = 1
    parts: dict[str, Part] = field(default_factory=dict)

    def book(self) -> Book:
        """The theorems as the text has them, with the numbers of its lines."""
        return read_lines([line for part in self.parts.values() for line in part.lines])


def read_derivation(text: str) -> Derivation:
    """The blocks of a derivation text; what comes after the last whole block is left out."""
    lines = lines_of(text)
    if not lines or lines[0].words not in (("derivation", "1"), ("derivation", "2")):
        raise Unread("a derivation text begins with `derivation 1` or `derivation 2`")
    found = Derivation(int(lines[0].words[1]))
    part, number = Part(""), 0
    for line in lines[1:]:
        word = line.words[0] if line.words else ""
        if word == "theorem" and len(line.words) == 2:
            part, number = Part(line.words[1]), 0
        if word == MARK:
            part.below.setdefault(number, []).append(line)
            continue
        part.lines.append(line)
        number += word in STEPS
        if word == "end" and part.title:
            found.parts[part.title] = part
            part = Part("")
    return found


@dataclass
class Proved:
    """A theorem with the reasons of each step, by its number."""

    theorem: Theorem
    reasons: dict[int, list[Reason]]
    filled: Filled


def proved(part: Part, theorem: Theorem, known: Known, version: int = 1) -> Proved:
    """The theorem, as a book or the text itself has it, with the reasons of its block in the text.

    A step `by` has no reasons here: its premises are facts (`contexts.premises_of`).
    """
    filled = part.filled()
    reasons: dict[int, list[Reason]] = {}

    def visit(step: Step, context: Context, goal: Goal) -> None:
        needs: list[Literal | None] = list(needs_of(step, context, known, goal, filled))
        reader = CertificateReader(part.below.get(step.number, []), context, version)
        if step.word == "by":
            needs = []
        if isinstance(step, Contradiction):
            needs = [None]
        reasons[step.number] = [Reason(need, reader.certificate(need)) for need in needs]
        if not reader.is_done():
            raise Unread(f"step {step.number} of {part.title} has a certificate too many")

    Walker(theorem, known, visit, filled).walk()
    return Proved(theorem, reasons, filled)


def all_proved(derivation: Derivation) -> Iterator[Proved]:
    """Each theorem of a text from elsewhere, with its reasons."""
    book = derivation.book()
    known = Known()
    for theorem in book.theorems():
        yield proved(derivation.parts[theorem.title], theorem, known, derivation.version)
        known.theorems[theorem.title] = theorem.statement


class CertificateReader:
    """Reads the certificate lines below one step, with the context before it."""

    def __init__(self, lines: list[SourceLine], context: Context, version: int) -> None:
        self.lines, self.context, self.version = lines, context, version
        self.facts = [fact.literal for fact in context.facts.values()] if version == 2 else []
        self.at = 0

    def is_done(self) -> bool:
        """Whether all lines are read."""
        return self.at == len(self.lines)

    def peek(self) -> tuple[str, ...]:
        """The words of the next line, without its mark."""
        return self.lines[self.at].words[1:] if self.at < len(self.lines) else ()

    def take(self) -> list[str]:
        """The words of the next line, which is read."""
        words = list(self.peek())
        if not words:
            raise Unread("a certificate is missing")
        self.at += 1
        return words

    def literal(self, words: list[str]) -> Literal:
        """A literal, or in version 2 the fact at a place."""
        if self.version == 2 and len(words) == 1 and words[0].isdigit() and int(words[0]) < len(self.facts):
            return self.facts[int(words[0])]
        return parse_literal(words, self.context.sorts)

    def certificate(self, wanted: Literal | None) -> Certificate:
        """The certificate of a literal, or of a contradiction."""
        words = self.take()
        if words[0] == "fact":
            if len(words) > 1:
                return Fact(self.literal(words[1:]))
            fact = self.context.fact(wanted) if wanted is not None else None
            if fact is None:
                raise Unread(f"line {self.lines[self.at - 1].number}: this is no fact")
            return Fact(fact.literal)
        if words[0] == "metric":
            return self.arithmetic(wanted)
        if words[0] == "clash":
            return Clash(self.literal(words[1:]))
        if words[0] == "transfer" and wanted is not None:
            return self.transfer(words[1], words[2:], wanted)
        raise Unread(f"line {self.lines[self.at - 1].number}: this is no certificate")

    def transfer(self, name: str, names: list[str], wanted: Literal) -> Transfer:
        """A transfer with its parts."""
        rule = tables().transfer.get(name)
        if rule is None or len(names) != len(rule.variables):
            raise Unread(f"`{name}` is no transfer rule of so many names")
        needs = [negation(place) for place in rule.instance(names) if not is_same(place, wanted)]
        return Transfer(name, tuple(names), tuple(Reason(need, self.certificate(need)) for need in needs))

    def arithmetic(self, wanted: Literal | None) -> Arithmetic:
        """What comes after `| metric`."""
        differs, of_goal = None, False
        if self.peek()[:1] == ("differs",):
            words = self.take()
            of_goal = words[1] == "goal"
            differs = wanted if of_goal else self.literal(words[2:])
        sums: list[tuple[Row, ...]] = []
        while self.peek() == ("sum",) and len(sums) < (1 if differs is None else 2):
            self.take()
            sums.append(tuple(self.rows()))
        return Arithmetic(tuple(sums), differs, of_goal)

    def rows(self) -> Iterator[Row]:
        """The rows of a sum."""
        while self.peek() and self.peek()[0].lstrip("-").isdigit():
            number, word, *rest = self.take()
            literal = self.literal(rest) if word == "fact" else None
            term = Term(rest[0], tuple(rest[1:])) if rest and word in ("pos", "top", "least") else None
            yield Row(int(number), word, literal, term)
