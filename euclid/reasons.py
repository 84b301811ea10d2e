"""By what each step of a proof is licensed: a reading of its certificates.

The derivation was written by `elements check`, and `elements verify` has verified it.
"""

from __future__ import annotations

from collections.abc import Iterator
from dataclasses import dataclass, field

from .contexts import Context, Filled, Goal, Origin, Walker, gives_of, premises_of
from .derivation import Arithmetic, Clash, Fact, Part, Reason, Row, Transfer, proved
from .literals import Diagram, Literal, Metric, Term, form_of, negation, spell_sum
from .rules import tables
from .script import By, Let, Step, Theorem
from .statements import Known

FREE = {"top": "an angle is at most two right angles", "right": "the right angle is more than 0",
        "least": "no magnitude is less than 0", "goal": "the contrary", "above": "the contrary", "below": "the contrary"}
Form = dict[Term, int]


@dataclass
class Addend:
    """A row of a sum, times its multiplier: what it says, and where it comes from."""

    says: str  # a form compared with 0
    literal: Literal | None  # the fact that it is, if it is one
    origin: Origin | None
    remark: str = ""  # where it is no fact


@dataclass
class Added:
    """A form compared with 0, which is the sum of others."""

    says: str
    addends: list[Addend]
    case: str = ""  # of two, where something that is known to differ is more, or is less


@dataclass
class Ground:
    """Why a literal is allowed: it is a fact, a transfer rule gives it, it is a sum, or two facts clash."""

    kind: str  # fact, transfer, arithmetic, clash
    literal: Literal | None
    origin: Origin | None = None
    rule: str = ""
    names: tuple[str, ...] = ()
    parts: list[Ground] = field(default_factory=list)
    sums: list[Added] = field(default_factory=list)

    def all_origins(self) -> Iterator[Origin | None]:
        """The origins of all facts on which it stands."""
        if self.kind == "fact":
            yield self.origin
        for part in self.parts:
            yield from part.all_origins()
        for added in self.sums:
            for addend in added.addends:
                if not addend.remark:
                    yield addend.origin


@dataclass
class StepReason:
    """A step with the grounds of all that it needs, and what it gives."""

    step: Step
    text: str  # the line, its blanks filled
    depth: int  # how many blocks are open around it
    grounds: list[Ground]
    gives: list[Literal]
    words: str = ""  # its rule or its construction, in words


def reasons_of(theorem: Theorem, part: Part, known: Known, version: int = 1) -> list[StepReason]:
    """By what each step is licensed, in order."""
    explainer = Explainer(theorem, part, known, version)
    Walker(theorem, known, explainer.visit, explainer.filled).walk()
    return explainer.found


class Explainer:
    """Goes through a proof with its certificates."""

    def __init__(self, theorem: Theorem, part: Part, known: Known, version: int) -> None:
        self.known = known
        self.proved = proved(part, theorem, known, version)
        self.filled: Filled = self.proved.filled
        self.depths = dict(depths_of(theorem))
        self.found: list[StepReason] = []

    def visit(self, step: Step, context: Context, goal: Goal) -> None:
        """One step."""
        look = Look(context)
        if isinstance(step, By):
            grounds = [look.fact(literal, literal) for literal in premises_of(step)]
        else:
            grounds = [look.ground(reason) for reason in self.proved.reasons[step.number]]
        gives = gives_of(step, self.known, self.filled) if step.word in ("let", "apply", "superpose", "claim") else []
        self.found.append(StepReason(step, self.text(step), self.depths[step.number], grounds, gives, words_of(step)))

    def text(self, step: Step) -> str:
        """The line of a step, its blanks filled."""
        words = list(step.line.words)
        if step.word == "apply" and step.number in self.filled:
            arguments = self.filled[step.number]
            words[2 : 2 + len(arguments)] = arguments
        return " ".join(words)


def depths_of(theorem: Theorem) -> Iterator[tuple[int, int]]:
    """The number of each step with the number of blocks around it."""
    def inside(steps: list[Step], depth: int) -> Iterator[tuple[int, int]]:
        for step in steps:
            yield step.number, depth
            for block in step.blocks():
                yield from inside(block.steps, depth + 1)

    yield from inside(theorem.proof.steps, 0)


def words_of(step: Step) -> str:
    """The rule or the construction of a step, in words."""
    if isinstance(step, By):
        return tables().diagram[step.rule].words
    return step.construction.words if isinstance(step, Let) else ""


class Look:
    """Looks up where facts come from, before one step."""

    def __init__(self, context: Context) -> None:
        self.context = context

    def origin(self, literal: Literal) -> Origin | None:
        """Where a fact comes from."""
        fact = self.context.fact(literal)
        return fact.origin if fact else None

    def fact(self, literal: Literal | None, fact: Literal) -> Ground:
        """A fact."""
        return Ground("fact", literal, self.origin(fact))

    def ground(self, reason: Reason) -> Ground:
        """What a certificate says."""
        certificate = reason.certificate
        if isinstance(certificate, Fact):
            return self.fact(reason.literal, certificate.literal)
        if isinstance(certificate, Transfer):
            return Ground("transfer", reason.literal, None, certificate.rule, certificate.names,
                          [self.ground(part) for part in certificate.parts])
        if isinstance(certificate, Clash):
            both = [certificate.literal, negation(certificate.literal)]
            return Ground("clash", None, parts=[self.fact(literal, literal) for literal in both])
        return Ground("arithmetic", reason.literal, sums=self.sums(reason.literal, certificate))

    def sums(self, wanted: Literal | None, certificate: Arithmetic) -> list[Added]:
        """The sums of a certificate, each with what it shows on its left side."""
        found = [self.added(rows, wanted, certificate) for rows in certificate.sums]
        if certificate.of_goal and len(found) == 2 and is_equation(certificate):
            return found[:1]  # the second says the same the other way round
        differs = certificate.differs
        if isinstance(differs, Metric) and not certificate.of_goal and len(found) == 2:
            for added, sign in zip(found, (">", "<")):
                added.case = f"{spell_sum(differs.left)} {sign} {spell_sum(differs.right)}"
        return found

    def added(self, rows: tuple[Row, ...], wanted: Literal | None, certificate: Arithmetic) -> Added:
        """One sum: what is wanted is moved to the other side."""
        scaled: list[tuple[Row, Form, str]] = []
        for row in rows:
            if row.word == "goal" or certificate.of_goal and row.word in ("above", "below"):
                continue
            form, sense = row.form(wanted, certificate.differs)
            scaled.append((row, {term: n * row.multiplier for term, n in form.items()}, sense))
        total: Form = {}
        for _, form, _ in scaled:
            for term, n in form.items():
                total[term] = total.get(term, 0) + n
        senses = {sense for _, _, sense in scaled}
        if senses <= {"="} and is_turned(total, wanted):
            total = negative(total)
            scaled = [(row, negative(form), sense) for row, form, sense in scaled]
        sense = next(each for each in (">", ">=", "=") if each in senses or each == "=")
        return Added(compare(total, sense), [self.addend(row, form, each, certificate) for row, form, each in scaled])

    def addend(self, row: Row, scaled: Form, sense: str, certificate: Arithmetic) -> Addend:
        """One row."""
        says = compare(scaled, sense)
        if row.word == "fact" and row.literal is not None:
            return Addend(says, row.literal, self.origin(row.literal))
        if row.word == "pos" and row.term is not None:
            a, b = row.term.points
            for literal in (Diagram("=", (a, b), False), Diagram("=", (b, a), False)):
                if self.context.has(literal):
                    return Addend(says, literal, self.origin(literal))
            return Addend(says, None, None)
        if row.word in ("above", "below") and certificate.differs is not None:
            return Addend(says, certificate.differs, self.origin(certificate.differs))
        return Addend(says, None, None, FREE[row.word])


def is_equation(certificate: Arithmetic) -> bool:
    """Whether an equation is a sum of equations, so that its two sums are one."""
    one, two = ({(row.literal, row.multiplier) for row in rows if row.word == "fact"} for rows in certificate.sums)
    plain = all(row.word in ("fact", "above", "below") for rows in certificate.sums for row in rows)
    equations = all(isinstance(row.literal, Metric) and row.literal.relation == "="
                    for rows in certificate.sums for row in rows if row.word == "fact")
    return plain and equations and two == {(literal, -multiplier) for literal, multiplier in one}


def negative(form: Form) -> Form:
    """The form with all signs changed."""
    return {term: -n for term, n in form.items()}


def is_turned(total: Form, wanted: Literal | None) -> bool:
    """Whether an equation is the wanted one with its sides exchanged."""
    if not isinstance(wanted, Metric):
        return False
    form = form_of(wanted)
    return any(total.get(term, 0) * n < 0 for term, n in form.items())


def compare(form: Form, sense: str) -> str:
    """A form compared with 0, in words: what is taken away comes last."""
    form = {term: n for term, n in form.items() if n and not is_nothing(term)}
    plus = [(term, n) for term, n in form.items() if n > 0]
    minus = [(term, -n) for term, n in form.items() if n < 0]
    said = " + ".join(monomial(term, n) for term, n in plus) or ("0" if not minus else "")
    said += "".join((" - " if said else "- ") + monomial(term, n) for term, n in minus)
    return f"{said} {sense} 0"


def is_nothing(term: Term) -> bool:
    """Whether a term is 0 by its form."""
    return term.word in ("seg", "area") and len(set(term.points)) < len(term.points)


def monomial(term: Term, number: int) -> str:
    """A term with its coefficient."""
    return term.spell() if number == 1 else f"{number} {term.spell()}"
