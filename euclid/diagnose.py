"""The report of a library: what is accepted, and for the rest where and why it is not.

Nothing is printed here: commands, editors and pages have this report in common.
"""

from __future__ import annotations

from dataclasses import dataclass, field

from . import missing
from .answers import Answer
from .checking import Checker, Outcome, Outcomes, Verdict, uses_of
from .contexts import Situation, premises_of, situation_at, turned
from .diagnosis import Diagnosis, Premise, Value, missing_words
from .faults import words_of_fault
from .library import Library
from .literals import Literal, Metric, Term, is_same, key, negation, parse_literal, spell
from .rereading import Rereader
from .rules import Rule, tables
from .scratch import Scratch, Untried
from .script import Apply, Book, By, Item, Step, Theorem
from .syntax import Fault, SourceLine


@dataclass
class Filling:
    """An accepted `apply` step with blanks, and what was chosen for them."""

    title: str
    step: Apply
    arguments: list[str]
    is_degenerate: bool  # one object stands for two of the theorem


@dataclass
class Report:
    """What became of a library."""

    library: Library
    book: Book
    outcomes: Outcomes
    diagnoses: list[Diagnosis] = field(default_factory=list)
    fillings: list[Filling] = field(default_factory=list)

    def count(self, verdict: Verdict) -> int:
        """How many items of this verdict there are; accepted are theorems alone."""
        return sum(outcome.verdict == verdict for item, outcome in zip(self.book.items, self.outcomes.items)
                   if verdict != Verdict.ACCEPTED or isinstance(item, Theorem))

    def outcome(self, title: str) -> Outcome | None:
        """What became of the item of a title."""
        return next((outcome for item, outcome in zip(self.book.items, self.outcomes.items) if item.title == title), None)

    def refused_titles(self) -> set[str]:
        """The items that are not accepted."""
        return {item.title for item, outcome in zip(self.book.items, self.outcomes.items)
                if outcome.verdict != Verdict.ACCEPTED}


class Diagnoser:
    """Reports on one state of a library after the other, each mostly like the one before."""

    def __init__(self) -> None:
        self.rereader, self.checker = Rereader(), Checker()

    def report(self, library: Library, with_ways: bool = True, only: str | None = None) -> Report:
        """The report, perhaps of one theorem only with what it rests on.

        Without ways it says what is missing, and not yet how to get it, which is faster.
        """
        book = self.rereader.read(library.lines())
        if only is not None:
            book = without_others(book, only)
        report = Report(library, book, self.checker.check(book))
        for stray in report.outcomes.strays:
            report.diagnoses.append(of_stray(report, stray.lines[0], stray.answer))
        for item, outcome in zip(book.items, report.outcomes.items):
            if outcome.verdict == Verdict.FAULTY:
                report.diagnoses.append(of_fault(report, item, outcome.answer))
            elif outcome.verdict == Verdict.REFUSED and isinstance(item, Theorem) and outcome.answer:
                report.diagnoses.append(of_refusal(report, item, outcome.answer))
            elif isinstance(item, Theorem) and outcome.part:
                report.fillings += fillings_of(item, outcome)
        report.diagnoses.sort(key=lambda each: each.number)
        if with_ways:
            for diagnosis in report.diagnoses:
                add_ways(report, diagnosis)
        return report


def without_others(book: Book, title: str) -> Book:
    """The items of a title and what they rest on; all other lines are left empty."""
    uses = uses_of(book.items)
    wanted = {at for at, item in enumerate(book.items) if item.title == title}
    for at in range(len(book.items) - 1, -1, -1):
        if at in wanted:
            wanted |= set(uses[at])
    kept = {line.number for at in wanted for line in book.items[at].lines}
    lines = [line if line.number in kept else SourceLine(line.number, "", (), ()) for line in book.lines]
    return Book(lines, [item for at, item in enumerate(book.items) if at in wanted], book.known)


def add_ways(report: Report, diagnosis: Diagnosis) -> None:
    """Puts the ways to what is missing into a diagnosis."""
    theorem = report.book.theorem(diagnosis.title)
    if diagnosis.situation is None or theorem is None:
        return
    scratch = Scratch(report.book, theorem, diagnosis.step, left_out=report.refused_titles() - {theorem.title})
    missing.add_ways(diagnosis, diagnosis.situation, scratch)


# ---- faults


def of_stray(report: Report, line: SourceLine, answer: Answer) -> Diagnosis:
    """A line between items."""
    fault = next((fault for each, fault in report.book.stray if each.number == line.number), None)
    return fault_at(report, None, line, answer, fault)


def of_fault(report: Report, item: Item, answer: Answer | None) -> Diagnosis:
    """An item with a fault."""
    number = report.book.lines[0].number + answer.line - 1 if answer else item.head.number
    own = item.fault_line
    if item.fault is not None and own is None:  # it has no end
        last = [line for line in item.lines if not line.is_skipped()][-1]
        fault = Fault(item.fault.kind, f"after this line `end` is missing: {item.fault.message}", len(last.words))
        return fault_at(report, item, last, answer, fault)
    if own is not None and own.number == number:
        return fault_at(report, item, own, answer, item.fault)
    line = next((line for line in item.lines if line.number == number), item.head)
    return fault_at(report, item, line, answer, None)


def fault_at(report: Report, item: Item | None, line: SourceLine, answer: Answer | None, fault: Fault | None) -> Diagnosis:
    """A fault on a line."""
    def where(number: int) -> str:
        here, there = report.library.place(line.number), report.library.place(number)
        return f"line {there.line}" if here.path == there.path else f"{there.path}:{there.line}"

    said = answer.fault if answer else "malformed"
    words = words_of_fault(report.book, item, line, said, fault, where)
    return Diagnosis("faulty", item.title if item else "", 0, words.line.number, words.start, words.end,
                     f"{said}: {words.message}", sentences=words.sentences)


# ---- refusals


def of_refusal(report: Report, theorem: Theorem, answer: Answer) -> Diagnosis:
    """A step that is not licensed, or too wide."""
    steps = theorem.steps()
    step = steps[answer.step - 1] if answer.step <= len(steps) else None
    line = step.line if step else theorem.head
    kind = "refused" if answer.kind == "unlicensed" else "too-wide"
    found = Diagnosis(kind, theorem.title, answer.step, line.number, line.column(0), line.column(len(line.words)),
                      "", answer.wanted)
    filled = filled_before(report, theorem, answer.step)
    situation = situation_at(theorem, report.book.known_before(theorem), answer.step, filled)
    found.situation = situation
    said = f"{theorem.title} step {answer.step}: "
    if step is None or situation is None:
        found.message = said + f"`{answer.wanted}` does not follow"
    elif kind == "too-wide":
        found.message = said + f"the arithmetic of `{answer.wanted}` has too large numbers; show it in smaller steps"
    else:
        found.message = said + why_refused(found, step, situation, answer)
        found.sentences += blanks_before(theorem, filled)
    return found


def filled_before(report: Report, theorem: Theorem, number: int) -> dict[int, list[str]]:
    """What filled the blanks of the steps before one."""
    left_out = report.refused_titles() - {theorem.title}
    try:
        return Scratch(report.book, theorem, number, left_out=left_out).filled()
    except Untried:
        return {}


def blanks_before(theorem: Theorem, filled: dict[int, list[str]]) -> list[str]:
    """A sentence for each step before that had blanks."""
    return [f"step {step.number} was filled: `apply {step.title} {' '.join(filled[step.number])}`"
            for step in theorem.steps()
            if isinstance(step, Apply) and "_" in step.arguments and step.number in filled]


def why_refused(found: Diagnosis, step: Step, situation: Situation, answer: Answer) -> str:
    """What is missing, in one sentence; the premises go into the diagnosis."""
    if isinstance(step, By):
        return why_by(found, step, situation)
    found.premises = premises_at(situation, situation.needs)
    wanted = literal_of(answer.wanted, situation)
    if wanted is None:
        return why_no_literal(found, step, situation, answer)
    found.values = values_of(answer, situation)
    if len(found.premises) == 1:
        found.premises = []  # it is what is wanted, and is told so
    for premise in found.premises:
        if premise.origin is None and not is_same(premise.literal, wanted):
            premise.ways = []
    reverse = turned_fact(situation, wanted)
    more = f" (there is `{spell(reverse)}`)" if reverse else ""
    if situation.context.has(negation(wanted)):
        more = " (its negation is known)"
    what = {"hence": "does not follow by arithmetic or one transfer rule", "qed": "is to be shown, and does not follow"}
    return f"`{answer.wanted}` {what.get(step.word, 'is needed, and is not known')}{more}"


def why_by(found: Diagnosis, step: By, situation: Situation) -> str:
    """Why a citation is refused."""
    rule = tables().diagram[step.rule]
    instance = rule.instance(step.names)
    found.reason = f"{rule.name} {' '.join(step.names)}: {instance_words(rule, step.names)}"
    if not any(is_same(each, step.literal) for each in instance):
        other = next((each for each in turned(step.literal) if any(is_same(each, one) for one in instance)), None)
        if other is not None:
            return f"`{rule.name}` with these names says `{spell(other)}`, which is the other way round"
        opposite = any(is_same(negation(each), step.literal) for each in instance)
        return (f"`{rule.name}` with these names does not give `{spell(step.literal)}`"
                + (", it uses it" if opposite else ", it has no such literal"))
    found.premises = premises_at(situation, premises_of(step))
    return missing_words(found.premises)


def instance_words(rule: Rule, names: list[str]) -> str:
    """A rule with these names, as a sentence."""
    literals = rule.instance(names)
    premises = [spell(negation(each)) for each in literals[: len(rule.premises)]]
    conclusions = [spell(each) for each in literals[len(rule.premises) :]]
    then = " or ".join(f"`{each}`" for each in conclusions) or "there is a contradiction"
    return f"if {' and '.join(f'`{each}`' for each in premises)}, then {then}" if premises else then


def premises_at(situation: Situation, needs: list[Literal]) -> list[Premise]:
    """Each needed literal with where it comes from, or what there is in its place."""
    found = []
    for literal in {key(literal): literal for literal in needs}.values():
        fact = situation.context.fact(literal)
        premise = Premise(literal, fact.origin if fact else None)
        if fact is None:
            premise.turned = turned_fact(situation, literal)
            premise.denied = "is a fact" if situation.context.has(negation(literal)) else ""
        found.append(premise)
    return found


def turned_fact(situation: Situation, literal: Literal) -> Literal | None:
    """A fact that says a literal the other way round."""
    return next((each for each in turned(literal) if situation.context.has(each)), None)


def literal_of(words: str, situation: Situation) -> Literal | None:
    """The literal that these words are, in the scope of the step."""
    try:
        return parse_literal(words.split(), situation.context.sorts)
    except Fault:
        return None


def values_of(answer: Answer, situation: Situation) -> list[Value]:
    """The counterexample, with marks at the terms of which nothing is known, and at those that matter."""
    facts = [{term.normal() for term in fact.terms()} for fact in situation.context.literals() if isinstance(fact, Metric)]
    wanted = literal_of(answer.wanted, situation)
    own = {term.normal() for term in wanted.terms()} if isinstance(wanted, Metric) else set[Term]()
    near = own.union(*(terms for terms in facts if terms & own)) if own else set[Term]().union(*facts)
    found = []
    for spelled, number in answer.values:
        word, *points = spelled.split()
        term = Term(word, tuple(points)).normal()
        is_free = word != "right" and not any(term in terms for terms in facts)
        found.append(Value(spelled, number, is_free, term in near or word == "right"))
    return sorted(found, key=lambda value: not is_of(value, own))


def is_of(value: Value, terms: set[Term]) -> bool:
    """Whether a value is that of one of these terms."""
    word, *points = value.term.split()
    return Term(word, tuple(points)).normal() in terms


def why_no_literal(found: Diagnosis, step: Step, situation: Situation, answer: Answer) -> str:
    """Where no literal is wanted: `match` and `contradiction`."""
    if answer.wanted == "contradiction":
        found.values = values_of(answer, situation)
        return "the facts do not contradict each other"
    return f"no objects can be put for the blanks of `{' '.join(step.line.words[:2])}`"


# ---- blanks


def fillings_of(theorem: Theorem, outcome: Outcome) -> list[Filling]:
    """What was chosen for the blanks of an accepted theorem."""
    steps = [step for step in theorem.steps() if isinstance(step, Apply) and "_" in step.arguments]
    if not steps or outcome.part is None:
        return []
    chosen = outcome.part.filled()
    found = []
    for step in steps:
        arguments = chosen.get(step.number, step.arguments)
        twice = any(arguments.count(new) > 1 for old, new in zip(step.arguments, arguments) if old == "_")
        found.append(Filling(theorem.title, step, arguments, twice))
    return found
