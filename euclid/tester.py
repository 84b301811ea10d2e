"""Many questions of arithmetic about the same facts."""

from __future__ import annotations

from collections.abc import Iterable

from .codes import Comparison, Quantity
from .magnitudes import Apart, Numbers, System, is_true, negations, value_of

MOST_MODELS = 200  # that are kept from one set of facts to the next


class Parted:
    """Facts in parts that share no terms, so that `related` is quickly answered."""

    def __init__(self, facts: Iterable[Comparison]) -> None:
        self.facts = list(facts)
        self.heads: dict[Quantity, Quantity] = {}
        for fact in self.facts:
            head, *others = fact.quantities() or [()]
            for part in others:
                self.heads[self.head(part)] = self.head(head)
        self.of_fact = [self.head(fact.quantities()[0]) if fact.form else () for fact in self.facts]

    def head(self, part: Quantity) -> Quantity:
        """One term of the part of a term."""
        path = []
        while part in self.heads and self.heads[part] != part:
            path.append(part)
            part = self.heads[part]
        for each in path:
            self.heads[each] = part
        return part

    def key(self, wanted: Comparison) -> frozenset[Quantity]:
        """The parts that share a term with a literal."""
        return frozenset(self.head(part) for part in wanted.quantities())

    def related(self, key: frozenset[Quantity]) -> list[Comparison]:
        """The facts of some parts."""
        return [fact for fact, head in zip(self.facts, self.of_fact) if head in key]


class Tester:
    """Whether literals follow from the same facts. What a refused one leaves, numbers with which it
    is false, refutes others without a search; also for other facts, where they are true."""

    def __init__(self, facts: Iterable[Comparison], apart: Apart, before: Tester | None = None) -> None:
        self.parted, self.apart = Parted(facts), apart
        self.earlier = before.models() if before else []
        self.parts = {part for fact in self.parted.facts for part in fact.quantities()}
        self.systems: dict[frozenset[Quantity], tuple[System, list[Numbers]]] = {}
        self.answers: dict[Comparison, bool] = {}
        self.kept: dict[Quantity, tuple[System, list[Numbers]]] = {}

    def follows(self, wanted: Comparison) -> bool:
        """Whether a literal follows, all of whose terms are in the facts."""
        if wanted not in self.answers:
            self.answers[wanted] = self.is_true(wanted)
        return self.answers[wanted]

    def is_true(self, wanted: Comparison) -> bool:
        """The same, asked for the first time."""
        key = self.parted.key(wanted)
        if key not in self.systems:
            self.systems[key] = self.together([self.of_part(part) for part in sorted(key)])
        system, models = self.systems[key]
        form = system.reduced(dict(wanted.form))
        if any(not is_true(wanted.says, value_of(form, model)) for model in models):
            return False
        for negation in negations(wanted):
            model = system.model(negation)
            if model is not None:
                models.append(model)
                return False
        return True


    def of_part(self, part: Quantity) -> tuple[System, list[Numbers]]:
        """The facts of one part, with two kinds of numbers that refute much: where nothing is 0 and few
        things are equal, if there are such; and where many are."""
        if part not in self.kept:
            facts = self.parted.related(frozenset([part]))
            system = System(facts, (), self.apart)
            few = system.numbers()
            many = system.plain_numbers(facts)
            self.kept[part] = system, [] if few is None else [many or few, few]
        return self.kept[part]

    def together(self, parts: list[tuple[System, list[Numbers]]]) -> tuple[System, list[Numbers]]:
        """The facts of some parts, and numbers for all terms of these."""
        system = System()
        for each, _ in parts:
            system.solved |= each.solved
            system.least += each.least
            system.more += each.more
            system.differ += each.differ
            system.broken |= each.broken
        found = [joined(models) for models in zip(*(models for _, models in parts))]
        system.hint = found[0] if found else {}
        return system, system.allowed(self.earlier) + found

    def models(self) -> list[Numbers]:
        """The numbers that were found, for all terms."""
        return [system.whole(model) for system, models in self.systems.values() for model in models][-MOST_MODELS:]


def joined(models: Iterable[Numbers]) -> Numbers:
    """Numbers for the terms of several parts."""
    return {part: value for model in models for part, value in model.items()}
