"""Whether a sum follows from the facts with what a theorem shows.

Where it does not, the arithmetic leaves numbers for the terms with which the facts are true, and
what is shown, and the wanted sum is not. These numbers refute other uses without arithmetic.
"""

from __future__ import annotations

from collections.abc import Iterable

from ..codes import Comparison, Quantity
from ..magnitudes import Apart, Numbers, System, is_true, negations, value_of


class Branch:
    """The facts with one negation of the wanted sum, and models of both."""

    def __init__(self, system: System, parts: set[Quantity], apart: Apart) -> None:
        self.system, self.parts, self.apart = system, parts, apart
        self.models: list[Numbers] = []

    def allows(self, shown: Iterable[Comparison]) -> bool:
        """Whether a model has all of this."""
        forms = [(item.says, self.system.reduced(dict(item.form))) for item in shown]
        return any(all(is_true(says, value_of(form, model)) for says, form in forms) for model in self.models)

    def refutes(self, shown: list[Comparison]) -> bool:
        """Whether all of this is absurd here; else there is a new model."""
        system = self.system
        for item in shown:
            system = system.with_row(item.says, dict(item.form))
        for part in sorted({part for item in shown for part in item.quantities()} - self.parts):
            system.rows_of(part, self.apart)
        numbers = None if system.broken else system.numbers()
        if numbers is None:
            return True
        model = system.whole(numbers)
        self.models.append(model)
        return False


class Decider:
    """Answers for one wanted sum, or for None whether the facts are absurd then."""

    def __init__(self, sought: Comparison | None, facts: Iterable[Comparison], apart: Apart) -> None:
        facts = list(facts)
        parts = {part for fact in [*facts, *([sought] if sought else [])] for part in fact.quantities()}
        base = System(facts, parts, apart)
        systems = [base.with_row(row.says, dict(row.form)) for row in negations(sought)] if sought else [base]
        self.branches = [Branch(system, parts, apart) for system in systems]
        self.asked = 0  # how often arithmetic was
        for branch in self.branches:
            branch.refutes([])

    def may_give(self, item: Comparison) -> bool:
        """Whether no model is known that has what is shown."""
        return not any(branch.allows([item]) for branch in self.branches)

    def gives(self, shown: list[Comparison]) -> bool:
        """Whether the sum follows."""
        if any(branch.allows(shown) for branch in self.branches):
            return False
        self.asked += 1
        return all(branch.refutes(shown) for branch in self.branches)
