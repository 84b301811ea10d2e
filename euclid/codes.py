"""Literals as numbers: one of diagrams is a code, one of magnitudes a form compared with 0.

A code is one number: the predicate (its kind and its sign), then the numbers of the objects, six
bits each. A literal and its negation differ in one bit. Objects are numbered in each sort, in the
order in which they came into scope.
"""

from __future__ import annotations

from collections.abc import Iterable, Mapping, Sequence
from functools import lru_cache
from typing import NamedTuple

from .literals import CIRCLE, LINE, POINT, Diagram, Literal, Metric, Sort, Sum, Term
from .rules import Rule, tables

P, L, C = POINT, LINE, CIRCLE
KINDS: tuple[tuple[str, tuple[Sort, ...]], ...] = (
    ("on", (P, L)), ("on", (P, C)), ("inside", (P, C)), ("center", (P, C)), ("between", (P, P, P)),
    ("same-side", (P, P, L)), ("meets", (L, L)), ("meets", (L, C)), ("meets", (C, C)),
    ("=", (P, P)), ("=", (L, L)), ("=", (C, C)),
)
KIND = {kind: number for number, kind in enumerate(KINDS)}
EQUALITY = {sorts[0]: number for number, (word, sorts) in enumerate(KINDS) if word == "="}
SIGN = 1 << 18  # this bit is set in a negated literal
MOST_OBJECTS = 64  # of one sort

WORDS = ("ang", "area", "right", "seg")
ANG, AREA, RIGHT_WORD, SEG = range(4)
Quantity = tuple[int, ...]  # a term: the number of its word, then its points in their normal order
RIGHT: Quantity = (RIGHT_WORD,)


class Unknown(Exception):
    """A literal with an object that is not in scope, or more objects than have numbers."""


class Comparison(NamedTuple):
    """What is said of a form, a sum of terms with their coefficients: that it is 0 (`=`), is not
    0 (`!=`), is more than 0 (`>`), or at least 0 (`>=`)."""

    says: str
    form: frozenset[tuple[Quantity, int]]

    def quantities(self) -> list[Quantity]:
        """Its terms."""
        return [quantity for quantity, _ in self.form]

    def negation(self) -> Comparison:
        """The comparison that is true where this one is not."""
        if self.says in ("=", "!="):
            return Comparison("!=" if self.says == "=" else "=", self.form)
        return Comparison(">=" if self.says == ">" else ">", turned(self.form))


Coded = int | Comparison


def turned(form: Iterable[tuple[Quantity, int]]) -> frozenset[tuple[Quantity, int]]:
    """The form with the sign of each coefficient changed."""
    return frozenset((quantity, -coefficient) for quantity, coefficient in form)


def comparison(says: str, form: Mapping[Quantity, int]) -> Comparison:
    """The same literal always gives the same value: an equation has no direction."""
    items = frozenset((quantity, c) for quantity, c in form.items() if c)
    if says in ("=", "!=") and items and min(items)[1] < 0:
        items = turned(items)
    return Comparison(says, items)


def negated(item: Coded) -> Coded:
    """The coded literal that is true where this one is not."""
    return item ^ SIGN if isinstance(item, int) else item.negation()


def quantity(word: int, points: Sequence[int]) -> Quantity:
    """A term with its points in one order."""
    if word == ANG:
        return min((word, *points), (word, *points[::-1]))
    return (word, *sorted(points))


def encode(kind: int, positive: bool, objects: Sequence[int]) -> int:
    """The code of a literal over the numbers of its objects."""
    x, y, z = (*objects, 0)[:3]
    return ((2 * kind + (not positive)) << 18) | (x << 12) | (y << 6) | z


def decode(code: int) -> tuple[int, bool, tuple[int, ...]]:
    """The kind, the sign and the objects of a code."""
    kind, negative = divmod(code >> 18, 2)
    objects = ((code >> 12) & 63, (code >> 6) & 63, code & 63)
    return kind, not negative, objects[: len(KINDS[kind][1])]


def turned_round(code: int) -> list[int]:
    """The code of a literal that says the same of the diagram the other way round, if there is one."""
    kind, positive, objects = decode(code)
    word, sorts = KINDS[kind]
    if word in ("=", "between") or word == "meets" and sorts[0] == sorts[1]:
        other = objects[::-1]
    elif word == "same-side":
        other = (objects[1], objects[0], objects[2])
    else:
        return []
    return [encode(kind, positive, other)] if other != objects else []


class Scope:
    """The objects by their names, and the names by their numbers."""

    def __init__(self) -> None:
        self.sorts: dict[str, Sort] = {}
        self.numbers: dict[str, int] = {}
        self.names: dict[Sort, list[str]] = {sort: [] for sort in Sort}

    def bring(self, name: str, sort: Sort) -> int:
        """A new object; its number in its sort."""
        number = len(self.names[sort])
        if number >= MOST_OBJECTS:
            raise Unknown(f"`{name}` is one too many: at most {MOST_OBJECTS} {sort.plural} are in scope")
        if name in self.sorts:
            raise Unknown(f"the name `{name}` is taken")
        self.sorts[name], self.numbers[name] = sort, number
        self.names[sort].append(name)
        return number

    def size(self) -> int:
        """How many objects there are."""
        return len(self.sorts)

    def back_to(self, size: int) -> None:
        """Forgets the newest objects, down to so many."""
        while len(self.sorts) > size:
            name, sort = self.sorts.popitem()
            self.names[sort].pop()
            del self.numbers[name]

    def code(self, literal: Literal) -> Coded:
        """A literal over the names as a number, or as a comparison."""
        try:
            if isinstance(literal, Diagram):
                sorts = tuple(self.sorts[name] for name in literal.objects)
                numbers = [self.numbers[name] for name in literal.objects]
                return encode(KIND[literal.word, sorts], literal.positive, numbers)
            form: dict[Quantity, int] = {}
            for sign, side in ((1, literal.left), (-1, literal.right)):
                for coefficient, term in side:
                    part = quantity(WORDS.index(term.word), [self.numbers[name] for name in term.points])
                    form[part] = form.get(part, 0) + sign * coefficient
        except KeyError as error:
            raise Unknown(f"`{error.args[0]}` is not in scope") from None
        if literal.relation in ("=", "!="):
            return comparison(literal.relation, form)
        says = ">" if literal.relation == "<" else ">="
        return comparison(says, {part: -c for part, c in form.items()})

    def literal(self, item: Coded) -> Literal:
        """The literal over the names that a code or a comparison stands for."""
        if isinstance(item, Comparison):
            return self.metric(item)
        kind, positive, objects = decode(item)
        word, sorts = KINDS[kind]
        names = tuple(self.names[sort][number] for sort, number in zip(sorts, objects))
        return Diagram(word, names, positive)

    def metric(self, item: Comparison) -> Metric:
        """The literal that a comparison stands for, its terms in one order."""
        more, less = self.side(item, 1), self.side(item, -1)
        if item.says in ("=", "!="):
            return Metric(item.says, more, less)
        return Metric("<" if item.says == ">" else "<=", less, more)

    def side(self, item: Comparison, sign: int) -> Sum:
        """The terms of a form whose coefficients have this sign."""
        return tuple((c * sign, self.term(part)) for part, c in sorted(item.form) if c * sign > 0)

    def term(self, part: Quantity) -> Term:
        """The term with the names of its points."""
        return Term(WORDS[part[0]], tuple(self.names[POINT][point] for point in part[1:]))


class Pattern(NamedTuple):
    """A diagram literal of a clause: its predicate, and the places of its objects in the clause."""

    predicate: int
    places: tuple[int, ...]


class Clause(NamedTuple):
    """A rule for diagrams, over the places of its variables."""

    name: str
    sorts: tuple[Sort, ...]
    patterns: tuple[Pattern, ...]

    def instance(self, objects: Sequence[int]) -> list[int]:
        """The codes of its literals where the variables are these objects."""
        return [coded(pattern, objects) for pattern in self.patterns]


def coded(pattern: Pattern, objects: Sequence[int] | Mapping[int, int]) -> int:
    """The code of a literal of a clause at these objects."""
    predicate, places = pattern
    code = predicate << 18 | objects[places[0]] << 12 | objects[places[1]] << 6
    return code | objects[places[2]] if len(places) == 3 else code


def pattern_of(literal: Diagram, variables: Sequence[str], sorts: Sequence[Sort]) -> Pattern:
    """A literal over variables, over their places."""
    places = tuple(variables.index(name) for name in literal.objects)
    kind = KIND[literal.word, tuple(sorts[place] for place in places)]
    return Pattern(2 * kind + (not literal.positive), places)


@lru_cache(maxsize=None)
def clauses() -> tuple[Clause, ...]:
    """The rules that `by` may cite, in order."""
    return tuple(clause_of(rule) for rule in tables().diagram.values())


def clause_of(rule: Rule) -> Clause:
    """A rule without a metric literal, as a clause."""
    patterns = tuple(pattern_of(each, rule.variables, rule.sorts) for each in rule.clause if isinstance(each, Diagram))
    return Clause(rule.name, rule.sorts, patterns)


class SumPattern(NamedTuple):
    """A metric literal of a rule or a theorem: what it says of monomials, each a coefficient, a
    word and the places of its points; and the literal over the variables."""

    says: str
    monomials: tuple[tuple[int, int, tuple[int, ...]], ...]
    literal: Metric


def sum_of(literal: Metric, variables: Sequence[str]) -> SumPattern:
    """A metric literal over variables, over their places."""
    is_order = literal.relation in ("<", "<=")
    says = {"<": ">", "<=": ">="}.get(literal.relation, literal.relation)
    monomials = []
    for sign, side in ((1, literal.left), (-1, literal.right)):
        for coefficient, term in side:
            places = tuple(map(list(variables).index, term.points))
            monomials.append((coefficient * (-sign if is_order else sign), WORDS.index(term.word), places))
    return SumPattern(says, tuple(monomials), literal)


def sum_at(pattern: SumPattern, objects: Sequence[int] | Mapping[int, int]) -> Comparison:
    """A metric literal of a rule or a theorem at these objects."""
    form: dict[Quantity, int] = {}
    for c, word, places in pattern.monomials:
        part = quantity(word, [objects[place] for place in places])
        form[part] = form.get(part, 0) + c
    return comparison(pattern.says, form)
