"""Objects, terms and literals: read from words, spelled, negated, renamed, compared."""

from __future__ import annotations

from collections.abc import Iterable, Mapping, Sequence
from dataclasses import dataclass
from enum import StrEnum
from functools import lru_cache

from .syntax import NUMERAL, Fault, FaultKind, is_name, malformed, split_at


class Sort(StrEnum):
    """The three sorts of objects."""

    POINT = "point"
    LINE = "line"
    CIRCLE = "circle"

    @property
    def plural(self) -> str:
        """The word that declares objects of this sort."""
        return self.value + "s"


POINT, LINE, CIRCLE = Sort.POINT, Sort.LINE, Sort.CIRCLE
PLURALS = {sort.plural: sort for sort in Sort}
Sorts = Mapping[str, Sort]  # of the objects in scope, by their names, the oldest first

# What each predicate takes: the sorts of its objects.
PREDICATES: dict[str, tuple[tuple[Sort, ...], ...]] = {
    "on": ((POINT, LINE), (POINT, CIRCLE)),
    "inside": ((POINT, CIRCLE),),
    "center": ((POINT, CIRCLE),),
    "between": ((POINT, POINT, POINT),),
    "same-side": ((POINT, POINT, LINE),),
    "meets": ((LINE, LINE), (LINE, CIRCLE), (CIRCLE, CIRCLE)),
}
TERMS = {"seg": 2, "ang": 3, "area": 3, "right": 0}
KINDS = {"seg": "segment", "ang": "angle", "area": "area", "right": "angle"}
WITH_ARTICLE = {"segment": "a segment", "angle": "an angle", "area": "an area"}
NUMBERS = {2: "two", 3: "three"}
RELATIONS = ("=", "!=", "<", "<=")


@dataclass(frozen=True, slots=True)
class Term:
    """A magnitude: `seg a b`, `ang a b c`, `area a b c` or `right`."""

    word: str
    points: tuple[str, ...] = ()

    def normal(self) -> Term:
        """The same term with its points in one order."""
        if self.word == "ang":
            return Term("ang", min(self.points, self.points[::-1]))
        return Term(self.word, tuple(sorted(self.points)))

    def is_nothing(self) -> bool:
        """A segment from a point to itself, or an area with a repeated point: it is 0."""
        return self.word in ("seg", "area") and len(set(self.points)) < len(self.points)

    def spell(self) -> str:
        """The words of the term."""
        return " ".join((self.word, *self.points))


Sum = tuple[tuple[int, Term], ...]  # each term with its coefficient, which is at least 1


@dataclass(frozen=True, slots=True)
class Diagram:
    """What is said of a diagram, or that two objects are one (`=`); or its negation."""

    word: str
    objects: tuple[str, ...]
    positive: bool = True


@dataclass(frozen=True, slots=True)
class Metric:
    """Two sums compared: one of `=`, `!=`, `<`, `<=` between them."""

    relation: str
    left: Sum
    right: Sum

    def terms(self) -> list[Term]:
        """The terms as they are written, from left to right."""
        return [term for _, term in self.left + self.right]


Literal = Diagram | Metric


def negation(literal: Literal) -> Literal:
    """The literal that is true where this one is not."""
    if isinstance(literal, Diagram):
        return Diagram(literal.word, literal.objects, not literal.positive)
    if literal.relation in ("=", "!="):
        return Metric("!=" if literal.relation == "=" else "=", literal.left, literal.right)
    return Metric("<=" if literal.relation == "<" else "<", literal.right, literal.left)


def renamed(literal: Literal, names: Mapping[str, str]) -> Literal:
    """The literal with other objects; a name that is not among the names stays."""
    if isinstance(literal, Diagram):
        objects = tuple(names.get(name, name) for name in literal.objects)
        return Diagram(literal.word, objects, literal.positive)

    def side(monomials: Sum) -> Sum:
        return tuple((coefficient, Term(term.word, tuple(names.get(p, p) for p in term.points)))
                     for coefficient, term in monomials)

    return Metric(literal.relation, side(literal.left), side(literal.right))


def names_in(literal: Literal) -> list[str]:
    """The objects of a literal, each once, from left to right."""
    if isinstance(literal, Diagram):
        return list(dict.fromkeys(literal.objects))
    return list(dict.fromkeys(point for term in literal.terms() for point in term.points))


Form = tuple[tuple[Term, int], ...]
Key = tuple[str, bool, tuple[str, ...], Form]


def form_of(literal: Metric) -> dict[Term, int]:
    """The left side less the right one: a coefficient for each term, none 0."""
    form: dict[Term, int] = {}
    for sign, side in ((1, literal.left), (-1, literal.right)):
        for coefficient, term in side:
            normal = term.normal()
            form[normal] = form.get(normal, 0) + sign * coefficient
    return {term: coefficient for term, coefficient in form.items() if coefficient}


@lru_cache(maxsize=200_000)
def key(literal: Literal) -> Key:
    """Two literals are the same where their keys are equal."""
    if isinstance(literal, Diagram):
        return (literal.word, literal.positive, literal.objects, ())
    form = form_of(literal)
    items = sorted(form.items(), key=lambda item: (item[0].word, item[0].points))
    relation = literal.relation
    if relation in ("=", "!="):
        if items and items[0][1] < 0:  # an equation has no direction
            items = [(term, -coefficient) for term, coefficient in items]
        return ("=", relation == "=", (), tuple(items))
    if relation == "<=":  # the negation of the other direction
        items = [(term, -coefficient) for term, coefficient in items]
    return ("<", relation == "<", (), tuple(items))


def is_same(one: Literal, other: Literal) -> bool:
    """Whether two literals are the same."""
    return key(one) == key(other)


# ---- spelling


def spell_sum(monomials: Sum) -> str:
    """The words of a sum."""
    parts = [term.spell() if n == 1 else f"{n} {term.spell()}" for n, term in monomials]
    return " + ".join(parts) or "0"


def spell(literal: Literal) -> str:
    """The words of a literal, as derivation texts have them."""
    if isinstance(literal, Metric):
        return f"{spell_sum(literal.left)} {literal.relation} {spell_sum(literal.right)}"
    if literal.word == "=":
        return f"{literal.objects[0]} {'=' if literal.positive else '!='} {literal.objects[1]}"
    return " ".join((*([] if literal.positive else ["not"]), literal.word, *literal.objects))


def spell_all(literals: Iterable[Literal]) -> str:
    """The words of several literals, as a line has them."""
    return " ; ".join(map(spell, literals))


# ---- reading


def parse_literal(words: Sequence[str], sorts: Sorts) -> Literal:
    """The literal that these words spell, in any spelling that a book may have."""
    if not words:
        raise malformed("a literal is missing here")
    negated = words[0] == "not"
    body = list(words[1:] if negated else words)
    skipped = 1 if negated else 0
    try:
        literal = parse_positive(body, sorts)
    except Fault as fault:
        raise fault.moved(skipped) from None
    if not negated:
        return literal
    if ("!=" in body) or ("<=" in body):
        sign = "!=" if "!=" in body else "<="
        raise malformed(f"`not` cannot come before a literal with `{sign}`")
    return negation(literal)


def parse_positive(words: list[str], sorts: Sorts) -> Literal:
    """A literal without `not` before it."""
    if words and words[0] in PREDICATES:
        return parse_predicate(words, sorts)
    signs = [at for at, word in enumerate(words) if word in RELATIONS]
    if len(signs) != 1:
        raise malformed(what_is_no_literal(words), signs[1] if signs else 0)
    at = signs[0]
    if is_name(words[0]) or at == 0:
        return parse_equality(words, at, sorts)
    left = parse_sum(words[:at], sorts, 0)
    right = parse_sum(words[at + 1 :], sorts, at + 1)
    check_kinds(words, left + right)
    return Metric(words[at], left, right)


def what_is_no_literal(words: list[str]) -> str:
    """What to say of words that are no literal."""
    if words and words[0] not in TERMS and not is_name(words[0]) and not words[0].isdigit():
        return f"`{words[0]}` begins no literal"
    if any(word in RELATIONS for word in words):
        return "a literal has one of = != < <= only"
    return "a literal begins with on, inside, center, between, same-side or meets, or compares two " \
           "objects or sums by =, !=, < or <="


def parse_predicate(words: list[str], sorts: Sorts) -> Diagram:
    """`on x y` and the like."""
    word, *names = words
    allowed = PREDICATES[word]
    count = len(allowed[0])
    if len(names) != count:
        raise malformed(f"`{word}` takes {NUMBERS[count]} names, not {len(names)}",
                        min(len(names), count) + 1 if len(names) > count else len(words))
    for at, name in enumerate(names, 1):
        if not is_name(name):
            raise malformed(f"`{name}` is no name", at)
    for at, name in enumerate(names):
        sort = sort_of(name, sorts, at + 1)
        fitting = [row for row in allowed if row[at] == sort]
        if not fitting:
            wanted = " or ".join(dict.fromkeys(f"a {row[at].value}" for row in allowed))
            raise Fault(FaultKind.WRONG_SORT, f"`{name}` is a {sort.value}, and `{word}` takes {wanted} here",
                        at + 1)
        allowed = tuple(fitting)
    return Diagram(word, tuple(names))


def parse_equality(words: list[str], at: int, sorts: Sorts) -> Diagram:
    """`x = y` or `x != y` of objects."""
    if at != 1 or len(words) != 3 or words[1] not in ("=", "!="):
        raise malformed("one object is compared with one other, by = or !=", at)
    for place in (0, 2):
        if not is_name(words[place]):
            raise malformed(f"`{words[place]}` is no name", place)
    first, second = sort_of(words[0], sorts, 0), sort_of(words[2], sorts, 2)
    if first != second:
        raise Fault(FaultKind.WRONG_SORT, f"`{words[0]}` is a {first.value} and `{words[2]}` a {second.value}", 2)
    return Diagram("=", (words[0], words[2]), words[1] == "=")


def parse_sum(words: list[str], sorts: Sorts, start: int) -> Sum:
    """A sum of terms with coefficients, or 0."""
    if words == ["0"]:
        return ()
    monomials = []
    for at, part in split_at(words, "+"):
        place = start + at
        coefficient = 1
        if part and part[0].isdigit():
            if not NUMERAL.match(part[0]):
                raise malformed(f"a coefficient is a number of at least 1, and `{part[0]}` is none", place)
            coefficient, part, place = int(part[0][:40]), part[1:], place + 1
        monomials.append((coefficient, parse_term(part, sorts, place)))
    return tuple(monomials)


def parse_term(words: list[str], sorts: Sorts, start: int) -> Term:
    """`seg a b` and the like."""
    if not words or words[0] not in TERMS:
        found = f", and `{words[0]}` is none" if words else ""
        raise malformed(f"a term is seg, ang or area with its points, or right{found}", start)
    word, *names = words
    if len(names) != TERMS[word]:
        count = NUMBERS.get(TERMS[word], "no")
        raise malformed(f"`{word}` takes {count} points, not {len(names)}", start)
    for at, name in enumerate(names, 1):
        if not is_name(name):
            raise malformed(f"`{name}` is no name", start + at)
        sort = sort_of(name, sorts, start + at)
        if sort != POINT:
            raise Fault(FaultKind.WRONG_SORT, f"`{name}` is a {sort.value}, and `{word}` takes points", start + at)
    return Term(word, tuple(names))


def check_kinds(words: list[str], monomials: Sum) -> None:
    """All terms of a literal have one kind, and there is at least one."""
    kinds = [(at, KINDS[word]) for at, word in enumerate(words) if word in TERMS]
    if not kinds or not monomials:
        raise malformed("a literal of magnitudes has a term")
    for at, kind in kinds:
        if kind != kinds[0][1]:
            raise Fault(FaultKind.WRONG_SORT, f"{WITH_ARTICLE[kind]} is not compared with {WITH_ARTICLE[kinds[0][1]]}", at)


def sort_of(name: str, sorts: Sorts, at: int) -> Sort:
    """The sort of an object in scope."""
    if name not in sorts:
        raise Fault(FaultKind.UNKNOWN_NAME, f"no object named `{name}` is in scope", at)
    return sorts[name]
