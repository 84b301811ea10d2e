"""Literals matched with patterns: the names of a pattern are variables, and `_` is any object."""

from __future__ import annotations

from collections.abc import Iterable, Iterator, Mapping, Sequence
from itertools import count, permutations

from .contexts import turned
from .literals import (PREDICATES, Diagram, Literal, Metric, Sort, Term, form_of, names_in, parse_literal)
from .syntax import Fault, is_name, malformed, split_at

Names = Mapping[str, str]  # objects for the variables of a pattern
ANY = "_"
STANDS_FOR_ANY = "any'"  # begins the names that blanks have in a pattern


def matches(pattern: Literal, literal: Literal, bound: Names) -> Iterator[dict[str, str]]:
    """The ways to give objects to the variables of a pattern with which it is the literal."""
    if isinstance(pattern, Diagram):
        if isinstance(literal, Diagram) and (pattern.word, pattern.positive) == (literal.word, literal.positive):
            found = joined(bound, pattern.objects, literal.objects)
            if found is not None:
                yield found
    elif isinstance(literal, Metric):
        form, wanted = form_of(pattern), form_of(literal)
        if pattern.relation == literal.relation and len(form) == len(wanted):
            for sign in (1, -1) if pattern.relation in ("=", "!=") else (1,):
                yield from matched(list(form.items()), {term: sign * n for term, n in wanted.items()}, dict(bound))


def matched(items: list[tuple[Term, int]], wanted: dict[Term, int], bound: dict[str, str]) -> Iterator[dict[str, str]]:
    """The ways to match the terms of a pattern, each with one of those that are wanted."""
    if not items:
        yield bound
        return
    (pattern, number), *rest = items
    for term, coefficient in wanted.items():
        if term.word == pattern.word and coefficient == number:
            left = {other: n for other, n in wanted.items() if other != term}
            for points in orders(term):
                found = joined(bound, pattern.points, points)
                if found is not None:
                    yield from matched(rest, left, found)


def orders(term: Term) -> list[tuple[str, ...]]:
    """The orders in which the points of a term may be written."""
    if term.word == "area":
        return sorted(set(permutations(term.points)))
    return sorted({term.points, term.points[::-1]})


def joined(bound: Names, variables: Sequence[str], objects: Sequence[str]) -> dict[str, str] | None:
    """The bindings with these besides, or none where a variable has another object."""
    found = dict(bound)
    for variable, name in zip(variables, objects):
        if found.setdefault(variable, name) != name:
            return None
    return found


def matches_turned(pattern: Literal, literal: Literal, bound: Names) -> Iterator[dict[str, str]]:
    """The same, where a literal that says the same of the diagram counts too."""
    for each in [pattern, *turned(pattern)]:
        yield from matches(each, literal, bound)


def all_match(patterns: Sequence[Literal], literals: Iterable[Literal]) -> list[Literal] | None:
    """Literals that match the patterns, all with one choice of objects; none where there are none."""
    known = list(literals)

    def search(at: int, bound: Names, found: list[Literal]) -> list[Literal] | None:
        if at == len(patterns):
            return found
        for literal in known:
            for new in matches_turned(patterns[at], literal, bound):
                result = search(at + 1, new, [*found, literal])
                if result is not None:
                    return result
        return None

    return search(0, {}, [])


# ---- patterns as people write them


def parse_patterns(text: str) -> list[Literal]:
    """The patterns of a text, with `;` between two. Each blank is a variable of its own."""
    numbers = count(1)
    words = [f"{STANDS_FOR_ANY}{next(numbers)}" if word == ANY else word for word in text.split()]
    patterns = []
    for _, part in split_at(words, ";"):
        patterns += parse_pattern(part)[:1]
    return patterns


def parse_pattern(words: list[str]) -> list[Literal]:
    """A pattern, for each choice of sorts that its words allow; its names are of any objects."""
    found: list[Literal] = []
    first: Fault | None = None
    for sorts in sorts_of(words):
        try:
            found.append(parse_literal(words, sorts))
        except Fault as fault:
            first = first or fault
    if not found:
        raise first or malformed("a pattern is a literal, in which `_` is any object")
    return found


def sorts_of(words: list[str]) -> list[dict[str, Sort]]:
    """The sorts that the names of a literal may have, as its first words say."""
    body = words[1:] if words[:1] == ["not"] else words
    names = [word for word in body if is_name(word)]
    if body and body[0] in PREDICATES:
        rows = [row for row in PREDICATES[body[0]] if len(row) == len(names)]
        return [dict(zip(names, row)) for row in rows] or [dict.fromkeys(names, Sort.POINT)]
    kinds = [Sort.POINT] if len(body) != 3 else list(Sort)
    return [dict.fromkeys(names, sort) for sort in kinds]


def blanked(name: str) -> str:
    """A name of a pattern as people wrote it."""
    return ANY if name.startswith(STANDS_FOR_ANY) else name


def has_any(literal: Literal) -> bool:
    """Whether a pattern has a blank."""
    return any(name.startswith(STANDS_FOR_ANY) for name in names_in(literal))
