"""Which rules and constructions can give a literal, whatever the figure: read forwards and backwards."""

from __future__ import annotations

from collections.abc import Iterator, Sequence
from dataclasses import dataclass

from .literals import CIRCLE, LINE, PREDICATES, Diagram, Literal, Sort, names_in, negation, parse_literal, renamed, spell
from .matching import blanked, matches
from .rules import LETTERS, Construction, Rule, tables
from .syntax import Fault, is_name

FRESH = {Sort.POINT: "abcdefghpqxyz", LINE: "LMNK", CIRCLE: "ABC"}


@dataclass(frozen=True)
class Giver:
    """A line that gives a literal, and what it needs; other names on it are of any objects."""

    line: str
    rule: str
    is_backwards: bool
    needs: tuple[Literal, ...]
    words: str

    def shape(self) -> tuple[str, tuple[str, ...]]:
        """The same for givers that differ by names alone."""
        return self.rule, tuple(sorted(f"{each.word} {each.positive}" if isinstance(each, Diagram) else each.relation
                                       for each in self.needs))


def readings(words: list[str]) -> list[tuple[Literal, dict[str, Sort]]]:
    """A literal over any names, for each choice of sorts that it allows; letters of the rules have theirs."""
    body = words[1:] if words[:1] == ["not"] else words
    names = list(dict.fromkeys(word for word in body if is_name(word)))
    rows: list[Sequence[Sort]] = [[Sort.POINT] * len(names)]
    if body and body[0] in PREDICATES:
        rows = list(PREDICATES[body[0]])
    elif len(body) == 3:
        rows = [[sort] * len(names) for sort in Sort]
    found = []
    fault: Fault | None = None
    for row in rows:
        sorts = dict(zip(names, row))
        try:
            found.append((parse_literal(words, sorts), sorts))
        except Fault as each:
            fault = fault or each
    if not found and fault is not None:
        raise fault
    fitting = [pair for pair in found if all(LETTERS.get(name, sort) == sort for name, sort in pair[1].items())]
    return fitting or found


def givers(literal: Literal, sorts: dict[str, Sort]) -> list[Giver]:
    """What gives a literal: rules for `by`, transfers for `hence`, constructions; fewest needs first."""
    every = tables()
    rules = [giver for rule in (*every.diagram.values(), *every.transfer.values()) for giver in of_rule(rule, literal, sorts)]
    drawn = [giver for each in every.constructions for giver in of_construction(each, literal, sorts)]
    found: dict[tuple[str, tuple[str, ...]], Giver] = {}
    for giver in [*rules, *drawn]:
        found.setdefault(giver.shape(), giver)
    return sorted(found.values(), key=lambda giver: (kind_of(giver), giver.is_backwards, len(giver.needs)))


def kind_of(giver: Giver) -> int:
    """Rules come first, then transfers, then constructions."""
    return ("by", "hence", "let").index(giver.line.split()[0])


def of_rule(rule: Rule, literal: Literal, sorts: dict[str, Sort]) -> Iterator[Giver]:
    """The places of a rule at which a literal can stand."""
    for at, place in enumerate(rule.clause):
        for bound in matches(place, literal, {}):
            if any(sorts.get(name) != LETTERS[variable] for variable, name in bound.items()):
                continue
            names = completed(rule.variables, bound, sorts)
            needs = tuple(dict.fromkeys(
                renamed(negation(other), names) for n, other in enumerate(rule.clause) if n != at))
            if literal in needs:
                continue
            spelled = spelled_plain(literal)
            line = f"hence {spelled}" if rule.is_transfer else \
                f"by {rule.name} {' '.join(blanked(names[each]) for each in rule.variables)} : {spelled}"
            yield Giver(line, rule.name, at < len(rule.premises), needs, rule.words)


def of_construction(construction: Construction, literal: Literal, sorts: dict[str, Sort]) -> Iterator[Giver]:
    """The literals of a construction that can be this one, with what it avoids too."""
    pairs = [(each, "") for each in construction.gives]
    if construction.takes_avoid:
        point = construction.new[0]
        pairs += [(Diagram("=", (point, "x"), False), "x"), (Diagram("on", (point, "M"), False), "M"),
                  (Diagram("on", (point, "C"), False), "C")]
    for given, avoided in pairs:
        for bound in matches(given, literal, {}):
            if any(sorts.get(name) != LETTERS[variable] for variable, name in bound.items()):
                continue
            if any(bound.get(new) in set(bound.values()) - {bound.get(new)} for new in construction.new):
                continue
            letters = (*construction.new, *construction.arguments, *([avoided] if avoided else []))
            names = completed(letters, bound, sorts)
            if len({names[each] for each in construction.new} & {names[each] for each in letters if each not in construction.new}):
                continue
            words = [names.get(word, word) if len(word) == 1 else word for word in (*construction.new, *construction.pattern)]
            line = " ".join(["let", *map(blanked, words), *(["avoid", blanked(names[avoided])] if avoided else [])])
            needs = tuple(renamed(each, names) for each in construction.needs)
            yield Giver(line, construction.shape + (" avoid" if avoided else ""), False, needs, construction.words)


def completed(variables: Sequence[str], bound: dict[str, str], sorts: dict[str, Sort]) -> dict[str, str]:
    """Names for all variables: those that are bound, then letters that are not in use."""
    names = dict(bound)
    used = {*bound.values(), *sorts}
    for variable in variables:
        if variable not in names:
            choices = [variable, *FRESH[LETTERS[variable]], *(f"{variable}{n}" for n in range(1, 9))]
            names[variable] = next(each for each in choices if each not in used)
            used.add(names[variable])
    return names


def spelled_plain(literal: Literal) -> str:
    """A literal with `_` for each blank."""
    return spell(renamed(literal, {name: blanked(name) for name in names_in(literal)}))
