"""Completion and signature help: what may come at a place of a line."""

from __future__ import annotations

from ..contexts import start_of
from ..literals import CIRCLE, LINE, POINT, PREDICATES, TERMS, Sort, spell
from ..reading import STEPS
from ..rules import LETTERS, tables
from ..script import Step, Theorem
from ..statements import Statement
from .protocol import Json
from .workspace import Spot

KEYWORD, FUNCTION, VARIABLE, SNIPPET, RULE = 14, 3, 6, 15, 4  # kinds of the protocol
STATEMENT = ("points", "lines", "circles", "given", "made points", "show", "proof")
SORTED = {"points": POINT, "lines": LINE, "circles": CIRCLE}


def item(label: str, kind: int, detail: str = "", insert: str = "", rank: int = 5) -> dict[str, Json]:
    """One item."""
    found: dict[str, Json] = {"label": label, "kind": kind, "sortText": f"{rank}{label}"}
    if detail:
        found["detail"] = detail
    if insert:
        found |= {"insertText": insert, "insertTextFormat": 2}
    return found


def complete(spot: Spot) -> list[Json]:
    """What may come where the cursor is."""
    words = list(spot.line.words[: spot.at])
    if not words:
        return keywords(spot)
    if words == ["by"]:
        return rules()
    if words == ["apply"]:
        return titles(known_theorems(spot), "apply")
    if words[-1] == "as" and words[0] in ("given", "show", "claim", "superpose"):
        return titles(known_definitions(spot), "as")
    if words[0] in ("theorem", "define", "points", "lines", "circles", "made", "proof", "end", "contradiction"):
        return []
    scope = scope_at(spot)
    if words[0] == "let" and not any(word in LET_WORDS for word in words) and len(words) >= 2:
        return shapes(len(words) - 1) + names(scope, None)
    wanted = wanted_sort(spot, words)
    found = names(scope, wanted)
    if is_literal_start(words):
        found += [item(word, KEYWORD) for word in (*PREDICATES, "not", *TERMS)]
    return found


LET_WORDS = {"point", "on", "line", "circle", "meet", "side", "opposite", "inside", "outside"}


def keywords(spot: Spot) -> list[Json]:
    """The words that may begin a line here."""
    theorem = spot.item()
    if theorem is None:
        head = [item("theorem", SNIPPET, "a theorem", "theorem ${1:TITLE}\npoints ${2:a b}\ngiven $3\nshow $4\nproof\n$0\nqed\nend")]
        return head + [item("define", SNIPPET, "a definition", "define ${1:TITLE}\npoints ${2:a b}\nshow $0\nend")]
    if isinstance(theorem, Theorem) and theorem.proof_line is not None and spot.number > theorem.proof_line.number:
        return [item(word, KEYWORD) for word in (*STEPS, "else", "end")]
    return [item(word, KEYWORD) for word in (*STATEMENT, "end")]


def rules() -> list[Json]:
    """All rules that `by` may cite, with their variables."""
    found = []
    for rule in tables().diagram.values():
        places = " ".join(f"${{{at}:{name}}}" for at, name in enumerate(rule.variables, 1))
        literal = spell(rule.conclusions[0]) if rule.conclusions else ""
        found.append(item(rule.name, RULE, rule.words, f"{rule.name} {places} : ${{0:{literal}}}"))
    return found


def titles(statements: list[Statement], word: str) -> list[Json]:
    """Titles with placeholders for their objects; the latest first."""
    found = []
    for rank, statement in enumerate(reversed(statements)):
        places = " ".join(f"${{{at}:{name}}}" for at, (name, _) in enumerate(statement.declared, 1))
        start = len(statement.declared) + 1
        new = " ".join(f"${{{at}:{name}}}" for at, (name, _) in enumerate(statement.made, start))
        text = f"{statement.title} {places}" + (f" as {new}" if statement.made and word == "apply" else "")
        shown = " ; ".join(map(spell, statement.shown))
        found.append(item(statement.title, FUNCTION, shown, text) | {"sortText": f"{rank:04}"})
    return found


def shapes(new: int) -> list[Json]:
    """The shapes of `let` after so many new names."""
    found = []
    for each in tables().constructions:
        if len(each.new) == new:
            letters = list(each.arguments)
            words = [f"${{{letters.index(word) + 1}:{word}}}" if len(word) == 1 else word for word in each.pattern]
            found.append(item(" ".join(each.pattern), SNIPPET, each.words, " ".join(words), 1))
    return found


def names(scope: dict[str, Sort], wanted: Sort | None) -> list[Json]:
    """The objects in scope, those of the wanted sort first, the newest first."""
    found = []
    for rank, (name, sort) in enumerate(reversed(scope.items())):
        first = 0 if wanted in (None, sort) else 1
        found.append(item(name, VARIABLE, sort.value) | {"sortText": f"{first}{rank:03}"})
    return [each for each in found if wanted is None or each["sortText"].startswith("0")] or found


def is_literal_start(words: list[str]) -> bool:
    """Whether a literal may begin after these words."""
    return words[-1] in ("hence", "cases", "claim", "given", "show", ":", ";", "not", "+", "=", "<", "<=", "!=")


def scope_at(spot: Spot) -> dict[str, Sort]:
    """The objects in scope on the line of the cursor, as far as the text before it reads."""
    theorem = spot.item()
    if theorem is None:
        return {}
    if isinstance(theorem, Theorem) and theorem.proof_line is not None and spot.number > theorem.proof_line.number:
        situation = spot.situation()
        if situation is not None:
            return dict(situation.context.sorts)
        return scope_after(theorem, spot.number)
    statement = theorem.statement
    return dict(statement.declared + statement.made)


def scope_after(theorem: Theorem, number: int) -> dict[str, Sort]:
    """The objects of a proof that was read only in part, blocks that are closed left out roughly."""
    scope = start_of(theorem).sorts
    last: Step | None = None
    for step in theorem.steps():
        if step.line.number >= number:
            break
        scope.update(getattr(step, "new", []))
        last = step
    return scope if last or scope else {}


def wanted_sort(spot: Spot, words: list[str]) -> Sort | None:
    """The sort that the next word has to have, where the words before say so."""
    if words[0] == "by" and len(words) >= 2 and ":" not in words:
        rule = tables().diagram.get(words[1])
        if rule and len(words) - 2 < len(rule.variables):
            return rule.sorts[len(words) - 2]
    if words[0] == "apply" and "as" not in words:
        used = next((each for each in known_theorems(spot) if each.title == words[1]), None) if len(words) > 1 else None
        if used and len(words) - 2 < len(used.declared):
            return used.declared[len(words) - 2][1]
    for back, word in enumerate(reversed(words)):
        if word in TERMS:
            return POINT
        if word in PREDICATES:
            sorts = {row[back] for row in PREDICATES[word] if back < len(row)}
            return sorts.pop() if len(sorts) == 1 else None
        if word in ("line", "circle", "between", "beyond", "from", "of", "centers"):
            return POINT
        if word in LETTERS and back > 3:
            break
    return None


def known_theorems(spot: Spot) -> list[Statement]:
    """The theorems that may be applied on the line."""
    theorem = spot.item()
    known = spot.project.known_before(theorem) if theorem else spot.project.book.known
    return list(known.theorems.values())


def known_definitions(spot: Spot) -> list[Statement]:
    """The definitions that an item on the line may mean."""
    theorem = spot.item()
    known = spot.project.known_before(theorem) if theorem else spot.project.book.known
    return list(known.definitions.values())


def signature(spot: Spot) -> Json | None:
    """The rule or theorem of the line, with the argument that the cursor is at."""
    words = list(spot.line.words)
    if len(words) < 2:
        return None
    if words[0] == "by" and (rule := tables().diagram.get(words[1])):
        letters, says = list(rule.variables), rule.words
    elif words[0] == "apply" and (used := next((e for e in known_theorems(spot) if e.title == words[1]), None)):
        letters = [name for name, _ in used.declared]
        says = "given " + " ; ".join(map(spell, used.given)) if used.given else ""
    else:
        return None
    label = f"{words[1]} {' '.join(letters)}"
    starts, at = [], len(words[1]) + 1
    for letter in letters:
        starts.append([at, at + len(letter)])
        at += len(letter) + 1
    parameters = [{"label": start} for start in starts]
    active = max(spot.at - 2, 0)
    return {"signatures": [{"label": label, "documentation": says, "parameters": parameters}],
            "activeSignature": 0, "activeParameter": min(active, len(letters))}
