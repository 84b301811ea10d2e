"""What a theorem says, sentence by sentence: where it uses a definition, the definition is named."""

from __future__ import annotations

from collections.abc import Mapping, Sequence
from dataclasses import dataclass

from ..forms import literals_in
from ..literals import LINE, POINT, Literal, Sort
from ..script import Theorem
from ..statements import Known
from ..syntax import Fault, split_at
from .markup import esc, link
from .notation import Notation, grouped

AS = "as"


@dataclass(frozen=True)
class Said:
    """A short sentence of a statement, as HTML, with the literals that it says."""

    text: str
    literals: Sequence[Literal]


def said_in(theorem: Theorem, known: Known, notation: Notation, sorts: Mapping[str, Sort], word: str, root: str) -> list[Said]:
    """The sentences of the lines of a statement that begin with a word: `given` or `show`."""
    try:
        return [each for words in lines_of(theorem, word) for each in said_by(words, known, notation, sorts, root)]
    except Fault:
        whole = theorem.statement.given if word == "given" else theorem.statement.shown
        return [Said(esc(text), group) for text, group in grouped(notation, whole, sorts)]


def lines_of(theorem: Theorem, word: str) -> list[list[str]]:
    """The words after the first of the lines of a statement that begin with it."""
    last = theorem.proof_line.number if theorem.proof_line else theorem.last + 1
    return [list(line.words[1:]) for line in theorem.lines
            if theorem.first <= line.number < last and line.words[:1] == (word,)]


def said_by(words: list[str], known: Known, notation: Notation, sorts: Mapping[str, Sort], root: str) -> list[Said]:
    """The sentences of one line."""
    found: list[Said] = []
    waiting: list[Literal] = []
    for _, part in [*split_at(words, ";"), (0, [AS])]:
        if part[:1] != [AS]:
            waiting += literals_in(part, 0, sorts, known)
            continue
        found += [Said(esc(text), group) for text, group in grouped(notation, waiting, sorts)]
        waiting = []
        if len(part) > 1:
            found.append(Said(defined(part, known, notation, root), literals_in(part, 0, sorts, known)))
    return found


def defined(part: list[str], known: Known, notation: Notation, root: str) -> str:
    """A use of a definition: its title with a link, its points, its lines and circles."""
    declared = known.definitions[part[1]].declared
    named = [(notation.name(name, sort), sort) for name, (_, sort) in zip(part[2:], declared)]
    points = ", ".join(name for name, sort in named if sort == POINT)
    curves = ", ".join(name for name, sort in named if sort != POINT)
    kind = link(f"{root}definitions.html#{part[1]}", esc(part[1]))
    lines = f" on {esc(curves)}" if curves and all(sort in (POINT, LINE) for _, sort in named) else f" with {esc(curves)}" if curves else ""
    return f"{kind} {esc(points)}{lines}"
