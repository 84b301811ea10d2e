"""Semantic tokens: what each word of a document is."""

from __future__ import annotations

from ..literals import PREDICATES, TERMS
from ..roles import Role, roles_of
from ..syntax import RESERVED, SourceLine
from .documents import units

TYPES = ["keyword", "function", "variable", "number", "operator", "comment", "type", "macro"]
KEYWORD, FUNCTION, VARIABLE, NUMBER, OPERATOR, COMMENT, TYPE, MACRO = range(len(TYPES))
KINDS = {Role.TITLE: FUNCTION, Role.RULE: MACRO, Role.NAME: VARIABLE}


def kinds_of(line: SourceLine) -> list[int]:
    """What each word of a line is."""
    return [KINDS.get(role) or kind_of(word) for word, role in zip(line.words, roles_of(line.words))]


def kind_of(word: str) -> int:
    """What a keyword or a sign is."""
    if word in PREDICATES or word in TERMS:
        return TYPE
    if word in RESERVED:
        return KEYWORD
    return NUMBER if word.isdigit() else OPERATOR


def tokens(lines: list[SourceLine]) -> list[int]:
    """The tokens of the lines of a document, as the protocol packs them."""
    data: list[int] = []
    last_line = last_start = 0
    for number, line in enumerate(lines):
        if line.is_comment():
            start = units(line.indent())
            parts = [(start, units(line.text) - start, COMMENT)]
        else:
            parts = [(units(line.text[: column - 1]), units(word), kind)
                     for column, word, kind in zip(line.columns, line.words, kinds_of(line))]
        for start, length, kind in parts:
            ahead = number - last_line
            data += [ahead, start if ahead else start - last_start, length, kind, 0]
            last_line, last_start = number, start
    return data
