"""What each word of a line is, by the grammar of books: a keyword, a title, a rule, a name or else."""

from __future__ import annotations

from collections.abc import Sequence
from enum import StrEnum

from .syntax import RESERVED, is_name


class Role(StrEnum):
    """What a word of a line is."""

    KEYWORD = "keyword"
    TITLE = "title"
    RULE = "rule"
    NAME = "name"
    OTHER = "other"  # signs, numbers, blanks, and what is none of these


SIGNS = {"same-side"}


def roles_of(words: Sequence[str]) -> list[Role]:
    """The role of each word of a line that is no comment."""
    roles = [role_of(word) for word in words]
    head = words[0] if words else ""
    if head in ("theorem", "define", "apply", "by") and len(words) > 1:
        roles[1] = Role.RULE if head == "by" else Role.TITLE
    if head in ("given", "show", "claim", "superpose"):
        start = words.index("show") if head == "superpose" and "show" in words else 0
        for at in range(start + 1, len(words)):
            if words[at - 1] == "as" and (at - 1 == start + 1 or words[at - 2] == ";"):
                roles[at] = Role.TITLE
    return roles


def role_of(word: str) -> Role:
    """The role of a word where it stands for no title and no rule."""
    if word in RESERVED or word in SIGNS:
        return Role.KEYWORD
    return Role.NAME if is_name(word) else Role.OTHER
