"""Names exchanged in a book: an object in one theorem or definition, or a title everywhere."""

from __future__ import annotations

from dataclasses import dataclass

from .roles import Role, roles_of
from .script import Item
from .syntax import SourceLine, is_name, is_title


class NotRenamed(Exception):
    """Why a name cannot be exchanged."""


@dataclass(frozen=True)
class Renaming:
    """What is exchanged: a name in one item, or a title."""

    old: str
    new: str
    inside: Item | None = None  # none for a title

    @property
    def role(self) -> Role:
        """What the word is."""
        return Role.TITLE if self.inside is None else Role.NAME

    def touches(self, line: SourceLine) -> bool:
        """Whether names of this line may be exchanged."""
        return not line.is_skipped() and (
            self.inside is None or self.inside.first <= line.number <= self.inside.last)

    def places(self, line: SourceLine) -> list[int]:
        """The words of a line that are exchanged, by their numbers."""
        return self.places_in(line) if self.touches(line) else []

    def places_in(self, line: SourceLine) -> list[int]:
        """The same for a line of the item, wherever that stands."""
        roles = roles_of(line.words)
        return [at for at, word in enumerate(line.words) if word == self.old and roles[at] == self.role]

    def applied(self, line: SourceLine) -> str:
        """The line with the new name; all between the words stays."""
        return self.exchanged(line) if self.touches(line) else line.text

    def exchanged(self, line: SourceLine) -> str:
        """The same for a line of the item, wherever that stands."""
        text, end = line.text, len(self.old)
        for at in reversed(self.places_in(line)):
            start = line.columns[at] - 1
            text = text[:start] + self.new + text[start + end :]
        return text

    def check_form(self) -> None:
        """That the new name is one."""
        if self.inside is None and not is_title(self.new):
            raise NotRenamed(f"`{self.new}` is no title: a letter and at most 23 more letters, digits, `.`, `_` or `-`")
        if self.inside is not None and not is_name(self.new):
            raise NotRenamed(f"`{self.new}` is no name: a letter and at most 15 more letters, digits, `_` or `'`, "
                             "and no reserved word")

    def check_free(self, lines: list[SourceLine]) -> None:
        """That the old name is there, and the new one is not."""
        where = f"`{self.inside.title}`" if self.inside else "these books"
        if not any(self.places(line) for line in lines):
            raise NotRenamed(f"{where} {'has' if self.inside else 'have'} no {self.role.value} `{self.old}`")
        other = Renaming(self.new, self.old, self.inside)
        taken = next((line for line in lines if other.places(line)), None)
        if taken is not None:
            raise NotRenamed(f"the {self.role.value} `{self.new}` is there already, first on `{taken.text.strip()}`")


def differs_by_more(old: str, new: str, renaming: Renaming) -> str:
    """What differs in two answers of `elements check` but for the exchange; nothing where it is all."""
    one, two = old.split("\n"), new.split("\n")
    if len(one) != len(two):
        return f"the last line became `{two[-2] if len(two) > 1 else ''}`"
    title = ""
    for before, after in zip(one, two):
        words, others = before.split(" "), after.split(" ")
        title = words[1] if words[0] in ("theorem", "unlicensed", "too-wide") else title
        pairs = {pair for pair in zip(words, others) if pair[0] != pair[1]}
        elsewhere = renaming.inside is not None and title != renaming.inside.title
        if len(words) != len(others) or pairs - {(renaming.old, renaming.new)} or pairs and elsewhere:
            return f"`{before}` became `{after}`"
    return ""


def comments_with(lines: list[SourceLine], word: str) -> list[tuple[SourceLine, int]]:
    """The comments that have a word, perhaps with a sign behind it, each with the number of the word."""
    return [(line, at) for line in lines if line.is_comment()
            for at, each in enumerate(line.words) if each.strip("#,.:;()`'\"") == word][:20]
