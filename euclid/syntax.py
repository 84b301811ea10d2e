"""The lines and words of a book, each with its place, and what is wrong with one.

A text is decoded as Latin-1, so that a column counts bytes and every file can be read.
"""

from __future__ import annotations

import re
from dataclasses import dataclass
from enum import StrEnum
from functools import lru_cache

RESERVED = frozenset(
    """theorem points lines circles given made show proof end by hence let apply as claim superpose
    onto qed contradiction cases else not on inside center between meets seg ang area right point
    line circle side opposite of beyond from outside meet centers avoid define figure""".split()
)
NAME = re.compile(r"[A-Za-z][A-Za-z0-9_']{0,15}\Z")
TITLE = re.compile(r"[A-Za-z][A-Za-z0-9._-]{0,23}\Z")
NUMERAL = re.compile(r"[1-9][0-9]*\Z")
WORD = re.compile(r"[^ \t]+")


class FaultKind(StrEnum):
    """What may be wrong with a line, as `elements` names it."""

    MALFORMED = "malformed"
    UNKNOWN_NAME = "unknown-name"
    NAME_TAKEN = "name-taken"
    WRONG_SORT = "wrong-sort"
    LIMIT = "limit"
    UNENDED = "unended"


class Fault(Exception):
    """What is wrong with a line: its kind, words for people, and the number of the word, from 0."""

    def __init__(self, kind: FaultKind, message: str, at: int = 0) -> None:
        super().__init__(message)
        self.kind, self.message, self.at = kind, message, at

    def moved(self, by: int) -> Fault:
        """The same, where so many words come before those that were read."""
        return Fault(self.kind, self.message, self.at + by)


def malformed(message: str, at: int = 0) -> Fault:
    """A fault of form."""
    return Fault(FaultKind.MALFORMED, message, at)


@dataclass(frozen=True, slots=True)
class SourceLine:
    """A line of a text: its number, its text without the line's end, and its words with columns."""

    number: int
    text: str
    words: tuple[str, ...]
    columns: tuple[int, ...]

    def is_skipped(self) -> bool:
        """Whether the line says nothing: it is empty, or a comment."""
        return not self.words or self.words[0].startswith("#")

    def is_comment(self) -> bool:
        """Whether the line is a comment."""
        return bool(self.words) and self.words[0].startswith("#")

    def column(self, at: int) -> int:
        """The column of a word, from 1; behind the last word where there is none."""
        if at < len(self.columns):
            return self.columns[at]
        return self.columns[-1] + len(self.words[-1]) if self.words else 1

    def indent(self) -> str:
        """The blanks before the first word."""
        return self.text[: self.columns[0] - 1] if self.words else ""


def source_line(number: int, text: str) -> SourceLine:
    """A line from its text."""
    found = list(WORD.finditer(text))
    words = tuple(match.group() for match in found)
    return SourceLine(number, text, words, tuple(match.start() + 1 for match in found))


def lines_of(text: str) -> list[SourceLine]:
    """The lines of a text. A line ends with a line feed, perhaps with a carriage return before."""
    return list(lines_in(text))


@lru_cache(maxsize=1024)
def lines_in(text: str) -> tuple[SourceLine, ...]:
    """The same, kept for when the text comes again."""
    *parts, last = text.split("\n")
    ended = [part.removesuffix("\r") for part in parts] + ([last] if last else [])
    return tuple(source_line(number, part) for number, part in enumerate(ended, 1))


def count_of(number: int, word: str) -> str:
    """`1 name`, `2 names`."""
    return f"{number} {word}" + "s" * (number != 1)


def is_name(word: str) -> bool:
    """Whether a word may be the name of an object."""
    return bool(NAME.match(word)) and word not in RESERVED


def is_title(word: str) -> bool:
    """Whether a word may be the title of a theorem or a definition."""
    return bool(TITLE.match(word))


def split_at(words: list[str], mark: str) -> list[tuple[int, list[str]]]:
    """The runs of words between marks, each with the place of its first word."""
    runs, start = [], 0
    for at, word in enumerate([*words, mark]):
        if word == mark:
            runs.append((start, words[start:at]))
            start = at + 1
    return runs
