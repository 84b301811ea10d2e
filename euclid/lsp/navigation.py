"""Definitions, references and symbols."""

from __future__ import annotations

from collections.abc import Iterator

from ..roles import Role, roles_of
from ..script import Apply, Item, Let, Step, Superpose, Theorem
from ..syntax import SourceLine
from .protocol import Json
from .workspace import Project, Spot, location, word_range

FUNCTION, STRUCT, VARIABLE = 12, 23, 13  # kinds of symbols
MOST_SYMBOLS = 200


def items_titled(project: Project, title: str) -> list[Item]:
    """The items of a title."""
    return [item for item in project.book.items if item.title == title]


def role_at(spot: Spot) -> Role | None:
    """What the word under the cursor is, or none where there is no word."""
    if spot.line.is_skipped() or spot.at >= len(spot.line.words):
        return None
    return roles_of(spot.line.words)[spot.at]


def title_at(spot: Spot) -> str | None:
    """The title under the cursor, or none where the word is no title at its place."""
    return spot.word if role_at(spot) == Role.TITLE else None


def definition(spot: Spot) -> list[Json]:
    """Where the title or the object under the cursor is from. A rule is in no file of the library."""
    title = title_at(spot)
    if title is not None:
        return [location(spot.project, item.head, 1) for item in items_titled(spot.project, title)]
    item = spot.item()
    if item is None or not spot.word:
        return []
    found = [place for place in declarations(item, spot.word) if place[0].number <= spot.number]
    return [location(spot.project, line, at) for line, at in found[-1:]]


def declarations(item: Item, name: str) -> list[tuple[SourceLine, int]]:
    """The words of an item that bring an object of this name into scope."""
    found = []
    for line in item.lines:
        words = line.words
        if not words or words[0] not in ("points", "lines", "circles", "made"):
            continue
        found += [(line, at) for at, word in enumerate(words) if at > 0 and word == name]
    if isinstance(item, Theorem):
        for step in item.steps():
            found += [(step.line, at) for at in new_places(step) if step.line.words[at] == name]
    return sorted(found, key=lambda place: (place[0].number, place[1]))


def new_places(step: Step) -> range:
    """The numbers of the words of a step that are new names."""
    words = step.line.words
    if isinstance(step, Let):
        return range(1, 1 + len(step.new))
    if isinstance(step, Apply) and step.new:
        return range(len(words) - len(step.new), len(words))
    if isinstance(step, Superpose):
        at = words.index("as")
        return range(at + 1, at + 3)
    return range(0)


def references(spot: Spot, with_declaration: bool) -> list[Json]:
    """All places of the title, rule or object under the cursor."""
    title = title_at(spot)
    if title is not None:
        found = list(places_of(spot.project.book.lines, title, Role.TITLE))
        if not with_declaration:
            found = [(line, at) for line, at in found if line.words[0] not in ("theorem", "define")]
        return [location(spot.project, line, at) for line, at in found]
    if role_at(spot) == Role.RULE:
        return [location(spot.project, line, at) for line, at in places_of(spot.project.book.lines, spot.word, Role.RULE)]
    item = spot.item()
    if item is None or role_at(spot) != Role.NAME:
        return []
    return [location(spot.project, line, at) for line, at in places_of(item.lines, spot.word, Role.NAME)]


def places_of(lines: list[SourceLine], word: str, role: Role) -> Iterator[tuple[SourceLine, int]]:
    """The words of these lines that are a word in a role."""
    for line in lines:
        if word in line.words and not line.is_skipped():
            roles = roles_of(line.words)
            yield from ((line, at) for at, each in enumerate(line.words) if each == word and roles[at] == role)


def document_symbols(project: Project, own: set[int]) -> list[Json]:
    """The theorems and definitions of a document, whose lines in the joined text are given."""
    found = []
    for item in project.book.items:
        if item.first in own:
            start, end = project.library.place(item.first), project.library.place(item.last)
            last = item.lines[-1]
            whole = {"start": {"line": start.line - 1, "character": 0},
                     "end": {"line": end.line - 1, "character": len(last.text)}}
            found.append({"name": item.title or "?", "kind": kind_of(item), "detail": item.comment[:80],
                          "range": whole, "selectionRange": word_range(start.line, item.head, 1)})
    return found


def workspace_symbols(projects: list[Project], query: str) -> list[Json]:
    """Theorems and definitions whose title or comment has the letters of a query."""
    found = []
    for project in projects:
        for item in project.book.items:
            if query.lower() in item.title.lower() or (len(query) > 2 and query.lower() in item.comment.lower()):
                found.append({"name": item.title, "kind": kind_of(item), "location": location(project, item.head, 1)})
    return found[:MOST_SYMBOLS]


def kind_of(item: Item) -> int:
    """The kind of a symbol."""
    return FUNCTION if isinstance(item, Theorem) else STRUCT


def folds(project: Project, own: set[int]) -> list[Json]:
    """What may be folded in a document: items, proofs, blocks, runs of comments."""
    found = []

    def fold(first: SourceLine, last: SourceLine, kind: str = "region") -> None:
        if last.number > first.number:
            start, end = project.library.place(first.number).line - 1, project.library.place(last.number).line - 1
            found.append({"startLine": start, "endLine": end, "kind": kind})

    for item in project.book.items:
        if item.first not in own:
            continue
        comments = [line for line in item.lines if line.number < item.first]
        if len(comments) > 1:
            fold(comments[0], comments[-1], "comment")
        fold(item.head, item.lines[-1])
        if isinstance(item, Theorem):
            if item.proof_line is not None:
                fold(item.proof_line, item.lines[-1])
            for step in item.steps():
                for block in step.blocks():
                    inner = list(block.all_steps())
                    if inner:
                        fold(inner[0].line, inner[-1].line)
    return found
