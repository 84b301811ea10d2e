"""What to say of a fault: the reader's words, and what the author most likely meant.

Which fault a book has, and on which line, `elements` says; this looks for words about it.
"""

from __future__ import annotations

import difflib
import re
from collections.abc import Callable, Iterable, Iterator
from dataclasses import dataclass, field

from .literals import PLURALS, POINT, PREDICATES, TERMS, Sort, spell_all
from .reading import BEFORE_PROOF, STEPS
from .rules import LETTERS, tables
from .script import Book, Definition, Item
from .syntax import RESERVED, Fault, FaultKind, SourceLine, is_name, is_title

GLUED = re.compile(r"(!=|<=|>=|[=<>;:+,])")
BYTE_ORDER_MARK = "\xef\xbb\xbf"
WRITTEN = {"≠": "!=", "≤": "<=", "=": "=", "∠": "ang", "≥": "<=, with the lesser side first"}
CAUSE = "cause: "  # begins a hint that says by itself what is wrong
AFTER = "after: "  # begins one that does not belong into the first line
STEP_WORDS = {  # first words that proofs in prose have, and the steps that say it
    "let": ["draw", "construct", "join", "produce", "take"],
    "cases` or `claim": ["suppose", "assume", "if"],
    "hence": ["therefore", "thus", "so", "then", "have", "since"],
}
KIND_WORDS = {
    "malformed": "this line may not stand here as it is", "unknown-name": "a name that nothing before it has",
    "name-taken": "a name that is taken", "wrong-sort": "an object or a term of another sort than belongs here",
    "unended": "the text ends inside a theorem or a definition",
}


@dataclass
class FaultWords:
    """What to say of a fault: its place in the line, one sentence, and more of them."""

    line: SourceLine
    start: int
    end: int
    message: str
    sentences: list[str] = field(default_factory=list)


Where = Callable[[int], str]  # a line of the joined text, in words


def words_of_fault(book: Book, item: Item | None, line: SourceLine, said: str, fault: Fault | None,
                   where: Where) -> FaultWords:
    """What to say where `elements` finds a fault on a line; the reader's own fault, if it is the same line's."""
    kind = said.split()[0] if said else "malformed"
    if kind == FaultKind.LIMIT:
        what = said.split()[-1]
        return said_of(line, 0, f"a limit of the language is passed: {what}; docs/book.md has the limits", [])
    if fault is None:
        hints = FaultLooker(book, item, line, 0, where).hints(kind)
        return said_of(line, 0, KIND_WORDS.get(kind, kind), hints)
    return said_of(line, fault.at, fault.message, FaultLooker(book, item, line, fault.at, where).hints(fault.kind.value))


def said_of(line: SourceLine, at: int, message: str, hints: list[str]) -> FaultWords:
    """A message: a hint that names the cause comes first, any other one after the reader's words."""
    start = line.column(at)
    end = start + (len(line.words[at]) if at < len(line.words) else 0)
    if hints and hints[0].startswith(CAUSE):
        return FaultWords(line, start, end, hints[0].removeprefix(CAUSE), [message, *hints[1:]])
    if hints and hints[0].startswith(AFTER):
        return FaultWords(line, start, end, message, [hints[0].removeprefix(AFTER), *hints[1:]])
    text = f"{message}; {hints[0]}" if hints else message
    return FaultWords(line, start, end, text, hints[1:])


class FaultLooker:
    """Looks at the words around a fault for what the author meant."""

    def __init__(self, book: Book, item: Item | None, line: SourceLine, at: int, where: Where) -> None:
        self.book, self.item, self.line, self.at, self.where = book, item, line, at, where
        self.words = line.words
        self.word = self.words[at] if at < len(self.words) else ""
        self.scope: dict[str, Sort] = item.scope if item else {}
        self.said = item.fault.message if item and item.fault else ""

    def hints(self, kind: str) -> list[str]:
        """What may be meant, the likeliest first."""
        if kind == FaultKind.MALFORMED:
            found = list(self.bytes()) or [*self.closed(), *self.signs(), *self.first_word(), *self.misspelled(),
                                           *self.title(), *self.shapes(), *self.statement()]
        elif kind == FaultKind.UNKNOWN_NAME:
            found = [*self.later_title(), *self.close_rule(), *self.segment(), *self.later_object(), *self.close_object()]
        elif kind == FaultKind.WRONG_SORT:
            found = [*self.order_of_names(), *self.drawn_as()]
        elif kind == FaultKind.NAME_TAKEN:
            found = list(self.taken())
        else:
            found = []
        return list(dict.fromkeys(found))

    # Form

    def bytes(self) -> Iterator[str]:
        """Bytes that a book may not have."""
        text = self.line.text
        if text.startswith(BYTE_ORDER_MARK):
            yield f"{CAUSE}the file begins with a byte-order mark, three bytes that some editors put first; save it without"
            return
        place = next((at for at, c in enumerate(text) if not (c == "\t" or " " <= c <= "~")), None)
        if place is None:
            return
        rest = text[place:].encode("latin-1")
        sign = rest[:4].decode("utf-8", "ignore")[:1]
        if sign and sign.isprintable():
            meant = f"; write `{WRITTEN[sign]}`" if sign in WRITTEN else ""
            yield f"{CAUSE}a book is ASCII text, and `{sign}` in column {place + 1} is not{meant}"
        else:
            yield f"{CAUSE}a book is ASCII text, and the byte 0x{rest[0]:02x} in column {place + 1} is not"

    def closed(self) -> Iterator[str]:
        """The line that closed the last block."""
        before = [line for line in self.lines() if line.number < self.line.number]
        if before and "the block is closed" in self.said:
            yield f"it was closed at {self.where(before[-1].number)}: `{' '.join(before[-1].words)}`"

    def signs(self) -> Iterator[str]:
        """Signs that are glued to words, or that do not exist."""
        comment = next((at for at, word in enumerate(self.words) if at and word.startswith("#")), None)
        if comment is not None:
            yield f"{CAUSE}a comment is a line of its own, with `#` as its first word"
        for word in self.words:
            if word in (">", ">="):
                lesser = "<" if word == ">" else "<="
                yield f"{CAUSE}there is no sign `{word}`: the lesser side comes first, with `{lesser}`"
            parts = [part for part in GLUED.split(word) if part]
            if len(parts) > 1 and "," in parts:
                yield f"{CAUSE}names have blanks between them, and no commas: `{' '.join(self.words).replace(',', '')}`"
            elif len(parts) > 1:
                sign = next(part for part in parts if GLUED.fullmatch(part))
                yield f"{CAUSE}`{sign}` is a word of its own, with a blank on either side: `{' '.join(parts)}`"
        if self.words[0] == "hence" and ";" in self.words:
            yield f"{CAUSE}`hence` has one literal; write a line for each"
        if self.words[0] in ("hence", "cases") and self.words[1:2] == ("as",):
            yield f"{CAUSE}`{self.words[0]}` has one literal, and no item; write a line for each, or `claim as ..`"

    def first_word(self) -> Iterator[str]:
        """What begins the line."""
        word = self.words[0]
        step = next((step for step, words in STEP_WORDS.items() if word.lower() in words), None)
        if step is not None and "no step begins" in self.said:
            yield f"did you mean `{step}`?"
        elif self.at == 0 and word not in STEPS and word not in BEFORE_PROOF:
            yield from meant(word, [*STEPS, *BEFORE_PROOF, "end", "else", "theorem", "define"])
        if word == "by" and ":" not in self.words:
            rule = tables().rule(self.words[1]) if len(self.words) > 1 else None
            is_glued = any(GLUED.search(each) for each in self.words)
            if rule and len(self.words) > 2 + len(rule.variables) and not is_glued:
                place = 2 + len(rule.variables)
                yield f"{CAUSE}a colon is missing: `{' '.join([*self.words[:place], ':', *self.words[place:]])}`"
        if word == "by" and len(self.words) > 1 and self.words[1] in tables().transfer:
            yield (f"{CAUSE}`{self.words[1]}` is a transfer rule, and these are not cited: write `hence LITERAL`, "
                   "and the program finds the rule")

    def misspelled(self) -> Iterator[str]:
        """A word where a literal begins, or a name that is a word of the language."""
        if self.word in RESERVED and "is no name" in self.said:
            yield f"{CAUSE}`{self.word}` is a word of the language; choose another name"
        elif self.word and not is_name(self.word) and "is no name" in self.said:
            yield "a name is a letter and at most 15 more letters, digits, `_` or `'`"
        titles = [item.title for item in self.book.items if isinstance(item, Definition)]
        if self.word in titles and self.words[self.at - 1] != "as":
            yield f"{CAUSE}before the title of a definition comes `as`: `as {self.word} ..`"
        elif "begins no literal" in self.said or "a literal begins with" in self.said:
            yield from meant(self.word, [*PREDICATES, *TERMS, "not"])

    def title(self) -> Iterator[str]:
        """A title of more words."""
        if self.words[0] in ("theorem", "define") and len(self.words) > 2:
            joined = "-".join(self.words[1:])
            yield f"{CAUSE}a title is one word: `{joined}`" if is_title(joined) else f"{CAUSE}a title is one word"

    def shapes(self) -> Iterator[str]:
        """Constructions that are near."""
        if self.words[0] != "let" or "construction" not in self.said:
            return
        if "on" in self.words and len(self.words) == 5:
            new, names = self.words[1], self.words[3:]
            yield f"{CAUSE}the point where two lines or circles cross is `let {new} meet {' '.join(names)}`"
            return
        known = {word for each in tables().constructions for word in each.pattern if len(word) > 1}
        said = known & set(self.words[1:])
        near = [each for each in tables().constructions if said and said == {w for w in each.pattern if len(w) > 1}]
        if near:
            yield f"{CAUSE}with {' and '.join(f'`{word}`' for word in sorted(said))} the line is " + " or ".join(
                dict.fromkeys(f"`{each.line}`" for each in near))

    def statement(self) -> Iterator[str]:
        """What a theorem says, where its arguments or its new objects are too few or too many."""
        if self.words[0] != "apply" or not re.search(r"` (takes|makes) ", self.said):
            return
        used = next((item for item in self.book.items if item.title == self.words[1]), None)
        if used is not None:
            objects = " ".join(name for name, _ in used.statement.declared)
            yield f"{AFTER}{used.title} {objects}: given {spell_all(used.statement.given) or 'nothing'}"
            yield f"    show {spell_all(used.statement.shown)}"

    # Names

    def later_title(self) -> Iterator[str]:
        """A theorem or a definition that comes later, or is this one."""
        title = self.word
        is_title_here = self.at > 0 and self.words[self.at - 1] in ("apply", "as") and self.words[0] != "let"
        if self.item is None or not is_title_here:
            return
        if title == self.item.title:
            yield f"{CAUSE}a theorem cannot be applied in its own proof"
            return
        later = next((item for item in self.book.items if item.title == title and item.first > self.line.number), None)
        if later is not None:
            what = "definition" if isinstance(later, Definition) else "theorem"
            yield f"that {what} is further down, at {self.where(later.first)}; what is used has to come before"
        else:
            yield from meant(title, [item.title for item in self.book.items if item.first < self.line.number])

    def close_rule(self) -> Iterator[str]:
        """A rule with a name like this one."""
        if self.words[0] == "by" and self.at == 1 and self.word not in tables().transfer:
            yield from meant(self.word, tables().diagram)

    def segment(self) -> Iterator[str]:
        """`AB` for `seg a b`."""
        kind, term = {2: ("a segment", "seg"), 3: ("an angle", "ang")}.get(len(self.word), ("", ""))
        points = [c if self.scope.get(c) == POINT else c.lower() for c in self.word]
        if term and all(self.scope.get(point) == POINT for point in points) and len(set(points)) == len(points):
            yield f"{kind} is written `{term} {' '.join(points)}`"

    def lines(self) -> list[SourceLine]:
        """The lines of the item."""
        return [line for line in self.item.lines if not line.is_skipped()] if self.item else []

    def later_object(self) -> Iterator[str]:
        """An object that is drawn further down, or was in a block that is closed."""
        if not is_name(self.word) or (self.at and self.words[self.at - 1] in ("apply", "as", "by")):
            return
        drawn = [line for line in self.lines() if line.words[0] != "made" and self.word in new_names(line)]
        if drawn and drawn[0].number > self.line.number:
            yield f"it is drawn further down, at {self.where(drawn[0].number)}"
        elif drawn and drawn[0].number < self.line.number:
            yield f"it was drawn at {self.where(drawn[0].number)}, in a block that is closed"
        elif any(self.word in new_names(line) for line in self.lines() if line.words[0] == "made"):
            yield "what is made has to be drawn first, in the proof"
        elif self.words[0] in ("given", "show", "made"):
            sorts = [LETTERS[self.word].plural] if self.word in LETTERS else [sort.plural for sort in Sort]
            yield f"declare it before: {' or '.join(f'`{sort} {self.word}`' for sort in sorts)}"

    def close_object(self) -> Iterator[str]:
        """A name like this one."""
        near = [name for name in self.scope if name.lower() == self.word.lower() or set(name) == set(self.word)]
        yield from meant(self.word, near or self.scope, 0.6)

    def order_of_names(self) -> Iterator[str]:
        """The order that a rule's names have."""
        rule = tables().diagram.get(self.words[1]) if len(self.words) > 1 else None
        if self.words[0] != "by" or rule is None or ":" not in self.words:
            return
        names = self.words[2 : self.words.index(":")]
        order = [list(Sort).index(self.scope[name]) for name in names if name in self.scope]
        if order != sorted(order):
            yield f"the names of a rule are points first, then lines, then circles: `{rule.name} {' '.join(rule.variables)}`"

    def drawn_as(self) -> Iterator[str]:
        """Where the object comes from."""
        for line in self.lines():
            if line.number < self.line.number and self.word in new_names(line):
                yield f"`{self.word}` comes from {self.where(line.number)}: `{' '.join(line.words)}`"
                return

    def taken(self) -> Iterator[str]:
        """Who has the name or title already."""
        if self.words[0] in ("theorem", "define"):
            first = next((item for item in self.book.items if item.title == self.word), None)
            if first is not None and first.first < self.line.number:
                yield f"the first is at {self.where(first.first)}"
            return
        for line in self.lines():
            if line.number < self.line.number and self.word in new_names(line):
                yield f"{self.where(line.number)} has it: `{' '.join(line.words)}`; choose another name"
                return


def meant(word: str, words: Iterable[str], like: float = 0.7) -> Iterator[str]:
    """A word that is like this one."""
    choices = list(words)
    found = [each for each in choices if each.lower() == word.lower()] or difflib.get_close_matches(word, choices, 1, like)
    if found and found[0] != word:
        yield f"did you mean `{found[0]}`?"


def new_names(line: SourceLine) -> tuple[str, ...]:
    """The objects that a line brings, by its words alone."""
    words = line.words
    if words[0] in PLURALS:
        return words[1:]
    if words[0] == "made" and words[1:2] and words[1] in PLURALS:
        return words[2:]
    if words[0] == "let":
        return words[1:3] if len(words) > 3 and is_name(words[2]) and words[2] not in RESERVED else words[1:2]
    if words[0] in ("apply", "superpose") and "as" in words:
        after = words[words.index("as") + 1 :]
        return after[: after.index("show")] if "show" in after else after
    return ()
