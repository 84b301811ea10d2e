"""Reads a book into its tree: each line by its first word, names against the objects in scope."""

from __future__ import annotations

from collections.abc import Callable

from .forms import literals_in, new_objects, parse_apply, parse_by, parse_let, parse_superpose
from .literals import PLURALS, Sort, parse_literal
from .script import (Apply, Block, Book, By, Cases, Claim, Contradiction, Definition, Hence, Item, Let, Qed,
                     Step, Superpose, Theorem)
from .statements import Known, Objects, Statement
from .syntax import Fault, FaultKind, SourceLine, count_of, is_title, lines_of, malformed

MOST_DEPTH = 32  # blocks one inside the other, as `elements` has it
STEPS = ("by", "hence", "let", "apply", "claim", "superpose", "qed", "contradiction", "cases")
BEFORE_PROOF = ("points", "lines", "circles", "given", "made", "show", "proof")


def read_book(text: str, known: Known | None = None) -> Book:
    """The book that a text is, after what is known before it."""
    return read_lines(lines_of(text), known)


def read_lines(lines: list[SourceLine], known: Known | None = None) -> Book:
    """The book of these lines."""
    return BookReader(lines, known or Known()).read()


class BookReader:
    """Parts the lines into items, and reads each."""

    def __init__(self, lines: list[SourceLine], known: Known) -> None:
        self.lines = lines
        self.book = Book(lines, [], known.copy())

    def read(self) -> Book:
        """The whole book."""
        start = 0
        while start < len(self.lines):
            head = self.next_head(start)
            if head is None:
                self.strays(self.lines[start:])
                break
            comment = self.comment_before(head, start)
            self.strays(self.lines[start:comment])
            end = self.end_of(head)
            self.item(self.lines[comment:end], self.lines[head])
            start = end
        return self.book

    def next_head(self, start: int) -> int | None:
        """Where the next theorem or definition begins."""
        heads = (at for at in range(start, len(self.lines)) if self.lines[at].words[:1] in (("theorem",), ("define",)))
        return next(heads, None)

    def comment_before(self, head: int, start: int) -> int:
        """Where the comment directly before an item begins."""
        at = head
        while at > start and self.lines[at - 1].is_comment():
            at -= 1
        return at

    def end_of(self, head: int) -> int:
        """Behind the last line of an item: its `end`, or before the next item."""
        for at in range(head + 1, len(self.lines)):
            words = self.lines[at].words
            if words == ("end",):
                return at + 1
            if words[:1] in (("theorem",), ("define",)):
                return self.comment_before(at, head + 1)
        return len(self.lines)

    def strays(self, lines: list[SourceLine]) -> None:
        """Lines outside of items, which may say nothing."""
        for line in lines:
            if not line.is_skipped():
                fault = malformed("outside of a theorem there are only `theorem`, `define` and comments")
                self.book.stray.append((line, fault))

    def item(self, lines: list[SourceLine], head: SourceLine) -> None:
        """Reads one item."""
        self.put(ItemReader(lines, head, self.book.known).read())

    def put(self, item: Item) -> None:
        """Takes an item into the book, and what it says into what is known."""
        self.book.items.append(item)
        if item.is_said():
            kind = self.book.known.theorems if isinstance(item, Theorem) else self.book.known.definitions
            kind[item.title] = item.statement


class ItemReader:
    """Reads one theorem or definition, up to its first fault."""

    def __init__(self, lines: list[SourceLine], head: SourceLine, known: Known) -> None:
        self.known = known
        self.lines = [line for line in lines if line.number >= head.number and not line.is_skipped()]
        self.at = 0
        self.number = 0  # of the last step
        self.depth = 1  # of the block that is open
        title = head.words[1] if len(head.words) > 1 else ""
        kind = Theorem if head.words[0] == "theorem" else Definition
        self.item: Item = kind(title, lines, head, Statement(title))
        self.sorts: dict[str, Sort] = {}

    def read(self) -> Item:
        """The item, with its fault where it has one."""
        try:
            self.head()
            self.statement()
            if isinstance(self.item, Theorem):
                self.proof(self.item)
            self.last_line()
        except Fault as fault:
            self.item.fault, self.item.scope = fault, dict(self.sorts)
            ended = fault.kind == FaultKind.UNENDED
            self.item.fault_line = None if ended else self.lines[max(self.at - 1, 0)]
        return self.item

    def take(self) -> SourceLine:
        """The next line."""
        if self.at == len(self.lines):
            raise Fault(FaultKind.UNENDED, f"`{self.item.title}` has no `end`")
        self.at += 1
        line = self.lines[self.at - 1]
        if not is_ascii_text(line.text):
            at = next((at for at, word in enumerate(line.words) if not is_ascii_text(word)), 0)
            raise malformed("a book is ASCII text, and here is a byte outside of it", at)
        return line

    def peek(self) -> str:
        """The first word of the next line, or nothing at the end."""
        return self.lines[self.at].words[0] if self.at < len(self.lines) else ""

    def head(self) -> None:
        """`theorem TITLE` or `define TITLE`."""
        line = self.take()
        if len(line.words) != 2 or not is_title(line.words[1]):
            raise malformed("a title is a letter and at most 23 more letters, digits, `.`, `_` or `-`",
                            min(1, len(line.words) - 1))
        if self.known.has(line.words[1]):
            raise Fault(FaultKind.NAME_TAKEN, f"there is already something with the title `{line.words[1]}`", 1)

    def statement(self) -> None:
        """The lines before `proof`, or before the end of a definition."""
        is_theorem = isinstance(self.item, Theorem)
        statement = self.item.statement
        while self.peek() not in ("proof", "end", ""):
            line = self.take()
            word = line.words[0]
            if word in PLURALS and not statement.given and not statement.made and not statement.shown:
                statement.declared += self.declare(line, 0)
            elif word == "given" and is_theorem and not statement.made and not statement.shown:
                statement.given += literals_in(list(line.words), 1, self.sorts, self.known)
            elif word == "made" and is_theorem and not statement.shown:
                statement.made += self.declare(line, 1)
            elif word == "show":
                statement.shown += literals_in(list(line.words), 1, self.sorts, self.known)
            else:
                raise malformed(self.misplaced(word))
        if not statement.shown and self.peek():
            self.take()
            raise malformed(f"`{self.item.title}` shows nothing yet: a line `show` comes first")

    def misplaced(self, word: str) -> str:
        """What to say of a line that may not come in a statement."""
        if word in BEFORE_PROOF and isinstance(self.item, Theorem):
            return "the lines of a statement come in the order points, lines, circles; given; made; show; proof"
        if word in BEFORE_PROOF:
            return "a definition has lines points, lines, circles, then show, then end"
        if word in STEPS and isinstance(self.item, Theorem):
            return "steps come after a line `proof`"
        return f"no line begins with `{word}` here"

    def declare(self, line: SourceLine, skipped: int) -> Objects:
        """The objects of a line like `points a b`."""
        words = list(line.words)
        if words[skipped : skipped + 1] == [] or words[skipped] not in PLURALS:
            raise malformed("after `made` comes points, lines or circles", min(skipped, len(words) - 1))
        if len(words) == skipped + 1:
            raise malformed(f"`{words[skipped]}` names at least one object", len(words))
        sort = PLURALS[words[skipped]]
        return self.bring(new_objects(words, skipped + 1, [sort] * (len(words) - skipped - 1), self.sorts))

    def bring(self, objects: Objects) -> Objects:
        """Puts new objects into scope."""
        self.sorts.update(objects)
        return objects

    def proof(self, theorem: Theorem) -> None:
        """From the line `proof` to the last close."""
        line = self.take()
        if line.words != ("proof",):
            raise malformed("after `show` comes a line `proof`", len(line.words) - 1)
        theorem.proof_line = line
        for name, _ in theorem.statement.made:
            del self.sorts[name]
        self.block(theorem.proof, theorem.statement.made)

    def block(self, block: Block, made: Objects) -> None:
        """Steps up to and with a close."""
        before = dict(self.sorts)
        while True:
            line = self.take()
            self.number += 1
            word = line.words[0]
            if word not in STEPS:
                self.number -= 1
                raise malformed(no_step(line.words))
            reader: Callable[[Block, SourceLine, Objects], None] = getattr(self, f"{word}_step")
            reader(block, line, made)
            if word in ("qed", "contradiction", "cases"):
                self.sorts = before
                return

    def inner(self, block: Block, made: Objects, new: Objects) -> None:
        """A block inside, after which the scope is as before."""
        if self.depth == MOST_DEPTH:
            raise Fault(FaultKind.LIMIT, f"at most {MOST_DEPTH} blocks are open one inside the other")
        before = dict(self.sorts)
        self.depth += 1
        self.bring(new)
        self.block(block, made)
        self.depth -= 1
        self.sorts = before

    def last_line(self) -> None:
        """The line `end`."""
        line = self.take()
        if line.words != ("end",):
            raise malformed("the block is closed: after the last close comes `end`")

    # Steps, each with the block that it is put into

    def by_step(self, block: Block, line: SourceLine, made: Objects) -> None:
        """`by`."""
        rule, names, literal = parse_by(list(line.words), self.sorts)
        block.steps.append(By(self.number, line, rule, names, literal))

    def hence_step(self, block: Block, line: SourceLine, made: Objects) -> None:
        """`hence`."""
        words = list(line.words)
        try:
            literal = parse_literal(words[1:], self.sorts)
        except Fault as fault:
            raise fault.moved(1) from None
        block.steps.append(Hence(self.number, line, literal))

    def let_step(self, block: Block, line: SourceLine, made: Objects) -> None:
        """`let`."""
        shape = parse_let(list(line.words), self.sorts)
        block.steps.append(Let(self.number, line, *shape))
        self.bring(shape[2])

    def apply_step(self, block: Block, line: SourceLine, made: Objects) -> None:
        """`apply`."""
        title, arguments, new = parse_apply(list(line.words), self.sorts, self.known)
        block.steps.append(Apply(self.number, line, title, arguments, new))
        self.bring(new)

    def claim_step(self, block: Block, line: SourceLine, made: Objects) -> None:
        """`claim`."""
        shown = literals_in(list(line.words), 1, self.sorts, self.known)
        step = Claim(self.number, line, shown, Block())
        block.steps.append(step)
        self.inner(step.block, [], [])

    def superpose_step(self, block: Block, line: SourceLine, made: Objects) -> None:
        """`superpose`."""
        letters, new, shown = parse_superpose(list(line.words), self.sorts, self.known)
        step = Superpose(self.number, line, letters, new, shown, Block())
        block.steps.append(step)
        self.inner(step.block, [], new)

    def qed_step(self, block: Block, line: SourceLine, made: Objects) -> None:
        """`qed`."""
        names = list(line.words[1:])
        if len(names) != len(made):
            wanted = f"takes {count_of(len(made), 'name')}, for what is made" if made else "takes no names here"
            raise malformed(f"`qed` {wanted}", min(len(names), len(made)) + (len(names) > len(made)))
        for at, (name, (_, sort)) in enumerate(zip(names, made), 1):
            if name not in self.sorts:
                raise Fault(FaultKind.UNKNOWN_NAME, f"no object named `{name}` is in scope", at)
            if self.sorts[name] != sort:
                raise Fault(FaultKind.WRONG_SORT, f"`{name}` is a {self.sorts[name].value}, not a {sort.value}", at)
        block.steps.append(Qed(self.number, line, names))

    def contradiction_step(self, block: Block, line: SourceLine, made: Objects) -> None:
        """`contradiction`."""
        if len(line.words) > 1:
            raise malformed("`contradiction` is alone on its line", 1)
        block.steps.append(Contradiction(self.number, line))

    def cases_step(self, block: Block, line: SourceLine, made: Objects) -> None:
        """`cases`, and its two blocks."""
        try:
            literal = parse_literal(list(line.words[1:]), self.sorts)
        except Fault as fault:
            raise fault.moved(1) from None
        step = Cases(self.number, line, literal, Block(), Block())
        block.steps.append(step)
        self.inner(step.first, made, [])
        otherwise = self.take()
        if otherwise.words != ("else",):
            raise malformed("after the first block of `cases` comes a line `else`")
        step.otherwise = otherwise
        self.inner(step.other, made, [])


def is_ascii_text(text: str) -> bool:
    """Whether a text has tabs and printed ASCII characters alone."""
    return text.isascii() and text.replace("\t", " ").isprintable()


def no_step(words: tuple[str, ...]) -> str:
    """What to say of a line that is no step."""
    if words == ("end",):
        return "a block is still open: `qed`, `contradiction` or `cases` closes it before `end`"
    if words == ("else",):
        return "`else` comes after the close of the first block of `cases`"
    if words[0] in BEFORE_PROOF:
        return f"`{words[0]}` comes before the line `proof`"
    return f"no step begins with `{words[0]}`"
