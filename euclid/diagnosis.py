"""What is said of a step that is refused, or of a line that is faulty, as values."""

from __future__ import annotations

from dataclasses import dataclass, field

from .contexts import Origin, Situation
from .library import Library
from .literals import Literal, spell
from .messages import Message
from .syntax import count_of


MOST_VALUES = 12  # of a counterexample, as text
MOST_SHOWN = 100  # of the characters of a long line, on either side of the place


@dataclass
class Way:
    """Lines of a book that give a literal: it is ready where `elements` accepted them, else literals lack."""

    lines: list[str]
    lacks: list[Literal] = field(default_factory=list)
    is_ready: bool = False
    by: str = ""  # the transfer rule that a line `hence` stands for

    def text(self) -> list[str]:
        """For people: a line, or one more for each further line of the book."""
        if self.is_ready:
            first, *rest = self.lines
            return [f"ready: {first}", *("       " + line for line in rest)]
        by = f"by {self.by}, " if self.by else ""
        return [f"near:  {'; '.join(self.lines)}   {by}lacks {' and '.join(f'`{spell(each)}`' for each in self.lacks)}"]

    def data(self) -> dict[str, object]:
        """As an object of JSON."""
        return {"lines": self.lines, "ready": self.is_ready, "lacks": [spell(each) for each in self.lacks], "by": self.by}


@dataclass
class Premise:
    """A literal that a step needs: a fact with its origin, or not there."""

    literal: Literal
    origin: Origin | None = None
    turned: Literal | None = None  # a fact that says the same the other way round
    denied: str = ""  # where it is false: whether its negation is a fact or follows
    follows: bool = False  # no fact, but allowed where no fact is asked for
    ways: list[Way] = field(default_factory=list)

    @property
    def is_there(self) -> bool:
        """Whether it is a fact."""
        return self.origin is not None


@dataclass
class Value:
    """What a magnitude is in the counterexample; it is free where nothing that is known speaks of it."""

    term: str
    number: int
    is_free: bool
    is_near: bool = True  # it is a term of what is wanted, or of a fact with one


@dataclass
class Diagnosis:
    """Why an item is not accepted: the place in the joined text, and what is missing."""

    kind: str  # refused, too-wide, faulty
    title: str  # of the item, or nothing for lines between items
    step: int  # or 0
    number: int  # of the line in the joined text
    start: int  # columns, from 1; the end is behind the last one
    end: int
    message: str
    wanted: str = ""  # the literal, `match` or `contradiction`
    reason: str = ""  # the rule or theorem of the step, in words
    premises: list[Premise] = field(default_factory=list)
    ways: list[Way] = field(default_factory=list)  # to what is wanted
    values: list[Value] = field(default_factory=list)
    sentences: list[str] = field(default_factory=list)
    situation: Situation | None = None

    def ready(self) -> list[Way]:
        """The ways that are ready, to what is wanted and to the premises that are missing."""
        return [way for way in self.ways + [w for each in self.premises for w in each.ways] if way.is_ready]

    def details(self, library: Library) -> list[str]:
        """The lines below the message."""
        found = []
        line = line_of(library, self.number)
        if line.strip():
            found += marked(line, self.start, self.end)[: 1 if self.step else 2]
        elsewhere = [way.lines for premise in self.premises for way in premise.ways]
        found += [text for way in self.ways if way.is_ready and way.lines[-1:] != [line.strip()]
                  and way.lines not in elsewhere for text in way.text()]
        found += [self.reason] if self.reason else []
        for premise in self.premises:
            found += premise_lines(premise, library)
        found += self.sentences
        found += [text for way in self.ways if not way.is_ready for text in way.text()]
        found += value_lines(self.values)
        return found

    def message_of(self, library: Library, is_brief: bool = False) -> Message:
        """As a message."""
        place = library.place(self.number, self.start)
        details = [] if is_brief else self.details(library)
        return Message(place, "error", self.message, self.end, details)

    def data(self, library: Library) -> dict[str, object]:
        """As an object of JSON."""
        place = library.place(self.number, self.start)
        return {"kind": self.kind, "file": str(place.path), "line": place.line, "column": place.column,
                "endColumn": self.end, "title": self.title, "step": self.step, "text": self.message,
                "wanted": self.wanted, "reason": self.reason,
                "premises": [premise_data(each, library) for each in self.premises],
                "ways": [each.data() for each in self.ways],
                "values": [{"term": each.term, "value": each.number, "free": each.is_free} for each in self.values],
                "sentences": self.sentences}


def line_of(library: Library, number: int) -> str:
    """The text of a line of the joined text."""
    for file in library.files:
        if file.start <= number < file.start + len(file.lines):
            return file.lines[number - file.start].text
    return ""


def marked(line: str, start: int, end: int) -> list[str]:
    """A line of a file, of which only a part where it is long, and a line of marks below it."""
    first = max(0, start - MOST_SHOWN) if len(line) > MOST_SHOWN else 0
    parts = [line[first : start - 1], line[start - 1 : end - 1], line[end - 1 : first + MOST_SHOWN * 2]]
    before, inside, after = (printed(part) for part in parts)
    return [before + inside + after, " " * len(before) + "^" * max(len(inside), 1)]


def printed(text: str) -> str:
    """Bytes of a file as they can be shown: as UTF-8 where they are, without control characters."""
    decoded = text.encode("latin-1").decode("utf-8", "replace")
    return "".join(" " if c == "\t" else c if c.isprintable() else "?" for c in decoded)


def origin_words(origin: Origin, library: Library) -> str:
    """Where a fact comes from, with the line of its file."""
    return f"{origin.words()}, line {library.place(origin.line).line}" if origin.step else origin.words()


def premise_lines(premise: Premise, library: Library) -> list[str]:
    """A premise with its mark, and below it the ways to it."""
    said = spell(premise.literal)
    if premise.origin is not None:
        return [f"there    {said:34} {origin_words(premise.origin, library)}".rstrip()]
    if premise.follows:
        return [f"follows  {said}"]
    more = ""
    if premise.denied:
        more = f"false: its negation {premise.denied}"
    elif premise.turned is not None:
        more = f"there is `{spell(premise.turned)}`"
    return [f"missing  {said:34} {more}".rstrip(),
            *("         " + text for way in premise.ways for text in way.text())]


def premise_data(premise: Premise, library: Library) -> dict[str, object]:
    """A premise as an object of JSON."""
    data: dict[str, object] = {"literal": spell(premise.literal), "there": premise.is_there, "false": bool(premise.denied),
                               "turned": spell(premise.turned) if premise.turned else None,
                               "ways": [way.data() for way in premise.ways], "origin": None}
    if premise.origin is not None:
        place = library.place(premise.origin.line)
        data["origin"] = {"kind": premise.origin.kind, "step": premise.origin.step, "file": str(place.path),
                          "line": place.line}
    return data


def value_lines(values: list[Value]) -> list[str]:
    """The counterexample as a table."""
    if not values:
        return []
    shown = [each for each in values if each.is_near][:MOST_VALUES]
    width = max(len(each.term) for each in shown)
    free = "   nothing that is known speaks of it"
    lines = ["with these values all that is known is true, and this is false:",
             *(f"  {each.term:{width}}  {each.number}{free if each.is_free else ''}" for each in shown)]
    more = len(values) - len(shown)
    return lines + ([f"  and {count_of(more, 'other value')}"] if more else [])


def missing_words(premises: list[Premise]) -> str:
    """Which premises are missing, in one sentence."""
    missing = [each for each in premises if not each.is_there]
    named = [f"`{spell(each.literal)}`" + (f" (there is `{spell(each.turned)}`)" if each.turned else "")
             for each in missing[:3]]
    if len(missing) > 3:
        return f"{', '.join(named)} and {count_of(len(missing) - 3, 'more premise')} are missing"
    return f"{' and '.join(named)} {'is' if len(missing) == 1 else 'are'} missing"
