"""What a worker does: checks a book, shows by what its steps are licensed, its facts and its figure."""

from __future__ import annotations

from collections.abc import Callable
from functools import lru_cache
from pathlib import Path
from typing import Any

from ..checking import Verdict
from ..contexts import BLANK, Origin, situation_at
from ..diagnose import Diagnoser, Report
from ..diagnosis import Diagnosis
from ..filling.engine import fill_theorem
from ..filling.walk import FilledTheorem
from ..library import Library, SourceFile, load
from ..literals import spell
from ..reading import read_lines
from ..reasons import Ground, reasons_of
from ..script import Book, Theorem
from ..syntax import lines_of
from . import lessons
from .pool import Data

TEXT = Path("book")  # the name of the text in messages
FILL_SECONDS = 3.0
MOST_BYTES = 200_000
diagnoser = Diagnoser()


@lru_cache(maxsize=8)
def library(folder: str) -> tuple[Library, Book]:
    """A library and its tree; none for no folder."""
    if not folder:
        return Library(), read_lines([])
    found = load([Path(folder)])
    return found, found.book()


def joined(folder: str, until: str, text: str) -> tuple[Library, int]:
    """A text after the part of a library that it may use, and the number of its first line.

    The library ends behind the theorem `until`, and before the first one that the text has too.
    """
    before, book = library(folder)
    titles = {line.words[1] for line in lines_of(text) if line.words[:1] in (("theorem",), ("define",)) and len(line.words) > 1}
    end = sum(file.count for file in before.files)
    for item in book.items:
        if item.title in titles:
            end = min(end, item.lines[0].number - 1)
    if until and (last := next((item for item in book.items if item.title == until), None)) is not None:
        end = min(end, last.last)
    files = [cut(file, end - file.start + 1) for file in before.files if file.start <= end]
    return Library([*files, SourceFile(TEXT, text, end + 1)], {TEXT}), end


def cut(file: SourceFile, count: int) -> SourceFile:
    """The first lines of a file."""
    if count >= file.count:
        return file
    return SourceFile(file.path, "".join(line.text + "\n" for line in file.lines[:count]), file.start)


def check(job: Data) -> Data:
    """Checks a text; with `euclid` it is read at Euclid's length."""
    text = str(job["text"])[:MOST_BYTES]
    folder, until = str(job.get("folder", "")), str(job.get("until", ""))
    found: Data = {}
    if job.get("euclid"):
        return check_filled(job, folder, until, text)
    report, start = report_of(folder, until, text)
    found |= verdicts(report, start)
    found["steps"] = steps(report, start)
    found["facts"] = facts(report, start, int(job.get("line", 0)))
    found["lesson"] = lesson(job, report)
    return found


def report_of(folder: str, until: str, text: str) -> tuple[Report, int]:
    """The report on a text, and how many lines come before it."""
    whole, start = joined(folder, until, text)
    return diagnoser.report(whole), start


def own(report: Report, start: int) -> list[tuple[Theorem, Any]]:
    """The theorems of the text with their outcomes."""
    return [(item, outcome) for item, outcome in zip(report.book.items, report.outcomes.items)
            if isinstance(item, Theorem) and item.first > start]


def verdicts(report: Report, start: int) -> Data:
    """What is accepted, and what is wrong where."""
    counts = {verdict: 0 for verdict in Verdict}
    for _, outcome in own(report, start):
        counts[outcome.verdict] += 1
    messages = [message(report, each, start) for each in report.diagnoses if each.number > start]
    waiting = [{"line": item.first - start, "column": 1, "end": len(item.head.text) + 1, "kind": "warning",
                "text": f"not checked: it rests on `{outcome.on}`, which is not accepted"}
               for item, outcome in own(report, start) if outcome.verdict == Verdict.RESTS]
    return {"accepted": counts[Verdict.ACCEPTED], "refused": counts[Verdict.REFUSED] + counts[Verdict.FAULTY],
            "rest": counts[Verdict.RESTS], "messages": messages + waiting,
            "verdicts": {item.title: str(outcome.verdict) for item, outcome in own(report, start)}}


def message(report: Report, diagnosis: Diagnosis, start: int) -> Data:
    """What is wrong, with its place in the text."""
    data = diagnosis.data(report.library)
    line = report.book.lines[diagnosis.number - 1].words if diagnosis.number <= len(report.book.lines) else ()
    is_citation = line[:1] == ("by",)
    ways = [{"lines": way.lines, "instead": is_citation and way in diagnosis.ways} for way in diagnosis.ready()]
    premises = [{"literal": spell(each.literal), "there": each.is_there, "turned": spell(each.turned) if each.turned else "",
                 "false": each.denied, "follows": each.follows} | (origin(each.origin, start) if each.origin else {}) for each in diagnosis.premises]
    return {"line": diagnosis.number - start, "column": diagnosis.start, "end": max(diagnosis.end, diagnosis.start + 1),
            "kind": "error", "text": diagnosis.message, "reason": data["reason"], "premises": premises,
            "sentences": diagnosis.sentences, "ways": ways, "values": data["values"]}


# ---- steps and facts


def steps(report: Report, start: int) -> list[Data]:
    """By what each step of the accepted theorems is licensed."""
    found = []
    for theorem, outcome in own(report, start):
        if outcome.part is None:
            continue
        for reason in reasons_of(theorem, outcome.part, report.book.known_before(theorem)):
            found.append({"line": reason.step.line.number - start, "step": reason.step.number, "depth": reason.depth,
                          "text": reason.text, "words": reason.words,
                          "grounds": [ground(each, start) for each in reason.grounds]})
    return found


def theorem_at(book: Book, start: int, line: int) -> Theorem | None:
    """The theorem of the text at a line, or the last one before it."""
    found = [each for each in book.theorems() if start < each.first <= line + start]
    return found[-1] if found else None


def ground(each: Ground, start: int) -> Data:
    """Why a literal is allowed."""
    data: Data = {"kind": each.kind, "literal": spell(each.literal) if each.literal else "", "rule": each.rule,
                  "parts": [ground(part, start) for part in each.parts]}
    if each.origin is not None:
        data |= origin(each.origin, start)
    if each.sums:
        data["sums"] = [{"says": added.says, "of": [{"says": row.says, "from": row.remark or words(row.origin)}
                                                    for row in added.addends]} for added in each.sums]
    return data


def origin(each: Origin, start: int) -> Data:
    """Where a fact comes from, with its line in the text where it is there."""
    return {"from": each.words(), "line": each.line - start}


def words(each: Origin | None) -> str:
    """Where a fact comes from."""
    return each.words() if each else ""


def facts(report: Report, start: int, line: int) -> Data:
    """The objects and facts before the step at a line, or the next one."""
    item = theorem_at(report.book, start, line)
    if item is None:
        return {}
    step = item.step_at_line(line + start)
    outcome = report.outcome(item.title)
    filled = outcome.part.filled() if outcome and outcome.part else {}
    situation = situation_at(item, report.book.known_before(item), step.number, filled) if step else None
    if step is None or situation is None:
        return {"title": item.title}
    context = situation.context
    has_blanks = any(BLANK in literal for literal in [step.line.text])
    return {"title": item.title, "step": step.number, "blanks": has_blanks,
            "objects": [{"name": name, "sort": sort.value} for name, sort in context.sorts.items()],
            "facts": [{"literal": spell(fact.literal)} | origin(fact.origin, start) for fact in context.facts.values()],
            "goal": [spell(each) for each in situation.goal.shown]}


# ---- at Euclid's length


def check_filled(job: Data, folder: str, until: str, text: str) -> Data:
    """Fills what the figure shows into the theorems of a text, and checks that."""
    whole, start = joined(folder, until, text)
    book = whole.book()
    found: list[str] = []
    own_lines: list[int] = []  # for each line of the filled text the line of the author's, or of the step that needs it
    is_put: list[bool] = []
    missing: list[Data] = []
    at = start
    for theorem in [each for each in book.theorems() if each.first > start]:
        keep(whole, found, own_lines, is_put, at, theorem.lines[0].number - 1, start)
        at = theorem.last
        filled = fill_theorem(theorem, book.known_before(theorem), seconds=FILL_SECONDS)
        put(filled, found, own_lines, is_put, start)
        missing += [{"line": each.line - start, "column": 1, "end": 200, "kind": "error", "sentences": each.why,
                     "text": f"`{each.wanted}` was not found"} for each in filled.missing]
    keep(whole, found, own_lines, is_put, at, start + len(whole.files[-1].lines), start)
    report, start = report_of(folder, until, "".join(line + "\n" for line in found))
    answer = verdicts(report, start)
    moved = [dict(each, line=own_lines[min(each["line"], len(own_lines)) - 1], column=1, end=200) for each in answer["messages"]]
    answer["messages"] = missing or moved
    under: dict[int, list[str]] = {}
    for line, number, is_new in zip(found, own_lines, is_put):
        if is_new:
            under.setdefault(number, []).append(line)
    answer["filled"] = [{"line": number, "lines": lines} for number, lines in under.items()]
    answer["text"] = "".join(line + "\n" for line in found)
    answer["steps"] = [dict(each, line=own_lines[each["line"] - 1], put=is_put[each["line"] - 1]) for each in steps(report, start)]
    cursor = int(job.get("line", 0))
    answer["facts"] = facts(report, start, own_lines.index(cursor) + 1 if cursor in own_lines else 0)
    answer["lesson"] = lesson(job, report)
    return answer


def keep(whole: Library, found: list[str], own_lines: list[int], is_put: list[bool], after: int, last: int, start: int) -> None:
    """Takes lines of the text as they are."""
    for number in range(after + 1, last + 1):
        found.append(whole.files[-1].lines[number - start - 1].text)
        own_lines.append(number - start)
        is_put.append(False)


def put(filled: FilledTheorem, found: list[str], own_lines: list[int], is_put: list[bool], start: int) -> None:
    """Takes the lines of a filled theorem."""
    steps_at = {step.number: step.line.number for step in filled.theorem.steps()}
    for line in filled.lines:
        found.append(line.text)
        own_lines.append((line.own or steps_at.get(line.step, filled.theorem.first)) - start)
        is_put.append(not line.own)


# ---- lessons and figures


def lesson(job: Data, report: Report) -> Data | None:
    """Whether the task of a lesson is done: its statement as given, and accepted."""
    task = lessons.task(str(job.get("lessons", "")), str(job.get("lesson", "")))
    return task.judged(report) if task else None


def figure(job: Data) -> Data:
    """The figure of the theorem at a line, as far as its proof goes there."""
    from .figures import drawn

    text = str(job["text"])[:MOST_BYTES]
    whole, start = joined(str(job.get("folder", "")), str(job.get("until", "")), text)
    line = int(job.get("line", 0))
    theorem = theorem_at(whole.book(), start, line)
    return drawn(whole, theorem, line + start) if theorem else {"svg": ""}


def listing(job: Data) -> Data:
    """The text of a library, and its titles."""
    found, book = library(str(job.get("folder", "")))
    return {"text": found.text(), "titles": [{"title": item.title, "line": item.first, "words": item.comment[:200]}
                                             for item in book.items]}


JOBS: dict[str, Callable[[Data], Data]] = {"check": check, "figure": figure, "library": listing}
