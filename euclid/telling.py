"""Tells a report: the refusals, the notes and the count, as text or as JSON."""

from __future__ import annotations

import argparse
import sys

from .checking import Verdict
from .diagnose import Diagnoser, Filling, Report
from .filling.sketches import sketch_messages
from .library import Library, Place
from .messages import ACCEPTED, FAILED, FAULTY, REFUSED, Message, WrongUse, put_json, tell
from .twice import Differ, verified_twice
from .words import close_to


def check_once(args: argparse.Namespace, library: Library, diagnoser: Diagnoser | None = None) -> int:
    """Checks, and tells what there is to tell."""
    diagnoser = diagnoser or Diagnoser()
    report = diagnoser.report(library, not args.quiet, args.only)
    if args.only and report.book.theorem(args.only) is None:
        titles = (item.title for item in report.book.items)
        raise WrongUse(f"no theorem has the title `{args.only}`{close_to(args.only, titles)}")
    failed = ""
    if args.twice:
        try:
            verified_twice(report)
        except Differ as differ:
            failed = str(differ)
            print(f"euclid: {failed}", file=sys.stderr)
    tell_report(args, report, failed)
    return FAILED if failed else status_of(report)


def tell_report(args: argparse.Namespace, report: Report, failed: str) -> None:
    """The refusals, the notes, and the count."""
    notes = [each for each in report.fillings if report.library.is_own(each.step.line.number)]
    sketches = sketch_messages(report.library)
    if args.json:
        for diagnosis in report.diagnoses:
            put_json(diagnosis.data(report.library))
        for filling in notes:
            put_json(filling_data(filling, report.library))
        for message in sketches:
            put_json(message.data())
        for item, outcome in zip(report.book.items, report.outcomes.items):
            if outcome.verdict == Verdict.RESTS:
                put_json({"kind": "rests", **place_data(report.library.place(item.first)), "title": item.title,
                          "on": outcome.on})
        put_json({"kind": "count", "accepted": report.count(Verdict.ACCEPTED), "refused": report.count(Verdict.REFUSED),
                  "faulty": faulty_count(report), "rest": report.count(Verdict.RESTS), "failed": failed})
        return
    for diagnosis in report.diagnoses:
        tell(diagnosis.message_of(report.library, args.quiet))
    for filling in notes:
        if filling.is_degenerate and not args.quiet:
            tell(filling_note(filling, report.library))
    for message in sketches:
        tell(message)
    print(count_words(report) + (", verified twice" if args.twice and not failed else ""))


def place_data(place: Place) -> dict[str, object]:
    """A place for JSON."""
    return {"file": str(place.path), "line": place.line, "column": place.column}


def filling_data(filling: Filling, library: Library) -> dict[str, object]:
    """What was chosen for blanks, for JSON."""
    line = filling.step.line
    return {"kind": "filled", **place_data(library.place(line.number, line.column(0))), "title": filling.title,
            "step": filling.step.number, "applied": filling.step.title, "arguments": filling.arguments,
            "degenerate": filling.is_degenerate}


def filling_note(filling: Filling, library: Library) -> Message:
    """A note about blanks that were filled with one object twice."""
    line = filling.step.line
    return Message(library.place(line.number, line.column(0)), "note",
                   f"the blanks were filled so that one object stands for two: "
                   f"`apply {filling.step.title} {' '.join(filling.arguments)}`", line.column(len(line.words)))


def faulty_count(report: Report) -> int:
    """How many items, and places between items, are faulty."""
    return report.count(Verdict.FAULTY) + len(report.outcomes.strays)


def count_words(report: Report) -> str:
    """The last line."""
    parts = [f"{report.count(Verdict.ACCEPTED)} accepted"]
    refused, faulty, rest = report.count(Verdict.REFUSED), faulty_count(report), report.count(Verdict.RESTS)
    parts += [f"{refused} refused"] if refused else []
    parts += [f"{faulty} faulty"] if faulty else []
    if rest:
        parts.append(f"{rest} rest{'s' * (rest == 1)} on {'it' if refused + faulty == 1 else 'them'}")
    return ", ".join(parts)


def status_of(report: Report) -> int:
    """The exit status: faulty wins over refused."""
    if faulty_count(report):
        return FAULTY
    return REFUSED if report.count(Verdict.REFUSED) else ACCEPTED
