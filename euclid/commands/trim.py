"""`euclid trim`."""

from __future__ import annotations

import argparse
import sys
from pathlib import Path

from ..answers import check
from ..beside import shortened_sketches
from ..checking import Checker
from ..derivation import Part
from ..idle import Minimizer, gone_lines, outermost, trimmed
from ..library import STREAM, SourceFile, load, shown
from ..messages import ACCEPTED, FAILED, FAULTY, REFUSED, WrongUse, put_json
from ..script import Step, Theorem
from ..targets import Opened, add_json, add_paths, opened
from ..writing import exchange

HELP = """Shows steps that nothing needs, by file and line; with --write takes them out.

A step is idle where no later certificate looks up what it gave: `elements trim` says which. With
--minimize each other step is left out in turn as well, from the last on, and stays out where
`elements` accepts the theorem without it; that takes a run for each step.

example: euclid trim library/book-1
example: euclid trim --minimize --only I.47 library/book-1
"""


def arguments(parser: argparse.ArgumentParser) -> None:
    """The words of the command."""
    parser.add_argument("--only", action="append", default=[], metavar="TITLE", help="this theorem alone; may come again")
    parser.add_argument("--minimize", action="store_true", help="also each step without which the theorem is accepted")
    parser.add_argument("--write", action="store_true", help="take the steps out of the files that were named")
    add_json(parser)
    add_paths(parser)


def run(args: argparse.Namespace) -> int:
    """Finds the steps, and takes them out where that is asked for."""
    here = opened(args.paths)
    outcomes = Checker().check(here.book)
    if not outcomes.is_accepted():
        print("euclid: these books are not accepted as a whole: see euclid check", file=sys.stderr)
        return FAULTY if here.faults() else REFUSED
    parts = [each.part for each in outcomes.items if each.part is not None]
    wanted = [here.theorem(title) for title in args.only] or here.library.own_theorems(here.book)
    gone = steps_of(here, wanted, parts, args.minimize)
    for theorem in wanted:
        for step in outermost(theorem.proof, gone[theorem.title]):
            tell_step(here, theorem, step, args.json)
    if not args.json:
        print(summary(wanted, gone))
    return write(here, args.paths, wanted, gone) if args.write else ACCEPTED


def steps_of(here: Opened, wanted: list[Theorem], parts: list[Part], is_minimal: bool) -> dict[str, set[int]]:
    """The numbers of the steps of each theorem that nothing needs."""
    found = trimmed(parts)
    if is_minimal:
        minimizer = Minimizer(here.book)
        for theorem in wanted:
            found[theorem.title] = minimizer.minimized(theorem, found[theorem.title])
    return found


def tell_step(here: Opened, theorem: Theorem, step: Step, is_json: bool) -> None:
    """Writes a step that nothing needs."""
    place = here.library.place(step.line.number, step.line.column(0))
    last = max([step.line.number, *(each.line.number for block in step.blocks() for each in block.all_steps())])
    if is_json:
        put_json({"file": str(place.path), "line": place.line, "column": place.column,
                  "lastLine": here.library.place(last).line, "title": theorem.title, "step": step.number,
                  "text": step.line.text.strip()})
        return
    block = f" (to line {here.library.place(last).line})" if last > step.line.number else ""
    print(f"{place}: note: nothing needs step {step.number} of {theorem.title}: {step.line.text.strip()}{block}")


def summary(wanted: list[Theorem], gone: dict[str, set[int]]) -> str:
    """The last line."""
    count = sum(len(gone[theorem.title]) for theorem in wanted)
    within = sum(bool(gone[theorem.title]) for theorem in wanted)
    steps = sum(len(theorem.steps()) for theorem in wanted)
    return f"{count:,} of {steps:,} steps, in {within} of {len(wanted)} theorems"


def write(here: Opened, paths: list[Path], wanted: list[Theorem], gone: dict[str, set[int]]) -> int:
    """Takes the steps out of the files, where what is left is accepted."""
    numbers = set().union(*(gone_lines(theorem, gone[theorem.title]) for theorem in wanted))
    if any(not here.library.is_own(number) for number in numbers):
        raise WrongUse("a theorem of --only is in a file that was not named")
    new = {file.path: text_without(file, numbers) for file in here.library.files}
    if not check(load(paths or [Path(".")], new).text()).is_accepted():
        print("euclid: what is left would not be accepted, so nothing is written", file=sys.stderr)
        return FAILED
    gone_in = {file.path: {number - file.start + 1 for number in numbers} for file in here.library.files}
    sketches = shortened_sketches(here.library, new, gone_in)
    for file in here.library.files:
        if file.path == STREAM:
            print(new[file.path], end="")
        elif new[file.path] != file.text:
            exchange(file.path, new[file.path])
            print(f"written: {shown(file.path)}")
    for path, text in sketches.items():
        exchange(path, text)
        print(f"written: {shown(path)}")
    return ACCEPTED


def text_without(file: SourceFile, numbers: set[int]) -> str:
    """A file's text without these lines of the joined text."""
    return "\n".join(part for at, part in enumerate(file.text.split("\n")) if file.start + at not in numbers)
