"""`euclid apply`."""

from __future__ import annotations

import argparse
import sys
from collections.abc import Iterable
from dataclasses import dataclass, field

from ..clock import Clock, OutOfTime
from ..contexts import Situation
from ..filling.ways import ways_to
from ..literals import Literal, key, parse_literal, spell
from ..messages import ACCEPTED, REFUSED, WrongUse, put_json
from ..reach import Reach, Unknown
from ..scratch import Scratch, Untried
from ..script import Apply, Qed, Theorem
from ..syntax import Fault
from ..targets import Opened, add_json, add_paths, add_step, opened
from ..uses import Finder, Use, spelled
from ..ways import lacking_words
from .give import tell_fact

HELP = """Shows which earlier theorems may be applied before a step, and what each would show.

`ready` is a line that `elements` accepted there; for the others the given literals are named that
are no facts, and which of these follow in a few lines. With --for a literal come those that show
it; where there are none, those from which it follows, perhaps with lines before them. What says
nothing new is left out, and arguments that come twice are last. Without --for or --of two uses of
each theorem are shown.

example: euclid apply I.5 19 --for 'seg d c = seg g b' library/book-1
example: euclid apply I.5 19 --of I.4 library/book-1
"""

MOST_READY, MOST_NEAR, OF_EACH, MOST_LONG = 14, 6, 2, 4
SECONDS, SECONDS_LONG = 10.0, 1.5  # work is limited besides, so the first is for very large books alone
MOST_RUNS = 12


def arguments(parser: argparse.ArgumentParser) -> None:
    """The words of the command."""
    parser.add_argument("--for", dest="wanted", metavar="LITERAL", help="what is to be reached")
    parser.add_argument("--of", action="append", default=[], metavar="TITLE", help="this theorem alone; may come again")
    parser.add_argument("--all", action="store_true", help="all that were found, not the first ones")
    add_json(parser)
    add_step(parser)
    add_paths(parser)


@dataclass
class Found:
    """What may be applied before a step."""

    ready: list[tuple[list[str], Use | None]] = field(default_factory=list)  # lines, the use last
    near: list[Use] = field(default_factory=list)
    untried: str = ""  # why `elements` could not be asked
    is_whole: bool = True


def run(args: argparse.Namespace) -> int:
    """Shows what may be applied."""
    here = opened(args.paths)
    theorem = here.theorem(args.title)
    situation = here.situation(args.title, args.step)
    known = here.book.known_before(theorem)
    for title in args.of:
        if title not in known.theorems:
            here.theorem(title)
            raise WrongUse(f"`{title}` does not come before {args.title}")
    line = situation.step.line
    if not args.json:
        place = here.library.place(line.number, line.column(0))
        print(f"{place}: before step {args.step} of {args.title}: {line.text.strip()}")
    fact = situation.context.fact(literal_of(args.wanted, situation)) if args.wanted is not None else None
    if fact is not None:
        return tell_fact(here, fact.origin.words(), fact.origin.line, args.json)
    try:
        found = search(here, theorem, situation, args)
    except Unknown as unknown:
        raise WrongUse(str(unknown)) from None
    put_found(found, args)
    return ACCEPTED if found.ready or found.near else REFUSED


def search(here: Opened, theorem: Theorem, situation: Situation, args: argparse.Namespace) -> Found:
    """The uses, those that are called ready accepted by `elements`."""
    known = here.book.known_before(theorem)
    clock = Clock(SECONDS)
    finder = Finder(Reach.of(situation.context, clock), known, wanted_at(situation))
    scratch = Scratch(here.book, theorem, args.step, most_runs=MOST_RUNS)
    try:
        if args.wanted is None:
            uses = finder.all(args.of)
            most = 0 if args.all else OF_EACH if not args.of else MOST_READY
            return confirmed(finder, scratch, some_of_each(uses, most), [], "", args.all)
        wanted = literal_of(args.wanted, situation)
        showing = [use for use in finder.showing(wanted) if not args.of or use.title in args.of]
        uses = some_of_each(showing, 0 if args.all else MOST_READY)
    except OutOfTime:
        return Found(is_whole=False)
    is_shown = any(not use.lacks for use in showing) and not args.all
    shown_lines = {use.line for use in showing if not use.lacks}
    longer = [] if is_shown else longer_ways(theorem, situation, args, here, wanted, shown_lines)
    return confirmed(finder, scratch, uses, longer, spell(wanted), args.all)


def wanted_at(situation: Situation) -> list[Literal]:
    """What a step needs, and what its block has to show."""
    goal = [] if situation.goal.made else situation.goal.shown
    return [*goal, *([] if isinstance(situation.step, (Apply, Qed)) else situation.needs)]


def literal_of(text: str, situation: Situation) -> Literal:
    """The literal that is to be reached."""
    try:
        return parse_literal(text.split(), situation.context.sorts)
    except Fault as fault:
        raise WrongUse(f"`{text}` is no literal before the step: {fault.message}") from None


def some_of_each(uses: Iterable[Use], most: int) -> list[Use]:
    """Not too many uses of each theorem, and of those that show the same one; 0 means all."""
    counts: dict[tuple[str, bool], int] = {}
    seen: set[tuple[str, frozenset[object]]] = set()
    found = []
    for use in uses:
        kind = use.title, bool(use.lacks)
        same = use.title, frozenset(key(each) for each in use.shows)
        counts[kind] = counts.get(kind, 0) + (same not in seen)
        if not most or same not in seen and counts[kind] <= most:
            found.append(use)
        seen.add(same)
    return found


def longer_ways(theorem: Theorem, situation: Situation, args: argparse.Namespace, here: Opened, wanted: Literal,
                known_lines: set[str]) -> list[list[str]]:
    """Lines from which the literal follows: without a theorem, or with a use that is not among those that show it."""
    try:
        filled = Scratch(here.book, theorem, args.step).filled()
    except Untried:
        return []
    ways = ways_to(theorem, here.book.known_before(theorem), args.step, wanted, filled=filled, most=MOST_LONG,
                   seconds=SECONDS_LONG)
    return [[line.strip() for line in way.lines] for way in ways.ways if way.applied not in known_lines
            and (not args.of or way.applied and way.applied.split()[1] in args.of)]


def confirmed(finder: Finder, scratch: Scratch, uses: list[Use], longer: list[list[str]], wanted: str,
              is_all: bool) -> Found:
    """Asks `elements` of what seems ready."""
    found = Found(is_whole=finder.is_whole)
    last = [f"hence {wanted}"] if wanted else []
    ready = [use for use in uses if not use.lacks][: None if is_all else MOST_READY]
    trials = [*([use.line, *last] for use in ready), *([*lines, *last] for lines in longer)]
    try:
        accepted = scratch.ready(trials)
    except Untried as untried:
        found.untried, accepted = str(untried), [False] * len(trials)
    found.ready = [([use.line], use) for use, is_ready in zip(ready, accepted) if is_ready]
    found.ready += [([*lines, *last] if not any(line.startswith("apply") for line in lines) else lines, None)
                    for lines, is_ready in zip(longer, accepted[len(ready) :]) if is_ready]
    last_lines = {lines[-1] for lines, _ in found.ready}
    refused = [use for use, is_ready in zip(ready, accepted) if not is_ready]
    near = [use for use in [*refused, *(use for use in uses if use.lacks)] if use.line not in last_lines]
    found.near = near if is_all else near[:MOST_NEAR]
    return found


def put_found(found: Found, args: argparse.Namespace) -> None:
    """Writes what may be applied."""
    for lines, use in found.ready:
        put_use("ready", lines, use, args.json)
    if found.untried:
        print(f"euclid: nothing can be tried here: {found.untried}", file=sys.stderr)
    for use in found.near:
        put_use("near", [use.line], use, args.json)
    if not found.ready and not found.near and not args.json:
        print("    no theorem was found")
    if not found.is_whole and args.wanted is None:
        print("euclid: there may be more: --of TITLE looks at one theorem", file=sys.stderr)


def put_use(kind: str, lines: list[str], use: Use | None, is_json: bool) -> None:
    """Writes one use."""
    shows = [spell(each) for each in use.shows] if use else []
    if is_json:
        data: dict[str, object] = {"kind": kind, "lines": lines, "shows": shows}
        if use:
            data |= {"lacks": [spell(each) for each in use.lacks], "unknown": [spell(each) for each in use.unknown],
                     "linesToIt": use.lines, "reaches": use.reaches, "twice": use.twice}
        put_json(data)
        return
    for line in lines[:-1]:
        print(f"    {line}")
    print(f"    {lines[-1]}{'    ready' if kind == 'ready' else ''}")
    if use and kind == "near":
        print(f"        lacks {lacking_words(use.lacks, use.unknown, use.lines) or 'a given literal, says elements'}")
    if use:
        print(f"        shows {spelled(use.shows)}")

