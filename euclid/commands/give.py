"""`euclid give`."""

from __future__ import annotations

import argparse
import sys
from dataclasses import dataclass, field

from ..contexts import Situation
from ..giving import Giver, givers, readings, spelled_plain
from ..literals import Literal, Metric, parse_literal, spell
from ..matching import ANY, STANDS_FOR_ANY
from ..messages import ACCEPTED, REFUSED, WrongUse, put_json
from ..reach import Reach, Unknown
from ..scratch import Scratch, Untried
from ..syntax import Fault
from ..targets import Opened, add_json, add_paths, opened
from ..ways import Way, Ways, lacking_words
from ..words import positive

HELP = """Shows which rules and constructions can give a literal; with --at what each lacks at a step.

Every rule is read in any direction, as `by` takes it; `_` in the literal is any object, and letters
that are not of it are of any objects. With --at the rules are tried on the objects before a step:
`ready` is a line that `elements` accepted there; for the others the premises are named that are no
facts, and which of these follow in a few lines.

example: euclid give 'not on c L'
example: euclid give 'not on c M' --at I.5 13 library/book-1
"""

MOST_READY, MOST_NEAR, MOST_LINES = 12, 8, 12


def arguments(parser: argparse.ArgumentParser) -> None:
    """The words of the command."""
    parser.add_argument("literal", metavar="LITERAL", help="a literal, as a book has it")
    parser.add_argument("--at", nargs=2, metavar=("TITLE", "STEP"), help="before this step, with the objects there")
    add_json(parser)
    add_paths(parser)


def run(args: argparse.Namespace) -> int:
    """Shows the rules, or the ways at a step."""
    words = [word if word != ANY else f"{STANDS_FOR_ANY}{at}" for at, word in enumerate(args.literal.split())]
    try:
        if args.at is None:
            if args.paths:
                raise WrongUse("books are of use only with --at TITLE STEP")
            return tell_givers(words, args.json)
        return tell_ways(args)
    except Fault as fault:
        raise WrongUse(f"`{args.literal}` is no literal: {fault.message}") from None
    except Unknown as unknown:
        raise WrongUse(str(unknown)) from None


# ---- whatever the figure


def tell_givers(words: list[str], is_json: bool) -> int:
    """The rules and constructions that can give a literal."""
    found = [(reading, sorts, giver) for reading, sorts in readings(words) for giver in givers(reading, sorts)]
    for reading, sorts, giver in found:
        tell_giver(giver, is_json)
    if not found:
        kind = isinstance(readings(words)[0][0], Metric)
        other = "arithmetic may, by `hence`, and a theorem" if kind else "a theorem may"
        print(f"euclid: no rule gives that; {other}: see euclid find", file=sys.stderr)
    return ACCEPTED if found else REFUSED


def tell_giver(giver: Giver, is_json: bool) -> None:
    """Writes one of them."""
    needs = [spelled_plain(each) for each in giver.needs]
    if is_json:
        put_json({"line": giver.line, "rule": giver.rule, "backwards": giver.is_backwards, "needs": needs,
                  "words": giver.words})
        return
    rule = f"  by {giver.rule}" if giver.line.startswith("hence") else ""
    print(f"{giver.line}{rule}{'  (backwards)' if giver.is_backwards else ''}")
    if needs:
        print(f"    needs {' ; '.join(needs)}")


# ---- at a step


@dataclass
class Found:
    """What there is to say of a literal before a step."""

    literal: Literal
    ready: list[list[str]] = field(default_factory=list)  # lines that `elements` accepted, each a way
    near: list[Way] = field(default_factory=list)
    untried: str = ""  # why `elements` could not be asked


def tell_ways(args: argparse.Namespace) -> int:
    """The ways to a literal before a step."""
    here = opened(args.paths)
    situation = here.situation(args.at[0], number_of(args.at[1]))
    line = situation.step.line
    place = here.library.place(line.number, line.column(0))
    literal = literal_at(args.literal, situation)
    if literal is None:
        return tell_givers(args.literal.split(), args.json)
    fact = situation.context.fact(literal)
    if not args.json:
        print(f"{place}: before step {situation.step.number} of {args.at[0]}: {spell(literal)}")
    if fact is not None:
        return tell_fact(here, fact.origin.words(), fact.origin.line, args.json)
    found = ways_at(here, args.at[0], situation, literal)
    put_found(found, args.json)
    return ACCEPTED if found.ready or found.near else REFUSED


def number_of(word: str) -> int:
    """The number of a step."""
    try:
        return positive(word)
    except argparse.ArgumentTypeError as error:
        raise WrongUse(str(error)) from None


def literal_at(text: str, situation: Situation) -> Literal | None:
    """A literal over the objects before a step; none where one of its names is new there."""
    names = [word for word in text.split() if word == ANY]
    if names:
        raise WrongUse("with --at the literal has objects of the proof, and no `_`")
    try:
        return parse_literal(text.split(), situation.context.sorts)
    except Fault as fault:
        if fault.kind != "unknown-name":
            raise
        print(f"euclid: {fault.message} before the step: what can give it whatever the figure", file=sys.stderr)
        return None


def tell_fact(here: Opened, words: str, line: int, is_json: bool) -> int:
    """Says that a literal is a fact."""
    place = here.library.place(line)
    if is_json:
        put_json({"kind": "fact", "origin": words, "file": str(place.path), "line": place.line})
    else:
        print(f"    it is a fact: {words}, {place}")
    return ACCEPTED


def ways_at(here: Opened, title: str, situation: Situation, literal: Literal) -> Found:
    """The ways, those that are called ready accepted by `elements`."""
    ways = Ways(Reach.of(situation.context), literal)
    best = ways.all()
    trials = list(dict.fromkeys([f"hence {spell(literal)}", *(way.line for way in best if not way.lacks)]))[:MOST_READY]
    longer: list[str] = next((lines for lines in map(ways.lines_for, [way for way in best if way.lacks and not way.unknown][:3])
                   if len(lines) <= MOST_LINES), [])
    found = Found(literal)
    scratch = Scratch(here.book, here.theorem(title), situation.step.number)
    try:
        all_trials = [*([line] for line in trials), *([longer] if longer else [])]
        found.ready = [trial for trial, is_ready in zip(all_trials, scratch.ready(all_trials)) if is_ready]
    except Untried as untried:
        found.untried = str(untried)
    if len(found.ready) > 1 and len(found.ready[-1]) > 1 and len(found.ready[0]) == 1:
        found.ready.pop()
    shown = {trial[0] for trial in found.ready if len(trial) == 1}
    found.near = [way for way in best if way.lacks and way.line not in shown][:MOST_NEAR]
    return found


def put_found(found: Found, is_json: bool) -> None:
    """Writes the ways."""
    for lines in found.ready:
        if is_json:
            put_json({"kind": "ready", "lines": lines})
        else:
            print("\n".join([*(f"    {line}" for line in lines[:-1]), f"    {lines[-1]}    ready"]))
    if found.untried:
        print(f"euclid: nothing can be tried here: {found.untried}", file=sys.stderr)
    for way in found.near:
        unknown = [spell(each) for each in way.unknown]
        if is_json:
            put_json({"kind": "near", "lines": [way.line], "rule": way.rule, "lacks": [spell(each) for each in way.lacks],
                      "unknown": unknown, "linesToIt": way.lines})
            continue
        rule = f"  by {way.rule}" if way.line.startswith("hence") else ""
        print(f"    {way.line}{rule}")
        print(f"        lacks {lacking_words(way.lacks, way.unknown, way.lines)}")
    if not found.ready and not found.near and not is_json:
        print("    no rule gives it from what is there, or from that and one literal more")
