"""`euclid find`."""

from __future__ import annotations

import argparse
import sys

from ..literals import Literal, is_same, spell
from ..matching import all_match, parse_patterns
from ..messages import ACCEPTED, REFUSED, WrongUse, put_json
from ..script import Theorem
from ..syntax import Fault
from ..targets import Opened, add_json, add_paths, opened

HELP = """Finds theorems by what they show, or one by its title.

A pattern is a literal: `_` in it is any object, and another name is one object wherever it comes.
With `;` between two a theorem has to show all of them. What says the same is found too: terms in
another order, equations with their sides exchanged, `b != a` for `a != b`.

example: euclid find 'ang a b c = ang a c b' library/book-1
example: euclid find 'meets _ _' library
example: euclid find I.47 library/book-1
"""


def arguments(parser: argparse.ArgumentParser) -> None:
    """The words of the command."""
    parser.add_argument("pattern", metavar="PATTERN", help="a literal, or several with `;` between them; or a title")
    add_json(parser)
    add_paths(parser)


def run(args: argparse.Namespace) -> int:
    """Looks through all theorems of the books, and of those that they need."""
    here = opened(args.paths)
    theorem = here.book.theorem(args.pattern)
    if theorem is not None:
        tell_one(here, theorem, theorem.statement.shown, args.json)
        return ACCEPTED
    patterns = patterns_of(args.pattern)
    count = 0
    for theorem in here.book.theorems():
        found = all_match(patterns, theorem.statement.shown)
        if found is not None:
            count += 1
            tell_one(here, theorem, found, args.json)
    if not count:
        print("euclid: no theorem shows that", file=sys.stderr)
    return ACCEPTED if count else REFUSED


def patterns_of(text: str) -> list[Literal]:
    """The patterns of a command line."""
    try:
        return parse_patterns(text)
    except Fault as fault:
        raise WrongUse(f"`{text}` is neither a title nor a pattern: {fault.message}") from None


def tell_one(here: Opened, theorem: Theorem, found: list[Literal], is_json: bool) -> None:
    """Writes a theorem that was found."""
    statement, place = theorem.statement, here.library.place(theorem.first)
    if is_json:
        put_json({"file": str(place.path), "line": place.line, "column": place.column, **statement.data(),
                  "found": [spell(each) for each in found]})
        return
    print(f"{place}: {statement.use()}")
    for line in statement.lines():
        print("    " + line)
    if len(statement.shown) > len(found):
        mine = [each for each in statement.shown if any(is_same(each, one) for one in found)]
        print("    found: " + " ; ".join(map(spell, mine)))
