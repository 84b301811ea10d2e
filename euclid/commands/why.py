"""`euclid why`."""

from __future__ import annotations

import argparse
import sys
from pathlib import Path

from ..messages import ACCEPTED, FAULTY, REFUSED, WrongUse, put_json
from ..proofs import Explained, Refused, explained
from ..words import add_json, positive
from ..reason_lines import data_of, lines_of_step

HELP = """Shows by what each step of an accepted theorem is licensed.

For each literal that a step needs: the line that it comes from, the transfer rule that gives it
with its premises, or a sum that can be checked by hand. `=>` is what a step gives. In place of a
book there may be a derivation text, which is verified first.

example: euclid why I.1 library/book-1
"""


def arguments(parser: argparse.ArgumentParser) -> None:
    """The words of the command."""
    add_json(parser)
    parser.add_argument("title", metavar="TITLE", help="the title of a theorem")
    parser.add_argument("words", nargs="*", metavar="[STEP] [BOOK|LIBRARY|TEXT]",
                        help="the number of one step; then files or folders, or a derivation text")


def run(args: argparse.Namespace) -> int:
    """Shows the reasons."""
    words = list(args.words)
    step = positive(words.pop(0)) if words and words[0].isdigit() else 0
    try:
        found = explained(args.title, [Path(word) for word in words])
    except Refused as refused:
        print(f"euclid: `{args.title}` is {refused}", file=sys.stderr)
        return FAULTY if refused.is_faulty else REFUSED
    chosen = [each for each in found.reasons if step in (0, each.step.number)]
    if not chosen:
        raise WrongUse(f"`{args.title}` has {len(found.reasons)} steps, and no step {step}")
    if args.json:
        for each in chosen:
            put_json(data_of(each, found))
        return ACCEPTED
    print("\n".join([heading(found), *(line for each in chosen for line in lines_of_step(each, found, bool(step)))]))
    return ACCEPTED


def heading(found: Explained) -> str:
    """Where the theorem is."""
    return f"{found.library.place(found.theorem.first)}: {found.theorem.title}"
