"""`euclid strip`."""

from __future__ import annotations

import argparse
import sys

from ..filling.sketches import SUFFIX
from ..filling.stripping import StrippedBooks, strip_books
from ..library import STREAM, shown
from ..messages import ACCEPTED, FAULTY, REFUSED, Message, WrongUse, tell
from ..targets import opened
from ..words import add_paths, close_to
from ..writing import exchange

HELP = """Leaves out of proofs each line that `euclid fill` puts back: a proof at Euclid's length.

The book goes to standard output, or with --write to NAME.sketch beside NAME.book. Before a theorem
is stripped, and when it is filled again, `elements` has to accept it; else it stays as it is.

example: euclid strip library/book-1/I.05.book
"""


def arguments(parser: argparse.ArgumentParser) -> None:
    """The words of the command."""
    parser.add_argument("--write", action="store_true", help="write NAME.sketch beside each NAME.book")
    parser.add_argument("--only", metavar="TITLE", action="append", default=[], help="this theorem alone; may be repeated")
    add_paths(parser)


def run(args: argparse.Namespace) -> int:
    """Strips, and tells the numbers of steps."""
    here = opened(args.paths)
    if here.has_faults():
        return FAULTY
    titles = [item.title for item in here.library.own_theorems(here.book)]
    for title in args.only:
        if title not in titles:
            raise WrongUse(f"no theorem here has the title `{title}`{close_to(title, titles)}")
    count = len(here.library.asked_files(here.book, args.only))
    if not args.write and count != 1:
        raise WrongUse(f"standard output takes one book, and here are {count}: use --write")
    found = strip_books(here.library, here.book, args.only)
    for item in found.left:
        place = found.library.place(item.first)
        tell(Message(place, "error", f"{item.title} stays as it is: `elements` does not accept it"))
    put(found, args.write)
    return REFUSED if found.left else ACCEPTED


def put(found: StrippedBooks, is_write: bool) -> None:
    """Writes the books or their sketches; a sketch of a book that is not accepted whole stays as it is."""
    unstripped = {found.library.place(item.first).path.resolve() for item in found.left}
    for path, text in found.texts.items():
        if path == STREAM or not is_write:
            sys.stdout.buffer.write(text.encode("latin-1"))
            continue
        sketch = path.with_suffix(SUFFIX)
        if sketch.is_file() and path.resolve() in unstripped:
            print(f"euclid: {shown(sketch)} stays as it is: its book is not accepted whole", file=sys.stderr)
            continue
        if not sketch.is_file() or sketch.read_bytes() != text.encode("latin-1"):
            exchange(sketch, text)
            print(shown(sketch))
    print(f"{found.steps} steps, {found.kept} of them kept", file=sys.stderr)
