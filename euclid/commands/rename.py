"""`euclid rename`."""

from __future__ import annotations

import argparse
import sys
from pathlib import Path

from ..answers import check
from ..beside import renamed_sketches
from ..library import STREAM, SourceFile, load, shown
from ..messages import ACCEPTED, FAILED, FAULTY, WrongUse, tell
from ..renaming import NotRenamed, Renaming, comments_with, differs_by_more
from ..script import Item
from ..syntax import SourceLine, count_of
from ..targets import Opened, add_paths, close_to, opened
from ..writing import exchange

HELP = """Renames a title everywhere, or with --in an object of one theorem or definition.

Only this name changes, in the files that were named: the derivation stays the same but for it,
which is checked before a file is exchanged. Comments that have the old title are told, and stay.

example: euclid rename I.16 exterior.angle library
example: euclid rename --in I.5 d e2 library/book-1
"""


def arguments(parser: argparse.ArgumentParser) -> None:
    """The words of the command."""
    parser.add_argument("--in", dest="inside", metavar="TITLE", help="the theorem or definition that has the object")
    parser.add_argument("old", metavar="OLD", help="the name that is there")
    parser.add_argument("new", metavar="NEW", help="the name that comes in its place")
    add_paths(parser)


def run(args: argparse.Namespace) -> int:
    """Renames in all files that were asked for."""
    here = opened(args.paths)
    if here.has_faults():
        return FAULTY
    lines = here.library.lines()
    renaming = renaming_of(here, args)
    new = {file.path: renamed_text(file, lines, renaming) for file in here.library.files}
    before = check(here.library.text())
    if before.kind == "fault":
        tell(here.message(lines[min(before.line, len(lines)) - 1], 0, before.fault))
        return FAULTY
    difference = differs_by_more(before.derivation, check(load(args.paths or [Path(".")], new).text()).derivation, renaming)
    if difference:
        print(f"euclid: more than the name would change, so nothing is written: {difference}", file=sys.stderr)
        return FAILED
    tell_comments(here, lines, renaming)
    return write(here, lines, renaming, new)


def renamed_text(file: SourceFile, lines: list[SourceLine], renaming: Renaming) -> str:
    """A file's text with the new name; its lines end as they did."""
    parts = file.text.split("\n")
    for at, line in enumerate(lines[file.start - 1 :][: len(file.lines)]):
        parts[at] = renaming.applied(line) + "\r" * parts[at].endswith("\r")
    return "\n".join(parts)


def renaming_of(here: Opened, args: argparse.Namespace) -> Renaming:
    """What is to be renamed, where that can be done."""
    item = item_of(here, args.old if args.inside is None else args.inside)
    renaming = Renaming(args.old, args.new, None if args.inside is None else item)
    if not here.library.is_own(item.first):
        folder = shown(here.library.files[0].path.parent)
        raise WrongUse(f"`{item.title}` is in {here.library.place(item.first).path}, which these books need: "
                       f"name it too, with all that use it ({folder} is one of its folders)")
    try:
        renaming.check_form()
        renaming.check_free(here.library.lines())
    except NotRenamed as wrong:
        raise WrongUse(str(wrong)) from None
    return renaming


def item_of(here: Opened, title: str) -> Item:
    """The theorem or definition of a title."""
    found = next((item for item in here.book.items if item.title == title), None)
    if found is None:
        hint = close_to(title, [item.title for item in here.book.items])
        raise WrongUse(f"no theorem or definition has the title `{title}`{hint}; an object is renamed with --in TITLE")
    return found


def tell_comments(here: Opened, lines: list[SourceLine], renaming: Renaming) -> None:
    """Says which comments have the old title."""
    if renaming.inside is None:
        for line, at in comments_with(lines, renaming.old):
            tell(here.message(line, at, f"a comment has `{renaming.old}`", "note"))


def write(here: Opened, lines: list[SourceLine], renaming: Renaming, new: dict[Path, str]) -> int:
    """Exchanges the files with the name, and the sketches beside them; says how many lines changed in each."""
    sketches = renamed_sketches(here.library, renaming)
    for file in here.library.files:
        count = sum(bool(renaming.places(line)) for line in lines[file.start - 1 :][: len(file.lines)])
        if file.path == STREAM:
            print(new[file.path], end="")
        elif count:
            exchange(file.path, new[file.path])
            print(f"{shown(file.path)}: {count_of(count, 'line')}")
    for path, (text, count) in sketches.items():
        exchange(path, text)
        print(f"{shown(path)}: {count_of(count, 'line')}")
    return ACCEPTED
