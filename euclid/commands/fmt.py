"""`euclid fmt`."""

from __future__ import annotations

import argparse
import sys
from pathlib import Path

from ..answers import check
from ..layout import depths_of, laid_out
from ..library import STREAM, load, shown
from ..messages import ACCEPTED, FAILED, FAULTY, REFUSED, tell
from ..targets import Opened, add_paths, opened
from ..writing import exchange

HELP = """Lays books out: blocks indented, one blank between words, comments kept.

Only the blanks change: the derivation stays the same byte for byte, which is checked before a file
is exchanged. A book that does not read stays as it is. `-` is standard input, laid out to standard
output.

example: euclid fmt --check library/book-1
"""


def arguments(parser: argparse.ArgumentParser) -> None:
    """The words of the command."""
    parser.add_argument("--check", action="store_true",
                        help="write nothing; name the files that would change, and end with 1 if there are any")
    add_paths(parser)


def run(args: argparse.Namespace) -> int:
    """Lays out each book or library that was asked for, by itself."""
    return max([one(path, args.check) for path in args.paths or [Path(".")]])


def one(path: Path, is_check: bool) -> int:
    """Lays out a book, or the files of a library."""
    here = opened([path])
    if here.has_faults():
        return FAULTY
    texts = {file.path: file.text for file in here.library.files if file.path in here.library.own}
    new = laid_out_files(here)
    changed = [file for file in new if new[file] != texts[file]]
    if is_check:
        for file in changed:
            print(shown(file))
        return REFUSED if changed else ACCEPTED
    before = check(here.library.text())
    if before.kind == "fault":
        tell(here.message(here.library.lines()[before.line - 1], 0, before.fault))
        return FAULTY
    if check(load([path], new).text()).derivation != before.derivation:
        print("euclid: the derivation would change, so nothing is written", file=sys.stderr)
        return FAILED
    if STREAM in new:
        print(new[STREAM], end="")
    for file in changed:
        if file != STREAM:
            exchange(file, new[file])
            print(shown(file))
    return ACCEPTED


def laid_out_files(here: Opened) -> dict[Path, str]:
    """The files that were asked for, with their texts laid out."""
    depths, lines = depths_of(here.book), here.library.lines()
    return {file.path: laid_out(lines[file.start - 1 : file.start - 1 + len(file.lines)], depths)
            for file in here.library.files if file.path in here.library.own}
