"""`euclid check`."""

from __future__ import annotations

import argparse
import sys
import time
from pathlib import Path

from ..answers import check
from ..library import CONFIG, Faulty, Library, Place, load
from ..messages import ACCEPTED, Message, put_json, tell
from ..words import add_json, add_paths

HELP = """Checks books and libraries, and says of each refused step what is missing.

It goes on after an error: what rests on a refused theorem is left out and counted, all else is
checked. Refusals go to standard error, as FILE:LINE:COLUMN: error: .., and the count to standard
output. The exit status is 0 where all is accepted, 1 where a theorem is refused, 2 where a line is
faulty.

example: euclid check library/book-1
"""
PAUSE = 0.3  # seconds between two looks at the files


def arguments(parser: argparse.ArgumentParser) -> None:
    """The words of the command."""
    parser.add_argument("--only", metavar="TITLE", help="check this theorem alone, and what it rests on")
    parser.add_argument("--quiet", action="store_true", help="one line for each refusal, and no ways are looked for")
    parser.add_argument("--watch", action="store_true", help="check again when a file changes, until you end it")
    parser.add_argument("--twice", action="store_true", help="verify what is accepted twice more, by two programs")
    add_json(parser)
    add_paths(parser)


def run(args: argparse.Namespace) -> int:
    """Checks once, or again and again."""
    if args.watch:
        return watch(args)
    library = load(args.paths or [Path(".")])
    if is_accepted(args, library):
        return ACCEPTED
    from ..telling import check_once  # only where there is more to say: this makes the usual answer quick

    return check_once(args, library)


def is_accepted(args: argparse.Namespace, library: Library) -> bool:
    """Whether all is accepted and there is no more to say than that; then it is said."""
    if args.only or args.twice:
        return False
    text = library.text()
    if " _" in text:  # what filled a blank may be worth a note
        return False
    answer = check(text)
    if not answer.is_accepted():
        return False
    from ..filling.sketches import sketch_messages

    for message in sketch_messages(library):
        put_json(message.data()) if args.json else tell(message)
    if args.json:
        put_json({"kind": "count", "accepted": answer.count, "refused": 0, "faulty": 0, "rest": 0, "failed": ""})
    else:
        print(f"{answer.count} accepted")
    return True


def watch(args: argparse.Namespace) -> int:
    """Checks again each time that a file has changed."""
    from ..diagnose import Diagnoser
    from ..telling import check_once

    diagnoser = Diagnoser()
    while True:
        before = stamps(args.paths)
        try:
            check_once(args, load(args.paths or [Path(".")]), diagnoser)
        except Faulty as fault:
            tell(Message(Place(fault.path, fault.line), "error", fault.message))
        sys.stdout.flush()
        while stamps(args.paths) == before:
            time.sleep(PAUSE)


def stamps(paths: list[Path]) -> dict[Path, tuple[int, int]]:
    """When the files of a command line were changed, and how large they are."""
    try:
        files = [file.path for file in load(paths or [Path(".")]).files]
    except Faulty:
        files = []
    folders = {path if path.is_dir() else path.parent for path in [*paths, *files, Path(".")]}
    found = {}
    for path in {*files, *paths, *(folder / CONFIG for folder in folders)}:
        try:
            stat = path.stat()
        except OSError:
            continue
        found[path] = (stat.st_mtime_ns, stat.st_size)
    return found
