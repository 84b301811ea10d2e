"""`euclid pages`."""

from __future__ import annotations

import argparse
import sys
import time
from pathlib import Path

from ..checking import Verdict
from ..messages import ACCEPTED, FAULTY, REFUSED, WrongUse
from ..pages.figures import Keeper, kept_folder
from ..pages.model import site_of
from ..pages.site import make
from ..targets import add_paths

HELP = """Makes a site of a library: every step, by what it is licensed, with its figure.

The pages are plain files, for a browser or any server. Figures are kept from one run to the next.

example: euclid pages library/book-1 -o site
"""


def arguments(parser: argparse.ArgumentParser) -> None:
    """The words of the command."""
    parser.add_argument("-o", dest="output", type=Path, required=True, metavar="FOLDER", help="write the site into this folder")
    parser.add_argument("--keep", type=Path, metavar="FOLDER", help=f"where figures are kept; else {kept_folder()}")
    parser.add_argument("--processes", type=int, metavar="N", help="at most so many at a time; else one a processor")
    add_paths(parser)


def run(args: argparse.Namespace) -> int:
    """Makes the site."""
    if args.output.exists() and not args.output.is_dir():
        raise WrongUse(f"{args.output} is a file, and a folder is wanted")
    if args.processes is not None and args.processes < 1:
        raise WrongUse("--processes takes a number of at least 1")
    begun = time.monotonic()
    site = site_of(args.paths or [Path(".")])
    made = make(site, args.output, Keeper(args.keep or kept_folder()), processes=args.processes)
    accepted = sum(entry.is_accepted for entry in site.order())
    print(f"{args.output}: {made.files} files, {made.bytes:,} bytes; {accepted} of {len(site.entries)} theorems accepted; "
          f"{made.figures} figures, in {made.holding} of them all facts hold; {time.monotonic() - begun:.1f} s", file=sys.stderr)
    outcomes = site.report.outcomes
    if outcomes.strays or any(each.verdict == Verdict.FAULTY for each in outcomes.items):
        return FAULTY
    return ACCEPTED if accepted == len(site.entries) else REFUSED
