"""`euclid fill`."""

from __future__ import annotations

import argparse
import resource
import sys
from pathlib import Path

from ..checking import Outcome, Verdict
from ..filling.books import FilledBooks, fill_books, open_books, sketched, sketches_of, texts_in, wanted
from ..filling.ways import Ways, ways_at
from ..library import STREAM, load, shown
from ..messages import ACCEPTED, FAILED, FAULTY, REFUSED, WrongUse, put_json, tell
from ..syntax import count_of
from ..targets import Opened
from ..words import add_json, add_paths, close_to, positive
from ..writing import exchange

HELP = """Puts the lines into proofs that any reader sees: what the diagram shows, and plain sums.

The book goes to standard output, with the author's lines and comments as they are, and before a
step the `by`, `hence` and `claim` lines that it needs. A `hence` line with a literal of the diagram
is a wish: the `by` lines that give it take its place. What cannot be found is told, with what
comes nearest, and that theorem stays as it is. Where a file NAME.sketch stands beside NAME.book, it
is filled, and the book is what comes out.

example: euclid fill library/book-1/I.05.book
"""
SECONDS, MEGABYTES = 30.0, 2048


def arguments(parser: argparse.ArgumentParser) -> None:
    """The words of the command."""
    parser.add_argument("--write", action="store_true", help="write each book in its place, not to standard output")
    parser.add_argument("--only", metavar="TITLE", action="append", default=[], help="this theorem alone; may be repeated")
    parser.add_argument("--apply", action="store_true",
                        help="where the figure does not give a literal, one use of an earlier theorem may be put in")
    parser.add_argument("--at", nargs=2, metavar=("TITLE", "STEP"),
                        help="only list the ways to what this step lacks, those that `elements` accepts first")
    parser.add_argument("--seconds", type=float, default=SECONDS, metavar="N",
                        help=f"give a theorem up after so many seconds (default {SECONDS:g})")
    add_json(parser)
    add_paths(parser)


def run(args: argparse.Namespace) -> int:
    """Fills, and asks `elements` of the outcome."""
    before = resource.getrlimit(resource.RLIMIT_AS)
    most = MEGABYTES << 20 if before[1] == resource.RLIM_INFINITY else min(MEGABYTES << 20, before[1])
    resource.setrlimit(resource.RLIMIT_AS, (most, before[1]))
    try:
        return list_ways(args) if args.at else fill(args)
    except MemoryError:
        print(f"euclid: out of memory, at {MEGABYTES} MB", file=sys.stderr)
        return FAILED
    finally:
        resource.setrlimit(resource.RLIMIT_AS, before)


def fill(args: argparse.Namespace) -> int:
    """Fills the books."""
    found = open_books(args.paths or [Path(".")], args.only, 1 if args.apply else 0)
    check_use(found, args)
    fill_books(found, args.seconds)
    for message in found.messages():
        tell(message)
    if args.json:
        tell_as_json(found)
    put(found, args)
    return status_of(found, args.only)


def check_use(found: FilledBooks, args: argparse.Namespace) -> None:
    """Whether the titles are there, and standard output takes what comes out: before any work is done."""
    titles = [item.title for item in found.library.own_items(found.book)]
    for title in args.only:
        if title not in titles:
            raise WrongUse(f"no theorem here has the title `{title}`{close_to(title, titles)}")
    count = len(found.asked_files())
    if args.write or args.json or count == 1:
        return
    files = [path for path in args.paths if not path.is_dir()]
    if len(files) != 1 or len(args.paths) == 1:
        raise WrongUse(f"standard output takes one book, and here are {count}: use --write")
    name = files[0].with_suffix(".book").name
    raise WrongUse(f"standard output takes one book, and here are {count}: put {name} into a folder with a book.toml "
                   f"that names it and needs the library, and fill FOLDER/{name}")


def list_ways(args: argparse.Namespace) -> int:
    """Lists ways to what a step lacks."""
    paths, pieces = sketched(args.paths or [Path(".")])
    library = load(paths, texts_in(pieces))
    here = Opened(library, library.book())
    theorem, number = here.theorem(args.at[0]), number_of(args.at[1])
    step = next((each for each in theorem.steps() if each.number == number), None)
    if step is None:
        raise WrongUse(f"`{theorem.title}` has {count_of(len(theorem.steps()), 'step')}, and no step {number}")
    found = ways_at(here.book, theorem, number, seconds=args.seconds)
    if args.json:
        put_json({"title": theorem.title, "step": number, "wanted": found.wanted, "before": found.before,
                  "ways": [{"ready": way.is_ready, "apply": way.applied, "lines": way.lines} for way in found.ways],
                  "stopped": found.stopped})
    else:
        print("\n".join(listing(found, f"{here.message(step.line, 0, '').place}: step {number} of {theorem.title}")))
    return ACCEPTED if not found.wanted or any(way.is_ready for way in found.ways) else REFUSED


def listing(found: Ways, place: str) -> list[str]:
    """The ways for people."""
    if not found.wanted:
        return [f"{place} lacks nothing" if not found.stopped else f"{place}: {found.stopped}"]
    lines = [f"{place} lacks {wanted(found.wanted)}"]
    if found.before:
        lines += ["steps before it lack:", *("    " + line.strip() for line in found.before)]
    for number, way in enumerate(found.ways, 1):
        lines.append(f"{number}. {'ready' if way.is_ready else 'not accepted as it is'}")
        lines += ["    " + line for line in way.lines or ["(nothing: it is allowed)"]]
    lines += [] if found.ways else ["nothing was found that gives it"]
    return lines + ([found.stopped] if found.stopped else [])


def number_of(word: str) -> int:
    """The number of a step."""
    try:
        return positive(word)
    except argparse.ArgumentTypeError as error:
        raise WrongUse(str(error)) from None


def put(found: FilledBooks, args: argparse.Namespace) -> None:
    """Writes the books, and sketches into which a use of a theorem was put."""
    unfinished = found.unfinished()
    for path, text in [*found.texts.items(), *(sketches_of(found).items() if args.write else [])]:
        if path == STREAM or not args.write:
            if not args.json:
                sys.stdout.buffer.write(text.encode("latin-1"))
        elif path in unfinished and path.is_file():
            print(f"euclid: {shown(path)} stays as it is: its sketch is not filled whole", file=sys.stderr)
        elif not path.is_file() or path.read_bytes() != text.encode("latin-1"):
            exchange(path, text)
            if not args.json:
                print(shown(path))
    if args.write and not args.json and STREAM not in found.texts:
        outcomes = own_outcomes(found, args.only)
        accepted = sum(each.verdict == Verdict.ACCEPTED for each in outcomes)
        print(f"{count_of(found.put_in(), 'line')} put in; {accepted} of {len(outcomes)} accepted")


def own_outcomes(found: FilledBooks, only: list[str]) -> list[Outcome]:
    """What became of the theorems and definitions that were asked for."""
    return [each for item, each in zip(found.book.items, found.outcomes.items)
            if found.library.is_own(item.first) and (not only or item.title in only)]


def status_of(found: FilledBooks, only: list[str]) -> int:
    """The exit status."""
    verdicts = {each.verdict for each in own_outcomes(found, only)}
    if Verdict.FAULTY in verdicts or found.outcomes.strays:
        return FAULTY
    return ACCEPTED if verdicts <= {Verdict.ACCEPTED} else REFUSED


def tell_as_json(found: FilledBooks) -> None:
    """One object for each theorem that was filled."""
    verdicts = {item.title: each.verdict for item, each in zip(found.book.items, found.outcomes.items)}
    for title, each in found.filled.items():
        place = found.place(each.theorem.first)
        put_json({
            "title": title, "file": str(place.path), "line": place.line, "verdict": verdicts[title].value,
            "put": [{"before": found.place(before).line, "lines": lines} for before, lines in each.under().items()],
            "applied": each.applied,
            "missing": [{"line": found.place(one.line).line, "step": one.step, "wanted": one.wanted,
                         "nearest": one.why} for one in each.missing],
            "stopped": each.stopped})
