"""`euclid draw`."""

from __future__ import annotations

import argparse
import sys
from pathlib import Path

from ..drawing.attempt import Scene
from ..drawing.course import Source, name_of
from ..drawing.describe import description
from ..drawing.figure import Figure, State, steps_shown
from ..drawing.search import chapters, find_any
from ..drawing.sources import Sources
from ..drawing.svg import svg
from ..literals import names_in, renamed, spell
from ..messages import ACCEPTED, WrongUse
from ..script import Theorem
from ..targets import add_paths, opened
from ..writing import exchange_bytes

HELP = """Draws a theorem: what is given, and what the proof draws.

The picture is made from the text alone. It is a picture and claims nothing: standard error names the facts
that do not hold in it. Of a theorem that is refused it has what comes before the step.

example: euclid draw I.47 --step 12 -o step-12.svg library/book-1
"""


def arguments(parser: argparse.ArgumentParser) -> None:
    """The words of the command."""
    parser.add_argument("title", metavar="TITLE", help="the theorem")
    parser.add_argument("--step", type=int, metavar="K", help="the figure at this step, in colour what it adds and "
                        "what it follows from; 0 is what is given")
    parser.add_argument("--hide", action="append", default=[], metavar="NAME", help="leave out this object; may come "
                        "more than once")
    parser.add_argument("-o", dest="output", type=Path, metavar="FILE", help="write to this file")
    add_paths(parser)


def run(args: argparse.Namespace) -> int:
    """Draws one figure."""
    here = opened(args.paths)
    theorem = here.theorem(args.title)
    source = Sources(here.book).source(theorem)
    if args.step is not None:
        check_step(theorem, source, args.step)
    scene = scene_with(source, args.step)
    hidden = [name for name in scene.values if name_of(name) in args.hide]
    figure = Figure(scene, hidden)
    state, title = state_at(figure, args.step), args.title + (f", step {args.step}" if args.step else "")
    text = svg(figure, state, title, description(source.theorem))
    if args.output:
        exchange_bytes(args.output, text.encode("utf-8"))
    else:
        sys.stdout.write(text)
    for step, fact in figure.layout.false_facts():
        where = f"at step {step}" if step else "given"
        plain = renamed(fact, {name: name_of(name) for name in names_in(fact)})
        print(f"euclid: does not hold in the picture: {spell(plain)} ({where})", file=sys.stderr)
    return ACCEPTED


def check_step(theorem: Theorem, source: Source, number: int) -> None:
    """Whether the figure may come to a step."""
    last = max((step.number for step in theorem.steps()), default=0)
    if not 0 <= number <= last:
        raise WrongUse(f"`{theorem.title}` has the steps 1 to {last}, and 0 for what is given")
    if source.last and number >= source.last:
        raise WrongUse(f"`{theorem.title}` is refused at step {source.last}: a figure comes to the one before")


def scene_with(source: Source, step: int | None) -> Scene:
    """The scene that has a step."""
    scene = find_any(source)
    if scene is None:
        raise WrongUse(f"no figure of `{source.title}` was found")
    if step is None:
        return scene
    for each in chapters(scene) if step not in steps_shown(scene.events) else [scene]:
        if step in steps_shown(each.events):
            return each
    raise WrongUse(f"no figure of `{source.title}` comes to step {step}")


def state_at(figure: Figure, step: int | None) -> State:
    """What the figure shows."""
    return figure.whole if step is None else figure.states[steps_shown(figure.events)[step]]
