"""The figure of a theorem that is being written."""

from __future__ import annotations

from ..drawing.describe import description
from ..drawing.figure import Figure, steps_shown
from ..drawing.search import chapters, find_any
from ..drawing.sources import Sources
from ..drawing.svg import svg
from ..library import Library
from ..reading import read_lines
from ..script import Theorem
from .pool import Data


def drawn(whole: Library, theorem: Theorem, line: int) -> Data:
    """The figure of a theorem, with what the step at a line of the joined text adds in colour."""
    alone = read_lines([each for each in whole.lines() if each.number <= theorem.last])
    source = Sources(alone).source(theorem)
    scene = find_any(source)
    if scene is None:
        return {"svg": "", "why": "no figure was found in which all that is given holds"}
    number = max((each.number for each in theorem.steps() if each.line.number <= line), default=0)
    chosen = next((each for each in [scene, *chapters(scene)] if number in steps_shown(each.events)), scene)
    figure = Figure(chosen, [])
    shown = steps_shown(figure.events)
    last = max((step for step in shown if step <= number), default=None)
    state = figure.whole if last is None else figure.states[shown[last]]
    title = theorem.title + (f", step {last}" if last else "")
    return {"svg": svg(figure, state, title, description(source.theorem)), "title": theorem.title, "step": last or 0}
