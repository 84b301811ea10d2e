"""Fills theorems and books.

Others use two functions: `fill_theorem` for one theorem, and `ways_to` for one literal at a step.
"""

from __future__ import annotations

from ..clock import Clock
from ..script import Theorem
from ..statements import Known
from .applying import Applier
from .theorems import Catalogue, Use
from .walk import FilledTheorem, ProofFiller

SECONDS = 30.0  # for one theorem


def fill_theorem(theorem: Theorem, known: Known, *, seconds: float | None = SECONDS, most_applied: int = 0,
                 catalogue: Catalogue | None = None) -> FilledTheorem:
    """The theorem with the lines that it lacks, given what is known before it.

    `known` is what earlier items of the book say (`Book.known_before`). At most so many of the
    lines that are put in may use an earlier theorem. The lines of the author stay, but for wishes
    that were granted; `FilledTheorem.lines` has each line with the number of the author's line that
    it is, or 0 and the number of the step that needs it, and `under()` the lines that were put in by
    the author's line before which they stand. What was not found is in `missing`, by line and step.
    Nothing is raised; at the end of the time `stopped` says so. A `catalogue` may be kept from one
    theorem to the next. Whether the text is accepted is not said here: ask `elements`.
    """
    clock, catalogue = Clock(seconds), catalogue or Catalogue()

    def filler(applier: Applier | None = None, use: Use | None = None, way: int = 0) -> ProofFiller:
        """A walk that puts in a use, or one of the ways from one on, where an earlier walk found that it has to."""
        made = ProofFiller(theorem, known, clock, catalogue, most_applied)
        made.is_short, made.is_again = True, applier is not None
        if applier is not None:
            made.applier.at, made.applier.first, made.applier.from_way = applier.at, use, way
        return made

    start = filler()
    result = start.run()
    applier = start.applier
    while result.missing and not result.stopped and applier.first is not None:
        for use in applier.others:
            result = filler(applier, use).run()
            if result.is_whole() or result.stopped:
                return result
        again = filler(applier, way=applier.way + 1)
        result, applier = again.run(), again.applier
        if result.is_whole():
            return result
    if start.applier.first is None or result.is_whole():
        return result
    last = filler(start.applier, start.applier.first)
    last.is_short = last.is_again = False
    return last.run()
