"""The reverse: takes out of a proof each line that `fill` puts back.

A theorem is tried without all of its `by` lines, then without the claims that have no other steps,
then without its `hence` lines; where that is too much, the groups of lines are taken out by halves.
"""

from __future__ import annotations

from collections.abc import Callable

from ..reading import read_lines
from ..script import By, Cases, Claim, Contradiction, Hence, Qed, Step, Theorem
from ..statements import Known
from ..syntax import SourceLine
from .engine import fill_theorem
from .theorems import Catalogue

Group = frozenset[int]  # numbers of lines that go together
SECONDS = 10.0  # for one try
IN_CLAIMS = (By, Hence, Claim, Cases, Qed, Contradiction)


def strip_theorem(theorem: Theorem, known: Known, catalogue: Catalogue | None = None,
                  seconds: float = SECONDS) -> list[SourceLine]:
    """The lines of a theorem that are needed beside what can be filled in, and its comments. A try that
    takes more than some seconds fails."""
    return Stripper(theorem, known, catalogue or Catalogue(), seconds).strip()


class Stripper:
    """One theorem."""

    def __init__(self, theorem: Theorem, known: Known, catalogue: Catalogue, seconds: float) -> None:
        self.theorem, self.known, self.catalogue, self.seconds = theorem, known, catalogue, seconds

    def strip(self) -> list[SourceLine]:
        """The lines that stay."""
        if self.theorem.fault is not None or not self.fills(frozenset()):
            return self.theorem.lines
        gone: Group = frozenset()
        steps = self.theorem.steps()
        for groups in (singles(steps, By), claims(steps), singles(steps, Hence)):
            gone |= spared(groups, gone, self.fills)
        return self.without(gone)

    def without(self, gone: Group) -> list[SourceLine]:
        """The lines without those of a group."""
        return [line for line in self.theorem.lines if line.number not in gone]

    def fills(self, gone: Group) -> bool:
        """Whether all is put back that was taken out."""
        items = read_lines(self.without(gone), self.known).items
        if len(items) != 1 or not isinstance(items[0], Theorem):
            return False
        return fill_theorem(items[0], self.known, seconds=self.seconds, catalogue=self.catalogue).is_whole()


def spared(groups: list[Group], gone: Group, fills: Callable[[Group], bool]) -> Group:
    """The lines of as many groups as can be taken out beside the lines that are gone: all of them,
    or else those of each half in turn."""
    groups = [group for group in groups if not group <= gone]
    together = frozenset(number for group in groups for number in group)
    if not groups or fills(gone | together):
        return together
    if len(groups) == 1:
        return frozenset()
    half = len(groups) // 2
    first = spared(groups[:half], gone, fills)
    return first | spared(groups[half:], gone | first, fills)


def singles(steps: list[Step], kind: type[Step]) -> list[Group]:
    """The line of each step of a kind."""
    return [Group([step.line.number]) for step in steps if isinstance(step, kind)]


def claims(steps: list[Step]) -> list[Group]:
    """Each claim in whose block no object is drawn and no theorem used, outer ones first."""
    found = []
    for step in steps:
        if isinstance(step, Claim) and all(isinstance(inner, IN_CLAIMS) for inner in step.block.all_steps()):
            found.append(Group(lines_of_claim(step)))
    return found


def lines_of_claim(claim: Claim) -> list[int]:
    """The numbers of the lines of a claim and its block."""
    numbers = [claim.line.number]
    for step in claim.block.all_steps():
        numbers.append(step.line.number)
        if isinstance(step, Cases) and step.otherwise is not None:
            numbers.append(step.otherwise.number)
    return numbers
