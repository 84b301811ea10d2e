"""The lines of a proof that `euclid fill` finds: a page folds them, and shows the proof at Euclid's length."""

from __future__ import annotations

import json

from ..answers import check
from ..filling.engine import fill_theorem
from ..filling.strip import strip_theorem
from ..filling.theorems import Catalogue
from ..program import Missing
from ..reading import read_lines
from ..script import Theorem
from .figures import Keeper, sum_of_code
from .model import Entry, Site

SECONDS = 120.0  # for one try: so many that two runs on a busy machine find the same
MAKERS = ("euclid", "euclid/filling", "docs/rules.md")


def folded_lines(site: Site, entry: Entry, keeper: Keeper) -> frozenset[int]:
    """The numbers of the lines that are folded."""
    if not entry.is_accepted:
        return frozenset()
    path = keeper.path("folds", sum_of_code(MAKERS), entry.made_from)
    first = entry.theorem.first
    text = keeper.get(path)
    if text is not None:
        try:
            return frozenset(first + int(each) for each in json.loads(text))
        except (ValueError, TypeError):
            pass  # a broken file
    found = found_by_fill(site, entry)
    keeper.put(path, json.dumps(sorted(number - first for number in found)))
    return found


def found_by_fill(site: Site, entry: Entry) -> frozenset[int]:
    """The lines that can be left out; none, where `elements` does not accept what is filled in for them."""
    theorem, catalogue = entry.theorem, Catalogue()
    kept = strip_theorem(theorem, entry.known, catalogue, SECONDS)
    gone = frozenset(line.number for line in theorem.lines) - {line.number for line in kept}
    if not gone:
        return gone
    items = read_lines(kept, entry.known).items
    if len(items) != 1 or not isinstance(items[0], Theorem):
        return frozenset()
    again = fill_theorem(items[0], entry.known, seconds=None, catalogue=catalogue).text()
    return gone if is_accepted(site, entry, again) else frozenset()


def is_accepted(site: Site, entry: Entry, text: str) -> bool:
    """Whether `elements` accepts another text of a theorem in the place of its own."""
    before = [line.text for item in site.report.book.items if item.first < entry.theorem.first
              and site.is_accepted(item) for line in item.lines]
    try:
        return check("\n".join([*before, text])).is_accepted()
    except Missing:
        return False
