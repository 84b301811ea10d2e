"""`euclid facts`."""

from __future__ import annotations

import argparse

from ..contexts import Context, Origin, Situation
from ..literals import spell, spell_all
from ..messages import ACCEPTED, put_json
from ..targets import Opened, add_json, add_paths, add_step, opened

HELP = """Shows the objects and the facts before a step, each with where it comes from.

What the block has to show comes last. The step may be any that reads, also one that is refused, or
one after it.

example: euclid facts I.5 10 library/book-1
"""


def arguments(parser: argparse.ArgumentParser) -> None:
    """The words of the command."""
    add_json(parser)
    add_step(parser)
    add_paths(parser)


def run(args: argparse.Namespace) -> int:
    """Shows what is known before a step."""
    here = opened(args.paths)
    found = here.situation(args.title, args.step)
    if args.json:
        put_json(data_of(here, found))
        return ACCEPTED
    line = found.step.line
    print(f"{here.library.place(line.number, line.column(0))}: before step {args.step} of {args.title}: {line.text.strip()}")
    rows = [*object_rows(here, found.context), *fact_rows(here, found.context)]
    width = max((len(row[0]) for row in rows if len(row[0]) <= 60), default=0)
    for said, origin in rows:
        print(f"    {said:{width}}  {origin}")
    print(f"to show: {spell_all(found.goal.shown)}")
    return ACCEPTED


def object_rows(here: Opened, context: Context) -> list[tuple[str, str]]:
    """A row for the objects of one sort that come from one line."""
    groups: dict[tuple[str, Origin], list[str]] = {}
    for name, sort in context.sorts.items():
        groups.setdefault((sort, context.born[name]), []).append(name)
    return [(f"{sort}{'s' * (len(names) > 1)} {' '.join(names)}", origin_words(here, origin))
            for (sort, origin), names in groups.items()]


def fact_rows(here: Opened, context: Context) -> list[tuple[str, str]]:
    """A row for each fact."""
    return [(spell(fact.literal), origin_words(here, fact.origin)) for fact in context.facts.values()]


def origin_words(here: Opened, origin: Origin) -> str:
    """Where something comes from, with the line of its file."""
    return f"{origin.words()}, line {here.library.place(origin.line).line}" if origin.step else origin.words()


def data_of(here: Opened, found: Situation) -> dict[str, object]:
    """All of it as an object of JSON."""
    def origin(one: Origin) -> dict[str, object]:
        place = here.library.place(one.line)
        return {"kind": one.kind, "step": one.step, "file": str(place.path), "line": place.line}

    context, line = found.context, found.step.line
    place = here.library.place(line.number, line.column(0))
    return {"file": str(place.path), "line": place.line, "column": place.column, "step": found.step.number,
            "text": line.text.strip(),
            "objects": [{"name": name, "sort": sort.value, "origin": origin(context.born[name])}
                        for name, sort in context.sorts.items()],
            "facts": [{"literal": spell(fact.literal), "origin": origin(fact.origin)}
                      for fact in context.facts.values()],
            "needs": [spell(each) for each in found.needs], "shows": [spell(each) for each in found.goal.shown]}
