"""`euclid graph`."""

from __future__ import annotations

import argparse
import re
import sys
import textwrap

from ..checking import Checker, Outcomes, Verdict
from ..graph import SUPERPOSE, Graph, graph_of
from ..messages import ACCEPTED, FAULTY, REFUSED, WrongUse, put_json
from ..rules import tables
from ..targets import Opened, add_json, add_paths, close_to, opened

HELP = """Shows what theorems rest on: theorems and rules, and who rests on them.

A theorem rests on those that its steps apply, and on all on which these rest; and on the rules that
the steps of all of these cite or that carry facts between diagrams and magnitudes; the superposition
is the rule `superpose`. All this is of the proofs that are there: others may need less.

example: euclid graph --of I.32 library/book-1
example: euclid graph --rule da5a library
example: euclid graph --rule da5a --propositions library
example: euclid graph --dot --of I.47 library/book-1 | dot -Tsvg > I.47.svg
"""

COLUMNS = 100
NUMBERED = re.compile(r"([IVXLC]+)\.(\d+)(?![^.])")  # a title of a proposition, or of a part of it: `III.7.near`


def arguments(parser: argparse.ArgumentParser) -> None:
    """The words of the command."""
    parser.add_argument("--of", action="append", default=[], metavar="TITLE", help="this theorem alone; may come again")
    parser.add_argument("--rule", metavar="RULE", help="which theorems rest on this rule, and which do not")
    parser.add_argument("--propositions", action="store_true",
                        help="with --rule: numbered propositions, in runs, in place of theorems")
    parser.add_argument("--unused", action="store_true", help="the theorems that no other applies")
    parser.add_argument("--dot", action="store_true",
                        help="a drawing for Graphviz; with --of of all that these theorems rest on")
    add_json(parser)
    add_paths(parser)


def run(args: argparse.Namespace) -> int:
    """Shows the part of the graph that was asked for."""
    here = opened(args.paths)
    outcomes = Checker().check(here.book)
    graph = graph_of(each.part for each in outcomes.items if each.part is not None)
    own = [each.title for each in here.library.own_theorems(here.book) if each.title in graph.applies]
    for title in args.of:
        if title not in graph.applies:
            here.theorem(title)
            raise WrongUse(f"`{title}` is not accepted, or rests on what is not")
    wanted = args.of or own
    if args.rule:
        print("\n".join(rule_lines(graph, args.rule, wanted, args.propositions)))
    elif args.unused:
        print("\n".join(title for title in graph.unused() if title in wanted))
    elif args.dot:
        print("\n".join(dot_lines(graph, wanted, bool(args.of))))
    else:
        tell_all(here, graph, wanted, args.json)
    return tell_left_out(here, outcomes)


def tell_all(here: Opened, graph: Graph, titles: list[str], is_json: bool) -> None:
    """Writes all that is known of these theorems."""
    lines = {each.title: each.first for each in here.book.theorems()}
    for title in titles:
        place = here.library.place(lines[title])
        rows = {"applies": graph.applies[title], "rests on": graph.below[title], "applied by": graph.applied_by[title],
                "under": graph.above[title], "rules": graph.rules[title]}
        if is_json:
            keys = {"rests on": "restsOn", "applied by": "appliedBy"}
            put_json({"title": title, "file": str(place.path), "line": place.line,
                      **{keys.get(name, name): row for name, row in rows.items()}})
            continue
        print(f"{place}: {title}")
        print("\n".join(row_lines("    ", rows)))


def rule_lines(graph: Graph, rule: str, titles: list[str], by_numbers: bool) -> list[str]:
    """Which of these theorems, or propositions, rest on a rule: of a proposition one theorem is enough."""
    names = [*tables().diagram, *tables().transfer, SUPERPOSE]
    if rule not in names:
        raise WrongUse(f"no rule is named `{rule}`{close_to(rule, names)}")
    under = set(graph.resting_on(rule))
    using = [title for title in titles if rule in graph.uses[title]]
    rows = {"use it": using, "rest on it": [each for each in titles if each in under],
            "do not": [each for each in titles if each not in under]}
    if by_numbers:
        resting, order = numbers_of(rows["rest on it"]), numbers_of(titles)
        rows["rest on it"], rows["do not"] = resting, [each for each in order if each not in resting]
        return row_lines("", rows, {"rest on it": in_runs(resting, order), "do not": in_runs(rows["do not"], order)})
    return row_lines("", rows)


def numbers_of(titles: list[str]) -> list[str]:
    """The propositions of numbered theorems, each once: `III.7` for `III.7.near`."""
    matches = [match for match in map(NUMBERED.match, titles) if match]
    return list(dict.fromkeys(match.group() for match in matches))


def in_runs(numbers: list[str], order: list[str]) -> str:
    """Numbers in this order; three or more neighbours of one book are written `I.4 to I.6`."""
    runs: list[list[str]] = []
    for place, number in enumerate(order):
        if number in numbers:
            last = order[place - 1] if place else ""
            if runs and runs[-1][-1] == last and last.split(".")[0] == number.split(".")[0]:
                runs[-1].append(number)
            else:
                runs.append([number])
    return ", ".join(f"{run[0]} to {run[-1]}" if len(run) > 2 else ", ".join(run) for run in runs)


def row_lines(indent: str, rows: dict[str, list[str]], told: dict[str, str] | None = None) -> list[str]:
    """Named lists with their lengths, as lines of text, or as they are told."""
    found: list[str] = []
    for name, row in rows.items():
        front = f"{indent}{name:10} {len(row):3}  "
        text = (told or {}).get(name, " ".join(row))
        found += textwrap.wrap(text, COLUMNS, initial_indent=front, subsequent_indent=" " * len(front),
                               break_long_words=False, break_on_hyphens=False) or [front.rstrip()]
    return found


def dot_lines(graph: Graph, titles: list[str], with_below: bool) -> list[str]:
    """A drawing of theorems, with an arrow from each to those that it applies."""
    shown = set(titles).union(*(graph.below[title] for title in titles)) if with_below else set(titles)
    order = graph.in_order(shown)
    nodes = [f'  "{title}";' for title in order]
    edges = [f'  "{title}" -> "{each}";' for title in order for each in graph.applies[title] if each in shown]
    return ["digraph euclid {", "  rankdir=BT;", "  node [shape=box];", *nodes, *edges, "}"]


def tell_left_out(here: Opened, outcomes: Outcomes) -> int:
    """Says what is not in the graph, since it is not accepted."""
    status = ACCEPTED
    for item, outcome in zip(here.book.items, outcomes.items):
        if outcome.verdict != Verdict.ACCEPTED:
            why = f"rests on {outcome.on}" if outcome.verdict == Verdict.RESTS else f"is {outcome.verdict.value}"
            print(f"{here.library.place(item.first)}: note: {item.title} {why}, and is left out", file=sys.stderr)
            status = max(status, FAULTY if outcome.verdict == Verdict.FAULTY else REFUSED)
    for stray in outcomes.strays:
        place = here.library.place(stray.lines[0].number)
        print(f"{place}: note: this is outside of a theorem, and is left out", file=sys.stderr)
    return FAULTY if outcomes.strays else status
