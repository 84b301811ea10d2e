"""A page with all rules and constructions, to print."""

from __future__ import annotations

from collections.abc import Iterable
from html import escape
from itertools import groupby

from ..literals import Literal, spell
from ..rules import Construction, Rule, tables

HEAD = """<!DOCTYPE html>
<html lang="en">
<head>
<meta charset="utf-8">
<meta name="viewport" content="width=device-width, initial-scale=1">
<title>The rules of System E</title>
<link rel="stylesheet" href="rules.css">
</head>
<body>
<h1>The rules of System E</h1>
<p>Small letters are points, L M N K are lines, A B C are circles. A rule is cited as
<code>by RULE NAMES : LITERAL</code>, with a name for each of its letters, in order. It may be used in
any direction: where all but one of its parts are settled, the last one follows.</p>
"""


def rules_page() -> str:
    """The page."""
    found = tables()
    parts = [HEAD]
    for title, rules in (("To be cited with by", found.diagram), ("Found by hence", found.transfer)):
        parts.append(f"<h2>{title}</h2>")
        for group, members in groupby(rules.values(), key=lambda rule: rule.group):
            parts.append(rows(group, ("Rule", "If", "Then", "In words"), map(rule_row, members)))
    parts.append("<h2>Constructions</h2>")
    parts.append(rows("let", ("Line", "Needs", "Gives", "In words"), map(construction_row, found.constructions)))
    return "\n".join([*parts, "</body>", "</html>", ""])


def rows(caption: str, heads: tuple[str, ...], found: Iterable[tuple[str, ...]]) -> str:
    """A table."""
    head = "".join(f'<th scope="col">{each}</th>' for each in heads)
    lines = [f"<tr>{''.join(f'<td>{cell}</td>' for cell in row)}</tr>" for row in found]
    return "\n".join([f"<table><caption>{escape(caption)}</caption><thead><tr>{head}</tr></thead><tbody>", *lines,
                      "</tbody></table>"])


def words(text: str) -> str:
    """A sentence, in which what stands between backticks is code."""
    return "".join(code(part) if at % 2 else escape(part) for at, part in enumerate(text.split("`")))


def code(text: str) -> str:
    """Words of the language."""
    return f"<code>{escape(text)}</code>"


def codes(literals: Iterable[Literal], between: str) -> str:
    """Literals, or nothing."""
    return between.join(code(spell(each)) for each in literals) or "nothing"


def rule_row(rule: Rule) -> tuple[str, ...]:
    """A rule."""
    name = code(f"{rule.name} {' '.join(rule.variables)}")
    return name, codes(rule.premises, ", "), codes(rule.conclusions, " or "), words(rule.words)


def construction_row(each: Construction) -> tuple[str, ...]:
    """A construction."""
    return code(each.line), codes(each.needs, ", "), codes(each.gives, ", "), words(each.words)
