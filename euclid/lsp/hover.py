"""What a hover shows: a rule, a theorem's statement, an object, or a step with the facts before it."""

from __future__ import annotations

from ..literals import POINT, spell, spell_all
from ..rules import Rule, tables
from ..script import Apply, By, Item, Step
from ..statements import Statement
from .workspace import Spot

MOST_FACTS = 40


def hover(spot: Spot, pages: str = "") -> str | None:
    """Markdown for the word under the cursor, or none; rules have a link to their page with its figure."""
    step = spot.step()
    first = spot.line.words[0] if spot.line.words else ""
    if first == "by" and spot.at == 1 and (rule := tables().diagram.get(spot.word)):
        return rule_text(rule) + (f"\n\n[figure]({pages}/rule/{rule.name}.html)" if pages else "")
    if spot.at == 1 and first in ("apply", "theorem", "define") or spot.line.words[spot.at - 1 : spot.at] == ("as",):
        item = titled(spot, spot.word)
        if item is not None:
            return item_text(item)
    if step is not None and spot.at == 0:
        return step_text(spot, step)
    return object_text(spot)


def titled(spot: Spot, title: str) -> Item | None:
    """The theorem or definition of a title."""
    return next((item for item in spot.project.book.items if item.title == title), None)


def rule_text(rule: Rule) -> str:
    """A rule in words, with its premises and conclusions."""
    premises = ", ".join(f"`{spell(each)}`" for each in rule.premises) or "nothing"
    conclusions = " or ".join(f"`{spell(each)}`" for each in rule.conclusions)
    axiom = f"\n\nSystem E: {rule.axiom}" if rule.axiom and rule.axiom != "none known" else ""
    return f"**{rule.name}** `{' '.join(rule.variables)}`\n\n{rule.words}\n\nif {premises}\n\nthen {conclusions}{axiom}"


def statement_text(statement: Statement) -> str:
    """A statement as a book has it."""
    rows = []
    for front, objects in (("", statement.declared), ("made ", statement.made)):
        for sort in dict.fromkeys(sort for _, sort in objects):
            names = " ".join(name for name, each in objects if each == sort)
            rows.append(f"{front}{sort.plural} {names}")
    rows += [f"given {spell(each)}" for each in statement.given]
    rows += [f"show {spell(each)}" for each in statement.shown]
    return "\n".join(rows)


def item_text(item: Item) -> str:
    """A theorem or a definition, with its comment."""
    comment = f"{item.comment}\n\n" if item.comment else ""
    return f"{comment}```elements\n{item.head.words[0]} {item.title}\n{statement_text(item.statement)}\n```"


def step_text(spot: Spot, step: Step) -> str:
    """A step: by what, and the facts before it."""
    situation = spot.situation()
    if situation is None:
        return f"step {step.number}"
    rows = [f"**step {step.number}**"]
    if isinstance(step, By):
        rows.append(tables().diagram[step.rule].words)
    if isinstance(step, Apply) and (item := titled(spot, step.title)) and item.comment:
        rows.append(item.comment)
    if situation.needs:
        rows.append("needs " + ", ".join(f"`{spell(each)}`" for each in situation.needs))
    facts = list(situation.context.facts.values())
    shown = [f"{spell(fact.literal)}    {fact.origin.words()}" for fact in facts[-MOST_FACTS:]]
    more = [f".. {len(facts) - MOST_FACTS} older facts"] if len(facts) > MOST_FACTS else []
    rows.append("facts before it\n```text\n" + "\n".join(more + shown) + "\n```")
    return "\n\n".join(rows)


def object_text(spot: Spot) -> str | None:
    """An object in scope: its sort, where it comes from, and what is known of it."""
    situation = spot.situation()
    if situation is None or spot.word not in situation.context.sorts:
        return None
    context = situation.context
    about = [fact.literal for fact in context.facts.values() if spot.word in str(spell(fact.literal)).split()]
    sort = context.sorts[spot.word]
    known = "\n\n" + spell_all(about[:12]) if about else ""
    article = "a point" if sort == POINT else f"a {sort.value}"
    return f"`{spot.word}`: {article}, {context.born[spot.word].words()}{known}"
