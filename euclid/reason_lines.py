"""The reasons of a step, as lines for people and as objects of JSON."""

from __future__ import annotations

from .contexts import Origin
from .literals import spell
from .proofs import Explained
from .reasons import Addend, Ground, StepReason
from .rules import tables

WIDTH = 40  # of the literals, before what is said of them


def lines_of_step(reason: StepReason, found: Explained, with_words: bool) -> list[str]:
    """A step with its grounds."""
    margin = "  " * reason.depth
    line = found.library.place(reason.step.line.number).line
    lines = [f"{reason.step.number:4}  {margin}{reason.text}" + (f"    line {line}" if with_words else "")]
    if with_words and reason.words:
        lines.append(f"      {margin}({reason.words})")
    inner = " " * 8 + margin
    for ground in reason.grounds:
        lines += [inner + text for text in ground_lines(ground, found, with_words)]
    if reason.gives and reason.step.word != "claim":
        lines += [f"{inner[:-2]}=> {spell(literal)}" for literal in reason.gives]
    return lines


def ground_lines(ground: Ground, found: Explained, with_words: bool) -> list[str]:
    """Why one literal is allowed."""
    said = spell(ground.literal) if ground.literal else "a contradiction"
    if ground.kind == "fact":
        return [beside(said, origin_words(ground.origin, found))]
    if ground.kind == "clash":
        return ["two facts contradict each other:",
                *("  " + text for part in ground.parts for text in ground_lines(part, found, with_words))]
    if ground.kind == "transfer":
        lines = [beside(said, f"by {ground.rule} {' '.join(ground.names)}")]
        if with_words:
            lines.append(f"  ({tables().transfer[ground.rule].words})")
        return lines + ["  " + text for part in ground.parts for text in ground_lines(part, found, with_words)]
    lines = [beside(said, "by arithmetic")]
    for added in ground.sums:
        end = "is the sum of" if added.addends else "holds of itself"
        lines.append(f"  {f'where {added.case}, ' if added.case else ''}{added.says} {end}")
        lines += [f"    {beside(addend.says, addend_words(addend, found))}" for addend in added.addends]
    return lines


def beside(said: str, more: str) -> str:
    """A literal and what is said of it."""
    return f"{said:{WIDTH}} {more}"


def origin_words(origin: Origin | None, found: Explained) -> str:
    """Where a fact comes from."""
    if origin is None:
        return "of unknown origin"
    return origin.words()


def addend_words(addend: Addend, found: Explained) -> str:
    """Where a row of a sum comes from."""
    if addend.remark:
        return addend.remark
    fact = spell(addend.literal) if addend.literal else ""
    return f"{origin_words(addend.origin, found)}: {fact}"


# ---- JSON


def data_of(reason: StepReason, found: Explained) -> dict[str, object]:
    """A step with its grounds as an object."""
    place = found.library.place(reason.step.line.number, reason.step.line.column(0))
    return {"title": found.theorem.title, "step": reason.step.number, "depth": reason.depth, "file": str(place.path),
            "line": place.line, "column": place.column, "text": reason.text, "words": reason.words,
            "grounds": [ground_data(each, found) for each in reason.grounds],
            "gives": [spell(each) for each in reason.gives]}


def ground_data(ground: Ground, found: Explained) -> dict[str, object]:
    """Why one literal is allowed."""
    data: dict[str, object] = {"kind": ground.kind, "literal": spell(ground.literal) if ground.literal else None}
    if ground.kind == "fact":
        data["origin"] = origin_data(ground.origin, found)
    if ground.kind == "transfer":
        data |= {"rule": ground.rule, "names": list(ground.names)}
    if ground.parts:
        data["parts"] = [ground_data(each, found) for each in ground.parts]
    if ground.sums:
        data["sums"] = [{"says": added.says, "case": added.case, "addends": [addend_data(each, found) for each in added.addends]}
                        for added in ground.sums]
    return data


def addend_data(addend: Addend, found: Explained) -> dict[str, object]:
    """A row of a sum."""
    return {"says": addend.says, "literal": spell(addend.literal) if addend.literal else None,
            "origin": origin_data(addend.origin, found), "remark": addend.remark}


def origin_data(origin: Origin | None, found: Explained) -> dict[str, object] | None:
    """Where a fact comes from."""
    if origin is None:
        return None
    place = found.library.place(origin.line)
    return {"kind": origin.kind, "step": origin.step, "file": str(place.path), "line": place.line}
