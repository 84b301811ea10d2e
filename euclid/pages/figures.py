"""The figures of theorems for pages, kept from one run to the next by the sum of what they are made from."""

from __future__ import annotations

import hashlib
import json
import os
import tempfile
from collections.abc import Sequence
from dataclasses import dataclass
from functools import lru_cache
from pathlib import Path

from ..drawing.course import Source
from ..drawing.figure import Figure, steps_shown
from ..drawing.search import chapters, find_any
from ..drawing.svg import classes_of, tag_of
from ..literals import Literal
from ..places import TOP
from .movable import Json, Movable, elements_data, move_data, paper_data, parts_shown, states_data
from .notation import Notation

MAKERS = ("euclid/drawing", "euclid/pages/figures.py", "euclid/pages/movable.py", "euclid/pages/notation.py",
          "euclid/contexts.py", "euclid/literals.py", "docs/rules.md")


@dataclass
class Chapter:
    """A figure of a theorem: of the main path, of another case, or of what is impossible."""

    svg: str
    title: str
    data: Json  # for the script
    false: list[str]  # facts that do not hold in it


@dataclass
class Drawn:
    """The figures of a theorem: for each step its chapter and its state."""

    chapters: list[Chapter]
    steps: dict[int, tuple[int, int]]
    attempts: int = 0

    def text(self) -> str:
        """As a text to keep."""
        rows = [[each.svg, each.title, each.data, each.false] for each in self.chapters]
        steps = [[step, *places] for step, places in self.steps.items()]
        return json.dumps([rows, steps, self.attempts], separators=(",", ":"), ensure_ascii=True)

    @staticmethod
    def of(text: str) -> Drawn:
        """From a text that was kept."""
        rows, steps, attempts = json.loads(text)
        return Drawn([Chapter(*row) for row in rows], {step: (chapter, state) for step, chapter, state in steps}, attempts)


def drawn(source: Source) -> Drawn:
    """Draws a theorem."""
    scene = find_any(source)
    if scene is None:
        return Drawn([], {})
    found: list[Chapter] = []
    steps: dict[int, tuple[int, int]] = {}
    for number, each in enumerate(chapters(scene)):
        figure = Figure(each)
        others = [Figure(other, with_states=False) for other in each.others[:3]]
        own = {step: at for step, at in steps_shown(each.events).items() if step not in steps}
        kept = sorted(own.values())
        steps |= {step: (number, kept.index(at)) for step, at in own.items()}
        found.append(chapter(figure, others, kept))
    return Drawn(found, steps, scene.attempts)


def chapter(figure: Figure, others: Sequence[Figure], kept: Sequence[int]) -> Chapter:
    """One figure, in the states of its own steps and as a whole."""
    notation, movable = Notation(figure.letters), Movable(figure)
    parts = parts_shown(figure, kept)
    said = [words_of(notation, fact, figure) for fact in movable.facts]
    data: dict[str, Json] = {"els": elements_data(figure, movable.objects, parts),
                             "states": states_data(figure, kept, parts), "paper": paper_data(figure)}
    if not figure.scene.is_loose:
        data["move"] = move_data(movable, said, others, parts)
    false = [words_of(notation, fact, figure) for _, fact in figure.scene.false]
    return Chapter(inline_svg(figure, parts), title_of(figure, notation), data, false)


def words_of(notation: Notation, fact: Literal, figure: Figure) -> str:
    """A fact in the notation of geometry."""
    return notation.literal(fact, figure.scene.frame.sorts)


def title_of(figure: Figure, notation: Notation) -> str:
    """What a figure shows besides what is given: the cases that it follows."""
    said = [words_of(notation, fact, figure) for event in figure.events if event.kind == "supposed"
            for fact in event.facts]
    if said:
        return "Supposed, which cannot be: " + "; ".join(said)
    cases = [words_of(notation, fact, figure) for event in figure.events
             if event.kind == "cases" and event.skipped == "case" for fact in event.facts]
    if cases:
        return "The case: " + "; ".join(cases)
    return ""


def inline_svg(figure: Figure, parts: Sequence[int]) -> str:
    """The picture with these parts; those that the whole figure does not show are off."""
    width, height = (f"{size:.0f}" for size in (figure.layout.width, figure.layout.height))
    elements, whole = figure.elements, figure.whole
    lines = [f'<svg viewBox="0 0 {width} {height}" width="{width}" height="{height}" role="img">']
    for at in parts:
        words = classes_of(elements[at], whole.classes.get(at, ""))
        is_shown = at in whole.shown or at in whole.classes
        lines.append(tag_of(figure, elements[at], words if is_shown else words + " off"))
    return "\n".join([*lines, "</svg>"])


# ---- keeping


@lru_cache(maxsize=None)
def sum_of_code(names: tuple[str, ...]) -> str:
    """The sum of the code that makes something."""
    found = hashlib.sha256()
    for name in names:
        path = TOP / name
        for file in sorted(path.glob("*.py")) if path.is_dir() else [path]:
            found.update(file.read_bytes())
    return found.hexdigest()


class Keeper:
    """Texts kept in a folder, by the sum of what they are made from; without a folder nothing is kept."""

    def __init__(self, folder: Path | None) -> None:
        self.folder = folder

    def path(self, kind: str, *parts: str) -> Path | None:
        """Where the text made from these parts is kept."""
        if self.folder is None:
            return None
        total = hashlib.sha256("\0".join([kind, *parts]).encode()).hexdigest()
        return self.folder / kind / f"{total}.json"

    def get(self, path: Path | None) -> str | None:
        """A text that was kept, where it is there."""
        if path is None:
            return None
        try:
            return path.read_text(encoding="ascii")
        except (OSError, UnicodeDecodeError):
            return None

    def put(self, path: Path | None, text: str) -> None:
        """Keeps a text; where that cannot be, it is made again the next time."""
        if path is None:
            return
        try:
            path.parent.mkdir(parents=True, exist_ok=True)
            handle, name = tempfile.mkstemp(dir=path.parent)
            with os.fdopen(handle, "w", encoding="ascii") as file:
                file.write(text)
            os.replace(name, path)
        except OSError:
            pass


def kept_folder() -> Path:
    """Where figures are kept if nothing else is said."""
    return Path(os.environ.get("XDG_CACHE_HOME") or Path.home() / ".cache") / "euclid"


def kept_or_drawn(keeper: Keeper, source: Source, made_from: str) -> Drawn:
    """The figures of a theorem, drawn only where they are not kept."""
    path = keeper.path("figures", sum_of_code(MAKERS), made_from)
    text = keeper.get(path)
    if text is not None:
        try:
            return Drawn.of(text)
        except (ValueError, TypeError, KeyError):
            pass  # a broken file
    found = drawn(source)
    keeper.put(path, found.text())
    return found
