"""Of some attempts the figure that looks best."""

from __future__ import annotations

import random

from ..script import Cases
from .attempt import Attempt, Courses, Failed, Scene
from .course import Bare, Course, Decisions, Source, is_live
from .score import GOOD, Key

ATTEMPTS, STARTS = 24, 1000  # at most
ENOUGH = 6  # figures, of which one is good
OTHERS = 4  # figures of other attempts that are kept


def find(source: Source, courses: Courses = Course, forced: Decisions | None = None, loose: bool = False,
         starts: int = STARTS) -> tuple[Scene | None, list[Failed]]:
    """The best scene of some attempts, or None; and what the attempts failed at. It stops after so many attempts, or
    starts of the solver, and before, where enough figures were found and one of them is good. The same text gives
    the same figure."""
    found: list[list[Scene]] = []
    failed: list[Failed] = []
    used = number = 0
    for number in range(ATTEMPTS):
        attempt = Attempt(source, random.Random(f"{source.title} {number}"), courses, forced, loose)
        try:
            scenes = attempt.run()
            least = min(len(scene.false) for scene in scenes)
            found.append([scene for scene in scenes if len(scene.false) == least])
        except Failed as why:
            failed.append(why)
        used += attempt.starts
        if used >= starts or len(found) >= ENOUGH and best_of(found).score < GOOD:
            break
    if not found:
        return None, failed
    best = best_of(found)
    best.starts, best.attempts = used, number + 1
    best.others = others_of(best, found)
    return best, failed


def best_of(found: list[list[Scene]]) -> Scene:
    """The scene of the least score. What coincides in the figures of all attempts is implied."""
    scenes = [scene for group in found for scene in group]
    least = min(len(scene.false) for scene in scenes)
    scenes = [scene for scene in scenes if len(scene.false) == least]
    implied: set[Key] = set.intersection(*(scene.view.coincidences() for scene in scenes))
    for scene in scenes:
        scene.score = scene.view.score(implied)
    return min(scenes, key=lambda scene: scene.score)


def others_of(best: Scene, found: list[list[Scene]]) -> list[Scene]:
    """The best figures of other attempts that follow the same cases and have no more false facts."""
    rest = [min(group, key=lambda scene: scene.score) for group in found if best not in group]
    rest = [scene for scene in rest if scene.decisions == best.decisions and len(scene.false) <= len(best.false)]
    return sorted(rest, key=lambda scene: scene.score)[:OTHERS]


def find_any(source: Source, courses: Courses = Course) -> Scene | None:
    """A scene in which all facts hold, or where what is given contradicts itself a loose one."""
    scene, _ = find(source, courses)
    if scene is None:
        scene, _ = find(source, courses, loose=True)
    return scene


def find_statement(source: Source) -> Scene | None:
    """A scene of the statement alone."""
    return find_any(source, Bare)


def chapters(scene: Scene) -> list[Scene]:
    """The scene, and others for the blocks that it leaves out: of what is impossible, and of other cases. A block
    that ends in contradiction has a loose figure, in which most of the facts hold."""
    found, queue = [scene], [scene]
    covered = {event.step for event in scene.events}
    steps = {step.number: step for step in scene.source.theorem.steps() if isinstance(step, Cases)}
    while queue:
        current = queue.pop(0)
        for event in [event for event in current.events if event.kind in ("cases", "supposed")]:
            step = steps[event.step]
            blocks = {True: step.first, False: step.other}
            for decision, block in blocks.items():
                if not block.steps or block.steps[0].number in covered:
                    continue
                other = scene_of_block(current, event.step, decision, is_live(block))
                covered |= {each.number for each in block.steps}
                if other is not None:
                    covered |= {each.step for each in other.events}
                    found.append(other)
                    queue.append(other)
    return found


def scene_of_block(scene: Scene, step: int, decision: bool, live: bool) -> Scene | None:
    """A figure of one block of a `cases` of a scene."""
    forced = {**scene.decisions, step: decision}
    if live and not scene.is_loose:
        other, _ = find(scene.source, forced=forced, starts=STARTS // 4)
        if other is not None:
            return other
    other, _ = find(scene.source, forced=forced, loose=True, starts=STARTS // 4)
    return other
