"""Settling: from a start to numbers with which constraints hold."""

from __future__ import annotations

from collections.abc import Iterable, Sequence

from ..literals import Literal, key
from .constraints import EXACT, MARGINS, SMALL, Constraint
from .measures import Numbers, Places, Value
from .solver import Residual, solve
from .wishes import Wish

FAR = 0.3  # an equation that is so far from holding will not come to hold
PULL = 0.15  # the weight of wishes


def hinge(f: Value, touch: Places, margin: float, weight: float) -> Residual:
    """What a bound lacks to its margin."""

    def under(x: Numbers) -> float:
        value = f(x)
        return weight * (margin - value) if value < margin else 0.0

    return Residual(under, touch)


def residual(constraint: Constraint, margin: float, weight: float) -> Residual:
    """How far a constraint is from holding."""
    f, touch = constraint.value, constraint.touch
    if constraint.kind == "zero":
        return Residual((lambda x: weight * f(x)), touch)
    return hinge(f, touch, 0.0 if constraint.kind == "least" else margin, weight)


def settle(x: Numbers, free: Sequence[int], hard: Sequence[Constraint], wanted: Iterable[Wish],
           soft: Iterable[Constraint] = ()) -> bool:
    """Moves the free numbers so that the hard constraints hold, with margins and wishes where they can be had, and
    tells whether they hold."""
    light = [hinge(wish.value, wish.touch, wish.margin, PULL) for wish in wanted]
    light += [residual(one, MARGINS[one.unit], PULL) for one in soft]
    wide = [residual(one, MARGINS[one.unit], 1.0 if one.kind == "zero" else 0.5) for one in hard]
    solve(x, free, wide + light, rounds=40, goal=1e-20)
    if any(one.kind == "zero" and abs(one.value(x)) > FAR for one in hard):
        return False
    exact = [residual(one, SMALL * MARGINS[one.unit], 1.0) for one in hard]
    solve(x, free, exact, rounds=40, goal=EXACT**2 * 1e-4, damping=1e-6)
    return all(one.is_kept(x) for one in hard)


def far_off(hard: Iterable[Constraint], x: Numbers) -> float:
    """How far constraints are from holding, together."""
    return sum(float(residual(one, 0.0, 1.0).function(x)) ** 2 for one in hard)


def distinct(facts: Iterable[Literal]) -> list[Literal]:
    """The facts, each once."""
    return list({key(fact): fact for fact in facts}.values())
