"""Least squares by the method of Levenberg and Marquardt, for a few dozen unknowns.

A residual is a function of the whole list of numbers and the places in that list which it looks at.
Derivatives are taken by differences, at these places alone.
"""

from __future__ import annotations

from collections.abc import Sequence
from math import sqrt
from typing import NamedTuple

from .measures import Numbers, Places, Value

STEP = 1e-7  # of a difference


class Residual(NamedTuple):
    """What is to become 0."""

    function: Value
    touch: Places


Used = list[tuple[Value, list[int]]]  # functions, with the free places at which each looks


def solve(x: Numbers, free: Sequence[int], residuals: Sequence[Residual], rounds: int = 60, goal: float = 1e-24,
          damping: float = 1e-2) -> float:
    """Moves the free places of `x` (in place) to a local least sum of squares, and gives that sum.

    It stops where the sum is at most `goal`, where it hardly falls any more, or after so many rounds.
    """
    place = {index: number for number, index in enumerate(free)}
    used = [(each.function, [index for index in each.touch if index in place]) for each in residuals]
    values = [function(x) for function, _ in used]
    cost = sum(value * value for value in values)
    slow = 0
    for _ in range(rounds):
        if cost <= goal or not free:
            break
        matrix, slope = normal_equations(x, place, used, values)
        for _ in range(12):
            move = solved(matrix, slope, damping)
            old = [x[index] for index in free]
            for number, index in enumerate(free):
                x[index] -= move[number]
            new_values = [function(x) for function, _ in used]
            new_cost = sum(value * value for value in new_values)
            if new_cost < cost:
                break
            for index, before in zip(free, old):
                x[index] = before
            damping = max(damping, 1e-9) * 5
        else:
            break
        slow = slow + 1 if new_cost > 0.98 * cost else 0
        values, cost = new_values, new_cost
        damping = max(damping / 5, 1e-9)
        if slow >= 5:
            break
    return cost


def normal_equations(x: Numbers, place: dict[int, int], used: Used,
                     values: list[float]) -> tuple[list[list[float]], list[float]]:
    """J^T J, as the lower rows of a symmetric matrix, and J^T r."""
    size = len(place)
    matrix = [[0.0] * (row + 1) for row in range(size)]
    slope = [0.0] * size
    for (function, touch), value in zip(used, values):
        if value == 0.0:
            continue  # a bound that is kept, or an equation that holds: it does not pull
        row = []
        for index in touch:
            kept = x[index]
            x[index] = kept + STEP
            row.append((place[index], (function(x) - value) / STEP))
            x[index] = kept
        row.sort()
        for at, (i, d) in enumerate(row):
            if d == 0.0:
                continue
            slope[i] += d * value
            line = matrix[i]
            for j, e in row[: at + 1]:
                line[j] += d * e
    return matrix, slope


def solved(matrix: list[list[float]], slope: list[float], damping: float) -> list[float]:
    """The solution of (M + damping (diag M + 1)) y = slope, by Cholesky's factors."""
    size = len(slope)
    factor: list[list[float]] = []
    y: list[float] = []
    for i in range(size):
        row: list[float] = []
        source = matrix[i]
        for j in range(i):
            other = factor[j]
            total = source[j]
            for a, b in zip(row, other):
                total -= a * b
            row.append(total / other[j])
        total = source[i] * (1 + damping) + damping
        for a in row:
            total -= a * a
        row.append(sqrt(total) if total > 1e-14 else 1e7)
        factor.append(row)
        total = slope[i]
        for a, b in zip(row, y):
            total -= a * b
        y.append(total / row[i])
    for i in reversed(range(size)):
        row = factor[i]
        y[i] /= row[i]
        for j in range(i):
            y[j] -= row[j] * y[i]
    return y
