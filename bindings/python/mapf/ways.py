"""What agents spent: least steps, waits and detours."""
from __future__ import annotations

from collections import Counter
from typing import List, NamedTuple, Sequence

from .plan import Plan, Position


class Spent(NamedTuple):
    """Of an agent's cost: the steps of a shortest way on the map, its waits, and the steps that are neither."""

    least: int
    waits: int
    detour: int


def waits_of(plan: Plan) -> "Counter[Position]":
    """The cells on which agents waited before their last arrivals, and how many steps."""
    steps = (step for path in plan.paths for step in zip(path, path[1:]))
    return Counter(place for place, following in steps if place == following)


def spent(rows: Sequence[bytes], plan: Plan) -> List[Spent]:
    """What each agent of a valid plan spent on a map."""
    stride = len(rows[0]) + 1
    cells = "".join("1" if cell in b".G" else "0" for row in rows for cell in row + b"@")
    free = int(cells[::-1], 2)
    found = []
    for path in plan.paths:
        waits = sum(place == following for place, following in zip(path, path[1:]))
        least = _least(free, stride, path[0], path[-1])
        found.append(Spent(least, waits, len(path) - 1 - waits - least))
    return found


def _least(free: int, stride: int, start: Position, goal: Position) -> int:
    """The steps of a shortest way; a set of cells is a number with a bit for each, and rows are parted by a bit of none."""
    reached, steps = 1 << start[1] * stride + start[0], 0
    while not reached >> goal[1] * stride + goal[0] & 1:
        reached |= free & (reached << 1 | reached >> 1 | reached << stride | reached >> stride)
        steps += 1
    return steps
