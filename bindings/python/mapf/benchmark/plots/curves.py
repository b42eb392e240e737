"""The curves of a series: for each number of agents the rate of success and the middle time."""
from __future__ import annotations

import math
import os
from statistics import median
from typing import Dict, List, NamedTuple, Sequence, Tuple

from ..series.rates import Times, solved, times
from ..series.rows import read_series

LEAST_SECONDS = 0.001

Run = Tuple[int, float]


class Solver(NamedTuple):
    """A file's name without `.csv`, its times, and the limit on them, where it says so."""

    name: str
    times: Times
    limit: str


class Point(NamedTuple):
    """What a curve has at a number of agents; what a viewer shows there, and what stands beside it."""

    agents: int
    value: float
    title: str
    note: str = ""


def solvers_of(paths: Sequence[str]) -> List[Solver]:
    """The solvers of these files; where two have one name, files are called by their paths."""
    names = [os.path.splitext(os.path.basename(path))[0] for path in paths]
    names = names if len(set(names)) == len(names) else list(paths)
    return [_solver(name, path) for name, path in zip(names, paths)]


def _solver(name: str, path: str) -> Solver:
    series = read_series(path)
    return Solver(name, times(series.rows), series.asked.get("seconds_limit") or "")


def rate_points(by_count: Dict[int, List[float]]) -> List[Point]:
    """How many in a hundred were solved, up to the first number of agents with which none was.

    Where fewer scenarios have so many agents than before, a note says of how many.
    """
    points: List[Point] = []
    scenarios = 0
    for count, seconds in sorted(by_count.items()):
        if not points or points[-1].value:
            title = f"{count} agents: {solved(seconds)} of {len(seconds)} solved"
            note = f"of {len(seconds)}" if len(seconds) < scenarios else ""
            points.append(Point(count, 100 * solved(seconds) / len(seconds), title, note))
            scenarios = len(seconds)
    return points


def time_points(by_count: Dict[int, List[float]]) -> List[Point]:
    """The median of the seconds, where one that wasn't solved takes the longest; as far as that is a time."""
    middles = {count: median(seconds) for count, seconds in sorted(by_count.items())}
    return [
        Point(count, max(middle, LEAST_SECONDS), f"{count} agents: median {middle:.3f} s")
        for count, middle in middles.items() if math.isfinite(middle)]


def runs(by_count: Dict[int, List[float]]) -> List[Run]:
    """The agents and the seconds of each run that solved its instance."""
    taken = [(count, one) for count, seconds in sorted(by_count.items()) for one in seconds]
    return [(count, max(one, LEAST_SECONDS)) for count, one in taken if math.isfinite(one)]


def most_scenarios(by_count: Dict[int, List[float]]) -> int:
    """How many scenarios there are of a map."""
    return max(map(len, by_count.values()))
