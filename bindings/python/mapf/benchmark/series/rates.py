"""Success rates: of each map's scenarios, how many were solved with so many agents."""
from __future__ import annotations

import math
from typing import Dict, List, Sequence, Tuple

from .rows import Row

Times = Dict[str, Dict[int, List[float]]]


def times(rows: Sequence[Row]) -> Times:
    """For each map and number of agents the seconds of each scenario, infinite where it wasn't solved.

    A scenario that was unsolved with fewer agents counts as not solved; one solved as far as it goes counts no further.
    """
    runs: Dict[Tuple[str, str], Dict[int, Row]] = {}
    for row in rows:
        runs.setdefault((row.map, row.scenario), {})[row.agents] = row
    counts = sorted({row.agents for row in rows})
    found: Times = {}
    for (name, _), run in sorted(runs.items()):
        for count, seconds in _of_scenario(run, counts).items():
            found.setdefault(name, {}).setdefault(count, []).append(seconds)
    return found


def _of_scenario(run: Dict[int, Row], counts: Sequence[int]) -> Dict[int, float]:
    seconds = {count: row.seconds if row.status == "solved" else math.inf for count, row in run.items()}
    ended = min((count for count in run if math.isinf(seconds[count])), default=math.inf)
    return {count: seconds.get(count, math.inf) for count in counts if count in run or count > ended}


def solved(seconds: Sequence[float]) -> int:
    """How many scenarios were solved."""
    return sum(math.isfinite(one) for one in seconds)


def rates(rows: Sequence[Row]) -> List[str]:
    """The lines of a table: for each map its scenarios, and how many in a hundred of them were solved with so many agents.

    Where fewer scenarios have so many agents, it says of how many; where none has, nothing.
    """
    counts = sorted({row.agents for row in rows})
    lines = ["| Map | Scenarios | " + " | ".join(f"{count} agents" for count in counts) + " |", "|" + "---|" * (len(counts) + 2)]
    for name, by_count in sorted(times(rows).items()):
        scenarios = len({row.scenario for row in rows if row.map == name})
        cells = [_cell(by_count.get(count, []), scenarios) for count in counts]
        lines.append(f"| {name} | {scenarios} | " + " | ".join(cells) + " |")
    return lines


def _cell(seconds: Sequence[float], scenarios: int) -> str:
    if not seconds:
        return ""
    fewer = "" if len(seconds) == scenarios else f" of {len(seconds)}"
    return f"{round(100 * solved(seconds) / len(seconds))} %{fewer}"
