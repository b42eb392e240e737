"""LaCAM and PIBT: lines `key=value`, then `solution=`, then for each time a line `time:(x,y),(x,y),` of all agents.

The column comes first, both from 0; each path is padded up to the makespan. Where there are lines `agents=` and
`makespan=`, they have to fit the solution; `soc=` states its cost, and with `solved=0` there is no plan. Other keys
are passed over.

MAPF-visualizer: the lines of times alone. An orientation, as in `(x,y,X_MINUS),`, is dropped, and a line's last comma
may be missing.
"""
from __future__ import annotations

import re
from typing import Dict, List, Optional, Pattern, Tuple

from ..plan import Plan, Position
from ..plan_text import shown
from .lines import COORDINATE, Lines
from .shape import Found, Starts, cost_stated

KEY = re.compile(r"([A-Za-z0-9_]+)=(.*)")
TIME = re.compile(r"([0-9]+):")
PLACE = re.compile(rf"\({COORDINATE},{COORDINATE}\),")
ORIENTED = re.compile(rf"\({COORDINATE},{COORDINATE}(?:,[XY]_(?:MINUS|PLUS))?\)(?:,|$)")
SOLUTION = "solution="

Keys = Dict[str, Tuple[int, str]]


def read(lines: Lines, starts: Starts) -> Optional[Found]:
    """The paths and the cost, or None if it isn't solved."""
    keys = _keys(lines)
    if _value(keys, "solved") == "0":
        return None
    _agrees(lines, keys, "solved", "1")
    paths = _paths(lines, PLACE)
    _agrees(lines, keys, "agents", str(len(paths)))
    _agrees(lines, keys, "makespan", str(len(paths[0]) - 1))
    return Found(paths, lines.cost(*keys["soc"]) if "soc" in keys else None)


def read_visualizer(lines: Lines, starts: Starts) -> Found:
    """The paths of a file of MAPF-visualizer."""
    return Found(_paths(lines, ORIENTED))


def _keys(lines: Lines) -> Keys:
    """The lines before the solution, with their numbers. What isn't solved may have none."""
    keys: Keys = {}
    for line in lines:
        if line == SOLUTION:
            return keys
        key = KEY.fullmatch(line)
        if not key or key.group(1) in keys:
            raise lines.unfit(line, f"`key=value` with another key, or `{SOLUTION}`")
        keys[key.group(1)] = lines.last, key.group(2)
    if _value(keys, "solved") != "0":
        raise lines.unfit(None, f"`{SOLUTION}`")
    return keys


def _value(keys: Keys, key: str) -> Optional[str]:
    return keys[key][1] if key in keys else None


def _agrees(lines: Lines, keys: Keys, key: str, wanted: str) -> None:
    if _value(keys, key) not in (None, wanted):
        raise lines.fault(keys[key][0], shown(f"{key}={keys[key][1]}"), f"`{key}={wanted}`")


def _paths(lines: Lines, shape: Pattern[str]) -> List[List[Position]]:
    """The paths that the lines of times have."""
    paths: List[List[Position]] = []
    time = 0
    for line in lines:
        places = _places(lines, line, time, shape)
        paths = paths or [[] for _ in places]
        if len(places) != len(paths):
            raise lines.fault(lines.last, f"{len(places)} positions", f"{len(paths)}, as at time 0")
        for path, place in zip(paths, places):
            lines.step(path, place)
        time += 1
    if not paths:
        raise lines.unfit(None, "`0:(x,y),..`")
    return paths


def _places(lines: Lines, line: str, time: int, shape: Pattern[str]) -> List[Position]:
    head = TIME.match(line)
    if not head or head.group(1) != str(time):
        raise lines.unfit(line, f"`{time}:(x,y),..`")
    place, places = head.end(), []
    while place < len(line) or not places:
        one = shape.match(line, place)
        if not one:
            raise lines.unfit(line[place:], f"`(x,y),` from column {place + 1} on")
        places.append(lines.position(int(one.group(1)), int(one.group(2))))
        place = one.end()
    return places


def write(plan: Plan) -> str:
    """The text, padded up to the makespan."""
    keys = f"agents={len(plan.paths)}", "solved=1", f"soc={cost_stated(plan)}", f"makespan={plan.makespan}", SOLUTION
    return "\n".join(keys) + "\n" + write_visualizer(plan)


def write_visualizer(plan: Plan) -> str:
    """The lines of times, padded up to the makespan."""
    agents = range(len(plan.paths))
    lines = []
    for time in range(plan.makespan + 1):
        lines.append(f"{time}:" + "".join("({},{}),".format(*plan.at(agent, time)) for agent in agents) + "\n")
    return "".join(lines)
