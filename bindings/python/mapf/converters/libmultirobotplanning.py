"""libMultiRobotPlanning: the YAML file that its programs cbs and ecbs write, and as a YAML library writes it again.

`schedule:` has for each agent `  agent0:`, and for each time three lines, of x, y and t, as `    - x: X`,
`      y: Y` and `      t: T`, or with two blanks less. They may be in any order, and so may the agents. `statistics:`
may stand before or behind: `  cost:` states the cost, or a line `cost:` outside of both, and the other ones are passed
over. x is the column and y the row, both from 0; no path is padded.
"""
from __future__ import annotations

import re
from typing import Dict, List, Optional, Tuple

from ..plan import Plan, Position
from .lines import COORDINATE, Lines
from .shape import Found, Starts, cost_stated

SCHEDULE, STATISTICS = "schedule:", "statistics:"
STATISTIC = re.compile(r"(?:  )?([A-Za-z_]+): (\S+)")
OUTSIDE = re.compile(r"[A-Za-z_]+: [\w.+-]+")
AGENT = re.compile(rf"  agent{COORDINATE}:")
FIELD = re.compile(rf"( *(?:- )?)([xyt]): {COORDINATE}")

Agents = Dict[int, Tuple[int, List[Position]]]


def read(lines: Lines, starts: Starts) -> Found:
    """The paths and the cost."""
    agents: Agents = {}
    stated: Optional[int] = None
    section, to_come = "", [SCHEDULE, STATISTICS]
    for line in lines:
        if line in to_come:
            to_come.remove(line)
            section = line
        elif OUTSIDE.fullmatch(line):
            section, stated = "", _cost(lines, line, stated)
        elif section == SCHEDULE:
            _take(lines, line, agents)
        elif section == STATISTICS:
            stated = _cost(lines, line, stated)
        else:
            raise lines.unfit(line, f"`{SCHEDULE}` or `{STATISTICS}`")
    if SCHEDULE in to_come:
        raise lines.unfit(None, f"`{SCHEDULE}`")
    return Found(_paths(lines, agents), stated)


def _cost(lines: Lines, line: str, stated: Optional[int]) -> Optional[int]:
    """The cost that is stated up to this line of the statistics."""
    statistic = STATISTIC.fullmatch(line)
    if not statistic or statistic.group(1) == "cost" and stated is not None:
        raise lines.unfit(line, f"`  name: value` with another name, or `{SCHEDULE}` if it isn't there")
    return lines.cost(lines.last, statistic.group(2)) if statistic.group(1) == "cost" else stated


def _take(lines: Lines, line: str, agents: Agents) -> None:
    """Takes an agent's line with its number, or a position of the agent that came last."""
    agent = AGENT.fullmatch(line)
    if agent and int(agent.group(1)) not in agents:
        agents[int(agent.group(1))] = lines.last, []
    elif agent:
        raise lines.unfit(line, "an agent that isn't there yet")
    elif not agents:
        raise lines.unfit(line, "`  agent0:`")
    else:
        path = next(reversed(agents.values()))[1]
        lines.step(path, _position(lines, line, len(path)))


def _position(lines: Lines, first: str, time: int) -> Position:
    """The position of three lines, the first of which is read."""
    line: Optional[str] = first
    begin = "    - " if first.startswith("    ") else "  - "
    numbers: Dict[str, int] = {}
    for _ in "xyt":
        if numbers:
            line, begin = lines.next(), " " * len(begin)
        field = FIELD.fullmatch(line or "")
        found, key, digits = field.groups() if field else ("", "", "")
        if found != begin or key in numbers:
            wanted = (f"`{begin}{key}: {key.upper()}`" for key in "xyt" if key not in numbers)
            raise lines.unfit(line, " or ".join(wanted))
        numbers[key] = _number(lines, key, int(digits), time)
    return numbers["x"], numbers["y"]


def _number(lines: Lines, key: str, number: int, time: int) -> int:
    if key == "x":
        return lines.column(number)
    if key == "y":
        return lines.row(number)
    if number != time:
        raise lines.fault(lines.last, f"`t: {number}`", f"`t: {time}`")
    return time


def _paths(lines: Lines, agents: Agents) -> List[List[Position]]:
    """The paths in the agents' order."""
    paths: List[List[Position]] = []
    for number, (line, path) in sorted(agents.items()):
        if number != len(paths):
            raise lines.fault(line, f"`agent{number}:`", f"`agent{len(paths)}:` too")
        if not path:
            raise lines.fault(line, f"`agent{number}:` without positions", "x, y and t of time 0 at least")
        paths.append(path)
    if not paths:
        raise lines.unfit(None, "`  agent0:`")
    return paths


def write(plan: Plan) -> str:
    """The text."""
    lines = [STATISTICS, f"  cost: {cost_stated(plan)}", f"  makespan: {plan.makespan}", SCHEDULE]
    for agent, path in enumerate(plan.paths):
        lines.append(f"  agent{agent}:")
        for time, (x, y) in enumerate(path):
            lines += [f"    - x: {x}", f"      y: {y}", f"      t: {time}"]
    return "\n".join(lines) + "\n"
