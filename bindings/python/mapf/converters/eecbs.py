"""EECBS and CBSH2-RTC, MAPF-LNS and MAPF-LNS2: a line for each agent, in their order, in which an arrow ends each step.

In path files a step is `(row,column)`. EECBS (`--outputPaths`) has a blank before the first, `Agent 0: (0,1)->`, and
LNS has none, `Agent 0:(0,1)->`. On standard output EECBS has `Agent 0 (I -->C): 1->`, where C is what the path costs,
and a cell is the number row * width + column; other lines may stand before and behind the agents', which all begin with
`Agent `. All count from 0, and no path is padded.
"""
from __future__ import annotations

import re
from typing import Iterator, List, Match, Optional, Pattern

from ..faults import ConversionFault
from ..plan import Plan, Position
from .lines import COORDINATE, Lines
from .shape import Found, Starts

FILE, LNS_FILE = "Agent {}: ", "Agent {}:"
PRINTED = re.compile(rf"Agent {COORDINATE} \([0-9]+ -->{COORDINATE}\): ")
PLACE = re.compile(rf"\({COORDINATE},{COORDINATE}\)->")
CELL = re.compile(rf"{COORDINATE}->")


def read(lines: Lines, starts: Starts, shape: str = FILE) -> Found:
    """The paths of a file of EECBS."""
    paths: List[List[Position]] = []
    for line in lines:
        head = shape.format(len(paths))
        if not line.startswith(head):
            raise lines.unfit(line, f"`{head}(row,column)->..`")
        steps = _steps(lines, line, len(head), PLACE, "(row,column)->")
        paths.append(lines.path_of(lines.position(int(step.group(2)), int(step.group(1))) for step in steps))
    return Found(paths)


def read_lns(lines: Lines, starts: Starts) -> Found:
    """The paths of a file of LNS."""
    return read(lines, starts, LNS_FILE)


def read_printed(lines: Lines, starts: Starts) -> Found:
    """The paths on standard output, and the sum of what they are said to cost there; the map's width is needed."""
    if lines.size is None:
        raise lines.fault(1, "no map with a size", "the map, whose width parts cells into rows and columns")
    paths: List[List[Position]] = []
    stated = 0
    behind: Optional[ConversionFault] = None
    for line in lines:
        wanted = f"`Agent {len(paths)} (I -->C): cell->..`"
        if not line.startswith("Agent "):
            behind = behind or (lines.unfit(line, wanted) if paths else None)
            continue
        if behind:
            raise behind
        head = PRINTED.match(line)
        if not head or head.group(1) != str(len(paths)):
            raise lines.unfit(line, wanted)
        stated = lines.cost(lines.last, str(stated + int(head.group(2))))
        steps = _steps(lines, line, head.end(), CELL, "cell->")
        paths.append(lines.path_of(lines.cell(int(step.group(1))) for step in steps))
    if not paths:
        raise lines.unfit(None, "`Agent 0 (I -->C): cell->..`")
    return Found(paths, stated)


def _steps(lines: Lines, line: str, place: int, shape: Pattern[str], wanted: str) -> Iterator[Match[str]]:
    """One step or more, from a place of the line up to its end."""
    while True:
        step = shape.match(line, place)
        if not step:
            raise lines.unfit(line[place:], f"`{wanted}` from column {place + 1} on")
        yield step
        place = step.end()
        if place == len(line):
            return


def write(plan: Plan, shape: str = FILE) -> str:
    """The text of a file of EECBS."""
    lines = []
    for agent, path in enumerate(plan.paths):
        steps = "".join(f"({y},{x})->" for x, y in path)
        lines.append(f"{shape.format(agent)}{steps}\n")
    return "".join(lines)


def write_lns(plan: Plan) -> str:
    """The text of a file of LNS."""
    return write(plan, LNS_FILE)
