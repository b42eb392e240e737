"""Plans of other planners, to and from this project's plans.

Whether the row or the column comes first, and whether paths are padded, is stated by the format's name alone, or known by
how its lines begin, which no two formats share (`format_of`). What doesn't fit is refused by its line; nothing is guessed. What can be read but is no plan of the instance (x and y swapped on a square
map, positions counted from 1) is for `check` to judge.
"""
from __future__ import annotations

from typing import Dict, Optional, Union

from ..faults import ConversionFault
from ..instance import map_size, rows_of
from ..plan import Plan, Unsolved
from ..plan_text import MOST_AGENTS, read_text, shown
from . import eecbs, lacam, libmultirobotplanning, moves, robot_runners, tracker
from .lines import Lines
from .signs import signed
from .shape import PlannersPlan, Shape, without_padding

SHAPES: Dict[str, Shape] = {
    "eecbs": Shape(eecbs.read, eecbs.write, "EECBS and CBSH2-RTC: `Agent 0: (row,column)->(row,column)->`"),
    "eecbs-stdout": Shape(
        eecbs.read_printed, None, "what EECBS prints: `Agent 0 (I -->C): cell->cell->`, by the map's width (--map)"),
    "lns": Shape(eecbs.read_lns, eecbs.write_lns, "MAPF-LNS and MAPF-LNS2: `Agent 0:(row,column)->(row,column)->`"),
    "lacam": Shape(lacam.read, lacam.write, "LaCAM and PIBT: `solution=`, then `time:(x,y),(x,y),`, padded"),
    "mapf-visualizer": Shape(
        lacam.read_visualizer, lacam.write_visualizer, "MAPF-visualizer: `time:(x,y),(x,y,X_PLUS),` alone, padded"),
    "libmultirobotplanning": Shape(
        libmultirobotplanning.read, libmultirobotplanning.write, "libMultiRobotPlanning: `schedule:` with x, y and t"),
    "moves": Shape(moves.read, moves.write, "a line of u, d, l, r and w for each agent, from the starts (--scen)"),
    "tracker": Shape(tracker.read, None, "tracker.pathfinding.ai: CSV of one row, with such lines (--scen)"),
    "robot-runners": Shape(robot_runners.read, None, "League of Robot Runners: JSON of the action model MAPF"),
}
FORMATS = ("plan", *SHAPES)
READ = ("auto", *FORMATS)
WRITTEN = ("plan", *(name for name, shape in SHAPES.items() if shape.write))

UNSOLVED = Unsolved()


def format_of(format_name: str, contents: bytes, path: Optional[str]) -> str:
    """The format that is named, or for `auto` the one that the content has; what has none is refused."""
    found = signed(contents) if format_name == "auto" else format_name
    if found is None:
        first = contents.split(b"\n", 1)[0].decode("latin-1")
        raise ConversionFault("known format", 1, path, shown(first), ", ".join(FORMATS))
    return found


def read_plan(
    format_name: str, contents: bytes, path: Optional[str] = None, map_contents: Optional[bytes] = None,
    scen_contents: Optional[bytes] = None,
) -> Union[Plan, Unsolved]:
    """The plan that a file in this format states, cut behind each agent's last arrival, or `UNSOLVED` where it says so.

    Where the file states a cost, the plan has it as `stated`, and its text states it, right or wrong. The path is for
    messages alone. With a map, positions outside it are refused; `eecbs-stdout` needs one, `moves` and `tracker` need a
    scenario.
    """
    format_name = format_of(format_name, contents, path)
    if format_name == "plan":
        answer = read_text(contents, path)
        if not isinstance(answer, Plan):
            raise ConversionFault("plan", 1, path, f"`{answer.text().strip()}`", "`plan N C`")
        return answer
    lines = Lines(format_name, contents, path, map_size(map_contents) if map_contents is not None else None)
    starts = [row.start if row else None for row in rows_of(scen_contents)] if scen_contents is not None else None
    found = SHAPES[format_name].read(lines, starts)
    if found is None:
        return UNSOLVED
    if not 1 <= len(found.paths) <= MOST_AGENTS:
        raise lines.fault(max(1, lines.last), f"{len(found.paths)} agents", "1 to 1,000")
    return PlannersPlan(tuple(without_padding(path) for path in found.paths), found.stated)


def write_plan(format_name: str, plan: Plan) -> str:
    """The text of a plan in this format."""
    if format_name == "plan":
        return plan.text()
    write = SHAPES[format_name].write
    if write is None:
        raise ValueError(f"plans are only read in the format {format_name}")
    return write(plan)
