"""Instances that are given as a grid and positions."""
from __future__ import annotations

import operator
import os
from dataclasses import dataclass
from typing import Any, List, Sequence, Tuple, Union

from ._output import refuse_existing, write_whole
from .faults import InstanceFault
from .options import MOST_AGENTS
from .plan import Position
from .plan_text import shown

MOST_SIDE = 2_048
PathLike = Union[str, "os.PathLike[str]"]
CELLS = {False: ".", True: "@", ".": ".", "G": ".", "@": "@", "O": "@", "T": "@"}


@dataclass(frozen=True, init=False)
class Instance:
    """A grid, and for each agent a start and a goal.

    grid: its rows, from the top: strings of a map's letters, of which `.` and `G` are free and `@`, `O` and `T` blocked;
        or lists, or an array, true where blocked.
    starts, goals: a position (x, y) for each agent, counted from 0 at the upper left.

    What has another shape is an `InstanceFault`. Whether starts and goals are free and each agent has its own, `solve`
    and `check` judge.
    """

    grid: Tuple[str, ...]
    starts: Tuple[Position, ...]
    goals: Tuple[Position, ...]

    def __init__(self, grid: Any, starts: Any, goals: Any) -> None:
        rows = _rows(grid)
        starts, goals = (_positions(name, given, rows) for name, given in (("start", starts), ("goal", goals)))
        if not 1 <= len(starts) <= MOST_AGENTS:
            raise _fault("no number of agents", f"{len(starts)} starts", f"1 to {MOST_AGENTS:,}")
        if len(goals) != len(starts):
            raise _fault("no goal for each start", f"{len(goals)} goals", f"{len(starts)}, as there are starts")
        for name, value in (("grid", rows), ("starts", starts), ("goals", goals)):
            object.__setattr__(self, name, value)

    @property
    def map(self) -> bytes:
        """The bytes of a map."""
        head = f"type octile\nheight {len(self.grid)}\nwidth {len(self.grid[0])}\nmap\n"
        return (head + "".join(row + "\n" for row in self.grid)).encode("ascii")

    @property
    def scen(self) -> bytes:
        """The bytes of a scenario."""
        return self._scen("grid.map")

    def write(self, map: PathLike, scen: PathLike) -> None:
        """Makes a map and a scenario, which names that map, of it; what is there already is refused."""
        made: List[str] = []
        try:
            for path, contents in ((os.fspath(map), self.map), (os.fspath(scen), self._scen(os.path.basename(map)))):
                refuse_existing(path)
                write_whole(path, contents)
                made.append(path)
        except BaseException:
            for path in made:
                os.remove(path)
            raise

    def _scen(self, name: str) -> bytes:
        """A scenario that names a map. The last field, an octile length, is 0: nothing here reads it."""
        if "\n" in name:
            raise _fault("no map's name", shown(name), "a name of one line")
        size = f"{len(self.grid[0])}\t{len(self.grid)}"
        agents = zip(self.starts, self.goals)
        rows = (f"0\t{name}\t{size}\t{x}\t{y}\t{to_x}\t{to_y}\t0\n" for (x, y), (to_x, to_y) in agents)
        return ("version 1\n" + "".join(rows)).encode("utf-8", "surrogateescape")


def _rows(grid: Any) -> Tuple[str, ...]:
    """The rows of a grid, in `.` and `@`."""
    rows = [_row(number, row) for number, row in enumerate(_listed("grid", grid))]
    if not 1 <= len(rows) <= MOST_SIDE:
        raise _fault("no grid", f"{len(rows)} rows", f"1 to {MOST_SIDE:,}")
    if not 1 <= len(rows[0]) <= MOST_SIDE:
        raise _fault("no row 0 of the grid", f"{len(rows[0])} cells", f"1 to {MOST_SIDE:,}")
    for number, row in enumerate(rows):
        if len(row) != len(rows[0]):
            raise _fault(f"no row {number} of the grid", f"{len(row)} cells", f"{len(rows[0])}, as row 0 has")
    return tuple(rows)


def _row(number: int, row: Any) -> str:
    """A row in `.` and `@`."""
    cells: List[str] = []
    for cell in row if isinstance(row, str) else _listed(f"row {number} of the grid", row):
        try:
            cells.append(CELLS[cell])
        except (KeyError, TypeError):
            text = f"no cell {len(cells)} of row {number} of the grid"
            raise _fault(text, shown(str(cell)), "`.`, `G`, `@`, `O` or `T`, or true where blocked") from None
    return "".join(cells)


def _positions(name: str, given: Any, rows: Sequence[str]) -> Tuple[Position, ...]:
    places = enumerate(_listed(f"{name}s", given))
    return tuple(_position(f"no {name} of agent {agent}", place, rows) for agent, place in places)


def _position(text: str, place: Any, rows: Sequence[str]) -> Position:
    try:
        x, y = (operator.index(number) for number in place)
    except (TypeError, ValueError):
        raise _fault(text, shown(str(place)), "two whole numbers, x and y") from None
    if not (0 <= x < len(rows[0]) and 0 <= y < len(rows)):
        raise _fault(text, f"{x},{y}", f"x and y of a cell of the grid, {len(rows[0])} x {len(rows)}")
    return x, y


def _listed(name: str, given: Any) -> List[Any]:
    """The parts of a list, a tuple or an array."""
    parts = given.tolist() if hasattr(given, "tolist") else given
    if not isinstance(parts, (list, tuple)):
        raise _fault(f"no {name}", shown(str(given)), "a list or an array")
    return list(parts)


def _fault(text: str, found: str, wanted: str) -> InstanceFault:
    return InstanceFault(None, text, None, found, wanted)
