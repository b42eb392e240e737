"""Move strings: a line for each agent, in the scenario's order, from its start there.

`u` leads to y - 1, `d` to y + 1, `l` to x - 1, `r` to x + 1, and `w` waits. Waits at the end are padding. An agent
that never moves may have an empty line; blank last lines are such agents only if there are enough for all rows of the
scenario.
"""
from __future__ import annotations

from typing import Dict, List, Sequence, Tuple

from ..faults import ConversionFault
from ..plan import Path, Plan, Position
from .lines import Lines
from .shape import Found, Starts

MOVES = {"u": (0, -1), "d": (0, 1), "l": (-1, 0), "r": (1, 0), "w": (0, 0)}
NAMES = {step: name for name, step in MOVES.items()}


def read(lines: Lines, starts: Starts) -> Found:
    """The paths."""
    texts = list(lines)
    still = len(starts or ()) - len(texts)
    return Found(walks(lines, starts, texts + [""] * (still if still <= lines.blank else 0), 1))


def walks(lines: Lines, starts: Starts, texts: Sequence[str], first: int) -> List[List[Position]]:
    """The paths of these moves from the scenario's starts; they stand in the lines from the first on."""
    if starts is None:
        raise lines.fault(1, "no scenario", "the scenario whose starts the moves begin at")
    paths: List[List[Position]] = []
    for text in texts:
        lines.last = first + len(paths)
        start = starts[len(paths)] if len(paths) < len(starts) else None
        if start is None:
            raise lines.unfit(text, f"as many lines as the scenario has rows, {len(starts)}")
        paths.append(walk(lines, start, text, MOVES))
    return paths


def walk(lines: Lines, start: Position, names: Sequence[str], moves: Dict[str, Tuple[int, int]]) -> List[Position]:
    """The path from a start by moves that stand in the line that is looked at."""
    path: List[Position] = []
    lines.step(path, lines.position(*start))
    for place, name in enumerate(names, 1):
        if name not in moves:
            raise lines.unfit(name, f"{', '.join(moves)}, as move {place}")
        (x, y), (right, down) = path[-1], moves[name]
        lines.step(path, lines.position(x + right, y + down))
    return path


def write(plan: Plan) -> str:
    """The text."""
    return "".join(_line(agent, path) + "\n" for agent, path in enumerate(plan.paths))


def _line(agent: int, path: Path) -> str:
    names = []
    for time, ((from_x, from_y), (x, y)) in enumerate(zip(path, path[1:]), 1):
        name = NAMES.get((x - from_x, y - from_y))
        if name is None:
            raise ConversionFault(
                "moves", agent + 1, None, f"a step from {from_x},{from_y} to {x},{y} at time {time}", "a wait or a step to a side")
        names.append(name)
    return "".join(names) or "w"
