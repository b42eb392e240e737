"""Reads the plan text: docs/FORMATS.md has its grammar."""
from __future__ import annotations

import re
from typing import Optional, Tuple, Union

from .faults import PlanFault
from .plan import GaveUp, NoPlan, OutOfTime, Path, Plan, Unsolved

Answer = Union[Plan, NoPlan, GaveUp, OutOfTime, Unsolved]

NUMBER = r"(?:0|[1-9][0-9]{0,9})"
PLAN = re.compile(rf"plan ({NUMBER}) ({NUMBER})")
NONE = re.compile(rf"none ({NUMBER})")
GAVE_UP = re.compile(rf"gave up ({NUMBER}) ({NUMBER})")
COORDINATE = r"(?:0|[1-9][0-9]{0,8})"
POSITION = rf"{COORDINATE},{COORDINATE}"
LINE = re.compile(rf"{POSITION}(?: {POSITION})*")
HEADS = "`plan N C`, `none B` or `gave up N L`"
MOST_AGENTS = 1000
MOST_COST = 1_000_000_000
MOST_POSITIONS = 1_000_001
MOST_BOUND = 1_000_000


def shown(text: str, most: int = 40) -> str:
    """A piece of a file for a message, cut where it is long."""
    return repr(text if len(text) <= most else text[:most] + "..")


def agents_stated(text: bytes) -> Optional[int]:
    """The number of agents in a plan's head, or None where it has none within the limits."""
    head = PLAN.fullmatch(text.split(b"\n", 1)[0].decode("latin-1"))
    agents = int(head.group(1)) if head else 0
    return agents if 1 <= agents <= MOST_AGENTS else None


def read_text(text: Union[str, bytes], path: Optional[str] = None) -> Answer:
    """The answer that a text states: faults 31 and 32, and 67 where it isn't what its plan costs.

    Where the positions lie is not looked at, since no map is given.
    """
    lines = (text if isinstance(text, str) else text.decode("latin-1")).split("\n")
    head = _head(lines[0] if len(lines) > 1 else None, path)
    if not isinstance(head, tuple):
        _ends(lines, 1, path)
        return head
    agents, stated = head
    plan = Plan(tuple(_path(lines, number, path) for number in range(2, agents + 2)))
    _ends(lines, agents + 1, path)
    if plan.cost != stated:
        raise PlanFault(67, f"67 wrong cost stated {stated} found {plan.cost}", path, str(stated), str(plan.cost))
    return plan


def _head(line: Optional[str], path: Optional[str]) -> Union[NoPlan, GaveUp, Tuple[int, int]]:
    if line is not None:
        plan, none, gave_up = PLAN.fullmatch(line), NONE.fullmatch(line), GAVE_UP.fullmatch(line)
        if plan and 1 <= int(plan.group(1)) <= MOST_AGENTS and int(plan.group(2)) <= MOST_COST:
            return int(plan.group(1)), int(plan.group(2))
        if none and int(none.group(1)) <= MOST_BOUND:
            return NoPlan(int(none.group(1)))
        if gave_up and 1 <= int(gave_up.group(1)) <= MOST_BOUND and int(gave_up.group(2)) <= MOST_BOUND:
            return GaveUp(int(gave_up.group(1)), int(gave_up.group(2)))
    raise PlanFault(31, "31 head line", path, "no whole line" if line is None else shown(line), HEADS)


def _path(lines: list, number: int, path: Optional[str]) -> Path:
    """The positions of a line; the last piece behind the lines' ends is none."""
    if number >= len(lines):
        raise _bad_line(number, path, "no whole line")
    line = lines[number - 1]
    if not LINE.fullmatch(line) or line.count(" ") >= MOST_POSITIONS:
        raise _bad_line(number, path, shown(line))
    positions = (position.split(",") for position in line.split(" "))
    return tuple((int(x), int(y)) for x, y in positions)


def _ends(lines: list, whole: int, path: Optional[str]) -> None:
    """Refuses bytes behind that many whole lines."""
    if lines[whole:] != [""]:
        raise _bad_line(whole + 1, path, shown(lines[whole]), "the end of the file")


def _bad_line(number: int, path: Optional[str], found: str, wanted: str = "positions `x,y` parted by single spaces, and LF") -> PlanFault:
    return PlanFault(32, f"32 bad line {number}", path, found, wanted)
