"""The verdict of the checker."""
from __future__ import annotations

import re
from dataclasses import dataclass
from typing import Optional, Tuple

from .faults import BackendFailure
from .plan import Position

SHAPES = (
    (None, "valid", re.compile(r"valid (?P<cost>\d+)")),
    (None, "no plan given", re.compile(r"no plan given")),
    (61, "agent count", re.compile(r"61 agent count (?P<found>\d+)")),
    (62, "wrong start", re.compile(r"62 wrong start agent (?P<first>\d+)")),
    (63, "bad step", re.compile(r"63 bad step agent (?P<first>\d+) time (?P<time>\d+)")),
    (64, "wrong end", re.compile(r"64 wrong end agent (?P<first>\d+)")),
    (65, "ends late", re.compile(r"65 ends late agent (?P<first>\d+)")),
    (66, "vertex conflict", re.compile(
        r"66 vertex conflict agents (?P<first>\d+) (?P<second>\d+) cell (?P<cell>\d+,\d+) time (?P<time>\d+)")),
    (66, "swapping conflict", re.compile(
        r"66 swapping conflict agents (?P<first>\d+) (?P<second>\d+) from (?P<cell>\d+,\d+) to (?P<to>\d+,\d+) time (?P<time>\d+)")),
    (66, "following conflict", re.compile(
        r"66 following conflict agents (?P<first>\d+) (?P<second>\d+) cell (?P<cell>\d+,\d+) time (?P<time>\d+)")),
    (67, "wrong cost", re.compile(r"67 wrong cost stated (?P<stated>\d+) found (?P<found>\d+)")),
)


@dataclass(frozen=True)
class Verdict:
    """What the checker says of a plan: valid, no plan given, or its first fault.

    number: 61 to 67; None where the plan is valid or none was given.
    kind: ``valid``, ``no plan given``, ``agent count``, ``wrong start``, ``bad step``, ``wrong end``, ``ends late``,
        ``vertex conflict``, ``swapping conflict``, ``following conflict`` or ``wrong cost``.
    agents: the agent that has the fault, or the two that have the conflict, in the order of the line.
    cell: (x, y) of a conflict; of a swapping one the cell that the first of the two leaves.
    to: of a swapping conflict the cell that the first of the two enters.
    time: of a bad step (of arrival) or of a conflict.
    stated, found: the cost that the plan states and the one that it has; of 61 `found` is the plan's number of agents.
    line: the line that ``mapf check`` prints.
    """

    number: Optional[int]
    kind: str
    agents: Tuple[int, ...]
    cell: Optional[Position]
    to: Optional[Position]
    time: Optional[int]
    stated: Optional[int]
    found: Optional[int]
    line: str

    @property
    def valid(self) -> bool:
        """Whether the plan has no fault and costs what it states."""
        return self.kind == "valid"


def read_verdict(line: str) -> Verdict:
    """The verdict that a line of ``mapf check`` states."""
    for number, kind, shape in SHAPES:
        match = shape.fullmatch(line)
        if match:
            return _verdict(number, kind, match.groupdict(), line)
    raise BackendFailure(f"no verdict: {line!r}")


def _verdict(number: Optional[int], kind: str, words: dict, line: str) -> Verdict:
    def whole(name: str) -> Optional[int]:
        return int(words[name]) if name in words else None

    def cell(name: str) -> Optional[Position]:
        if name not in words:
            return None
        x, y = words[name].split(",")
        return int(x), int(y)

    agents = tuple(agent for agent in (whole("first"), whole("second")) if agent is not None)
    cost = whole("cost")
    return Verdict(
        number, kind, agents, cell("cell"), cell("to"), whole("time"),
        whole("stated") if cost is None else cost, whole("found") if cost is None else cost, line,
    )
