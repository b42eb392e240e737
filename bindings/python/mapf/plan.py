"""The answers of a search: a plan, no plan, or a lower bound. A plan is true, and each other one is false."""
from __future__ import annotations

from dataclasses import dataclass
from typing import Any, List, NamedTuple, Tuple

Position = Tuple[int, int]
Path = Tuple[Position, ...]


class Place(NamedTuple):
    """Where an agent is at a time: a row of a table."""

    agent: int
    time: int
    x: int
    y: int


@dataclass(frozen=True)
class Plan:
    """A path for each agent, agent 0 first: its positions (x, y) at the times 0, 1, 2 and so on, up to its last arrival.

    A path has one position at least. From its end on the agent stays on its last position.
    """

    paths: Tuple[Path, ...]

    @property
    def cost(self) -> int:
        """The sum of costs: of each path its length less one."""
        return sum(len(path) - 1 for path in self.paths)

    @property
    def makespan(self) -> int:
        """The time of the last arrival."""
        return max(len(path) for path in self.paths) - 1

    def at(self, agent: int, time: int) -> Position:
        """Where an agent (from 0) is at a time (from 0)."""
        if agent < 0 or time < 0:
            raise IndexError(f"agent {agent} at time {time}: both count from 0")
        path = self.paths[agent]
        return path[min(time, len(path) - 1)]

    def rows(self) -> List[Place]:
        """The positions of each agent up to its last arrival, agent 0 first."""
        paths = enumerate(self.paths)
        return [Place(agent, time, x, y) for agent, path in paths for time, (x, y) in enumerate(path)]

    def array(self) -> Any:
        """Positions by time, agent, and x or y, up to the makespan: an array where there is numpy, else lists."""
        agents = range(len(self.paths))
        positions = [[list(self.at(agent, time)) for agent in agents] for time in range(self.makespan + 1)]
        try:
            import numpy
        except ImportError:
            return positions
        return numpy.array(positions)

    def text(self) -> str:
        """The plan text, as ``mapf solve`` prints it and ``mapf check`` reads it."""
        lines = [f"plan {len(self.paths)} {self.cost}"]
        lines += [" ".join(f"{x},{y}" for x, y in path) for path in self.paths]
        return "\n".join(lines) + "\n"


class _Without:
    """An answer without a plan."""

    def __bool__(self) -> bool:
        return False


@dataclass(frozen=True)
class NoPlan(_Without):
    """No plan without conflict costs at most the bound."""

    bound: int

    def text(self) -> str:
        """The text, as ``mapf solve`` prints it."""
        return f"none {self.bound}\n"


@dataclass(frozen=True)
class GaveUp(_Without):
    """The search ended at its limit on nodes; no plan without conflict costs less than `lower_bound`."""

    nodes: int
    lower_bound: int

    def text(self) -> str:
        """The text, as ``mapf solve`` prints it."""
        return f"gave up {self.nodes} {self.lower_bound}\n"


@dataclass(frozen=True)
class OutOfTime(_Without):
    """The search was ended at its limit on time; no plan without conflict costs less than `lower_bound`.

    Both numbers are those that were told last, and 0 where nothing was told.
    """

    nodes: int
    lower_bound: int

    def text(self) -> str:
        """The text, as ``python3 -m mapf solve`` prints it."""
        return f"out of time {self.nodes} {self.lower_bound}\n"


@dataclass(frozen=True)
class Unsolved(_Without):
    """A planner's file says that it found no plan, which says nothing of the instance."""

    def text(self) -> str:
        """What ``mapf check`` says of such a file."""
        return "no plan given\n"
