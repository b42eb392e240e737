"""What each converter is, and what it finds."""
from __future__ import annotations

from dataclasses import dataclass
from typing import Callable, List, NamedTuple, Optional, Sequence

from ..plan import Path, Plan, Position
from .lines import Lines

Starts = Optional[Sequence[Optional[Position]]]


class Found(NamedTuple):
    """What a planner's file has: a path for each agent, and the cost that it states, if it states one."""

    paths: List[List[Position]]
    stated: Optional[int] = None


class Shape(NamedTuple):
    """A format: how it is read (the lines, and the scenario's starts if there is one), written, and what it looks like.

    read: answers None where the planner says that it found no plan.
    write: None where plans aren't written in this format.
    """

    read: Callable[[Lines, Starts], Optional[Found]]
    write: Optional[Callable[[Plan], str]]
    looks: str


@dataclass(frozen=True, eq=False)
class PlannersPlan(Plan):
    """A planner's plan, and the cost that the planner states, right or wrong; None where it states none.

    It equals each plan with the same paths. Its text states the planner's cost, so that `check` judges that one.
    """

    stated: Optional[int] = None

    def __eq__(self, other: object) -> bool:
        return isinstance(other, Plan) and self.paths == other.paths

    __hash__ = Plan.__hash__

    def text(self) -> str:
        """The plan text, with the cost that the planner states."""
        return f"plan {len(self.paths)} {cost_stated(self)}\n" + super().text().partition("\n")[2]


def cost_stated(plan: Plan) -> int:
    """The cost that a planner stated for its plan, or else the plan's cost."""
    stated: Optional[int] = getattr(plan, "stated", None)
    return plan.cost if stated is None else stated


def without_padding(path: Sequence[Position]) -> Path:
    """A path without the positions behind its last arrival."""
    end = len(path)
    while end > 1 and path[end - 2] == path[end - 1]:
        end -= 1
    return tuple(path[:end])
