"""What is asked of each run of a series: as options, and as the columns that a CSV begins with."""
from __future__ import annotations

from typing import Dict, List, NamedTuple, Optional

from ...options import Options


class Limits(NamedTuple):
    """What a run may take, and the rule.

    seconds: of the whole run. bound: the greatest cost. nodes: of the search. memory: MB of address space.
    any_optimum: any plan that costs least will do. None sets no limit.
    """

    seconds: float
    bound: int
    nodes: Optional[int] = None
    memory: Optional[int] = None
    no_following: bool = False
    any_optimum: bool = False

    def options(self, agents: int) -> Options:
        """What the program is asked."""
        return Options(agents, self.bound, 1, self.nodes, self.no_following, self.any_optimum, self.memory)

    def columns(self, version: str) -> Dict[str, str]:
        """What each row says of the ask; the version is the program's."""
        return {
            "seconds_limit": seconds_text(self.seconds),
            "bound": str(self.bound),
            "nodes_limit": "" if self.nodes is None else str(self.nodes),
            "memory_limit": "" if self.memory is None else str(self.memory),
            "rule": "no_following" if self.no_following else "following",
            "any_optimum": "yes" if self.any_optimum else "no",
            "version": version,
        }


def option(name: str, value: Optional[int]) -> List[str]:
    """The words of an option that need not be there."""
    return [] if value is None else [name, str(value)]


def seconds_text(seconds: float) -> str:
    """A time, to the millisecond, without zeros at the end."""
    return f"{seconds:.3f}".rstrip("0").rstrip(".")


COLUMNS = tuple(Limits(1, 0).columns(""))
