"""What is asked of an instance besides its files."""
from __future__ import annotations

import operator
from typing import List, NamedTuple, Optional

MOST_AGENTS = 1_000
MOST_BOUND = 1_000_000
MOST_WORKERS = 64
MOST_NODES = 1_000_000
LEAST_MEMORY = 16
MOST_MEMORY = 2**30
GREATEST = 2**64 - 1


class Options(NamedTuple):
    """Numbers, and the rule.

    agents: how many rows are taken. bound: the greatest sum of costs. workers: threads. nodes: a limit, or None.
    no_following: no agent may enter a cell in the step in which another leaves it.
    any_optimum: of several plans that cost least any will do, by another search.
    memory: MB of address space, or None.
    """

    agents: int
    bound: int = MOST_BOUND
    workers: int = 1
    nodes: Optional[int] = None
    no_following: bool = False
    any_optimum: bool = False
    memory: Optional[int] = None

    def taken(self) -> "Options":
        """With numbers that a backend can take: one outside its range, which it refuses, stands for all of them."""
        nodes = None if self.nodes is None else _number(self.nodes, 1)
        return self._replace(
            agents=_number(self.agents), bound=_number(self.bound), workers=_number(self.workers), nodes=nodes,
            no_following=bool(self.no_following), any_optimum=bool(self.any_optimum),
            memory=None if self.memory is None else operator.index(self.memory))

    def around(self) -> List[str]:
        """What starts a program with no more memory."""
        return [] if self.memory is None else ["sh", "-c", 'ulimit -v "$0" && exec "$@"', str(1024 * self.memory)]

    def words(self) -> List[str]:
        """The words of the program's command line."""
        return ["--agents", str(self.agents), "--workers", str(self.workers), *self.limits()]

    def limits(self) -> List[str]:
        """The words that `series` has, too."""
        words = ["--bound", str(self.bound)] + ([] if self.nodes is None else ["--nodes", str(self.nodes)])
        words += ["--no-following"] if self.no_following else []
        return words + (["--any-optimum"] if self.any_optimum else [])


def _number(given: int, least: int = 0) -> int:
    number = operator.index(given)
    return number if least <= number <= GREATEST else GREATEST
