"""`python3 -m mapf solve`: a plan that costs least, with limits on nodes and on time."""
from __future__ import annotations

import argparse
import json
import sys
import time
from typing import Any

from .. import calls
from .._input import read_input
from ..instance import most_agents
from ..options import MOST_BOUND
from ..plan import GaveUp, NoPlan, OutOfTime, Plan
from ..plan_text import Answer
from .files import add_files

STATUSES = {Plan: ("solved", 0), NoPlan: ("none", 1), GaveUp: ("gave_up", 6), OutOfTime: ("out_of_time", 6)}


def add(commands: Any) -> None:
    """Adds the command."""
    parser = commands.add_parser(
        "solve", help="find a plan that costs least",
        description="Finds a plan that costs least. The status is 1 where none costs at most the bound, 6 at a limit.",
        epilog="""The program takes these words, too, but its files by --map and --scen alone; it wants --agents, --bound and
        --workers, and has no --seconds, --memory and --json.""")
    add_files(parser, "map", "scen")
    parser.add_argument("--agents", type=int, metavar="N", help="the number of agents (all rows up to 1000)")
    parser.add_argument("--bound", type=int, default=MOST_BOUND, metavar="B", help="the bound on the cost (1000000)")
    parser.add_argument("--workers", type=int, default=1, metavar="W", help="so many threads (1)")
    parser.add_argument("--nodes", type=int, metavar="N", help="a limit on nodes")
    parser.add_argument(
        "--no-following", action="store_true", help="no agent may enter a cell in the step in which another leaves it")
    parser.add_argument(
        "--any-optimum", action="store_true", help="of several plans that cost least any will do, by another search")
    parser.add_argument("--seconds", type=float, metavar="S", help="a limit on time")
    parser.add_argument("--memory", type=int, metavar="MB", help="a limit on address space, 16 at least")
    parser.add_argument("--progress", action="store_true", help="say how far the search is")
    parser.add_argument("--json", action="store_true", help="print a JSON object")
    parser.set_defaults(run=run)


def run(asked: argparse.Namespace) -> int:
    """Prints the answer."""
    begin = time.monotonic()
    if asked.agents is None:
        asked.agents = most_agents(read_input("scenario", asked.scen).contents)
    answer = calls.solve(
        asked.map, asked.scen, asked.agents, asked.bound, asked.nodes, asked.no_following, asked.workers, asked.seconds,
        _tell if asked.progress else _hear, asked.any_optimum, asked.memory)
    seconds = time.monotonic() - begin
    sys.stdout.write(json.dumps(object_of(asked, answer, seconds)) + "\n" if asked.json else answer.text())
    sys.stdout.flush()
    return STATUSES[type(answer)][1]


def object_of(asked: argparse.Namespace, answer: Answer, seconds: float) -> dict:
    """What is known, in the words of a series' columns; what isn't is null."""
    plan = answer if isinstance(answer, Plan) else None
    bound = answer.bound + 1 if isinstance(answer, NoPlan) else getattr(answer, "lower_bound", None)
    return {
        "map": asked.map, "scenario": asked.scen, "agents": asked.agents, "status": STATUSES[type(answer)][0],
        "cost": plan and plan.cost, "lower_bound": bound, "nodes": getattr(answer, "nodes", None),
        "seconds": round(seconds, 3), "paths": plan and plan.paths}


def _hear(nodes: int, lower_bound: int) -> None:
    """Says nothing; what was told last is said after Ctrl-C."""


def _tell(nodes: int, lower_bound: int) -> None:
    print(f"mapf: {nodes} nodes, no plan costs less than {lower_bound}", file=sys.stderr, flush=True)
