"""The calls of the package."""
from __future__ import annotations

import numbers
import operator
from typing import Any, Iterable, Optional, Sequence, Tuple, Union

from . import converters
from ._explain import Asked, fault_of
from ._input import Given, Input, read_input
from .arrays import Instance
from .backend import Backend, chosen
from .faults import ArgumentFault, PlanFault
from .instance import most_agents
from .options import LEAST_MEMORY, MOST_BOUND, MOST_MEMORY, Options
from .plan import GaveUp, NoPlan, OutOfTime, Path, Plan, Unsolved
from .plan_text import Answer, agents_stated, read_text, shown
from .run import Progress
from .verdict import Verdict, read_verdict

Paths = Sequence[Sequence[Sequence[int]]]


def solve(
    map: Optional[Given] = None, scen: Optional[Given] = None, agents: Optional[int] = None, bound: int = MOST_BOUND,
    nodes: Optional[int] = None, no_following: bool = False, workers: int = 1, seconds: Optional[float] = None,
    progress: Optional[Progress] = None, any_optimum: bool = False, memory: Optional[int] = None, *, grid: Any = None,
    starts: Any = None, goals: Any = None,
) -> Answer:
    """A plan without conflict for the scenario's first rows that costs at most the bound, such that none costs less.

    map, scen: paths, or the bytes themselves, in MovingAI's formats.
    grid, starts, goals: in place of these two what an `Instance` is made of.
    agents: how many rows are taken, 1 to 1,000; None takes all of them up to 1,000.
    bound: the greatest sum of costs, 0 to 1,000,000. Where no plan costs as little, the answer is `NoPlan`.
    nodes: after so many nodes of the constraint tree, 1 to 1,000,000, the answer is `GaveUp`; None sets no limit.
    no_following: no agent may enter a cell in the step in which another leaves it.
    workers: threads of the program, 1 to 64, whose number changes no answer; the library has one.
    seconds: after so many the answer is `OutOfTime`; None sets no limit.
    progress: is called with the nodes that were taken and what no plan costs less than, at first, once a second at
        most and at the end (by the library after 1, 10, 100 and so on nodes). What it raises ends the search.
    any_optimum: of several plans that cost least any will do: with many agents that mostly takes less time.
    memory: MB of address space that the search may take, 16 at least; where it needs more, it raises `OutOfMemory`.

    Ctrl-C ends the search, and where something was told of it, the `KeyboardInterrupt` says what was told last. Raises a
    `Fault` where something is refused, and `NotBuilt` where there is neither the library nor the program.
    """
    files = _files(map, scen, grid, starts, goals)
    return solve_by(
        chosen("program"), *files, agents, bound, nodes, no_following, workers, seconds, progress, any_optimum, memory)


def check(
    map: Optional[Given] = None, scen: Optional[Given] = None, plan: Union[None, Given, Answer, Paths] = None,
    agents: Optional[int] = None, no_following: bool = False, *, grid: Any = None, starts: Any = None, goals: Any = None,
) -> Verdict:
    """The verdict on a plan for the scenario's first rows: valid, no plan given, or its first fault.

    map, scen: paths, or the bytes themselves, in MovingAI's formats.
    grid, starts, goals: in place of these two what an `Instance` is made of.
    plan: an answer, a list of each agent's positions up to its last arrival, or the path or the bytes of a plan text.
    agents: how many rows are taken; None takes the number that the plan's head states.
    no_following: no agent may enter a cell in the step in which another leaves it.

    Raises a `Fault` where something is refused, and `NotBuilt` where there is neither the library nor the program.
    """
    if plan is None:
        raise ArgumentFault(None, "no plan", None, "None", "an answer, positions, or the path or the bytes of a plan")
    return check_by(chosen(), *_files(map, scen, grid, starts, goals), plan, agents, no_following)


def read_plan(path: Given, format: str = "plan", map: Optional[Given] = None, scen: Optional[Given] = None) -> Answer:
    """The plan of a file in one of `converters.READ`, cut behind each agent's last arrival, or `Unsolved`.

    format: with `auto` it is known by the content. map: positions outside of it are refused; `eecbs-stdout` needs it. scen: `moves` and `tracker` need it. What doesn't
    fit is a `ConversionFault`.
    """
    if format not in converters.READ:
        raise ArgumentFault(None, "no such format", None, repr(format), ", ".join(converters.READ))
    file = read_input("plan", path)
    map_contents = None if map is None else read_input("map", map).contents
    scen_contents = None if scen is None else read_input("scenario", scen).contents
    return converters.read_plan(format, file.contents, file.path, map_contents, scen_contents)


def version() -> str:
    """The version of the library or the program that answers."""
    return chosen().version()


def solve_by(
    backend: Backend, map_given: Given, scen_given: Given, agents: Optional[int], bound: int, nodes: Optional[int],
    no_following: bool, workers: int = 1, seconds: Optional[float] = None, progress: Optional[Progress] = None,
    any_optimum: bool = False, memory: Optional[int] = None,
) -> Answer:
    """`solve`, by this backend."""
    if seconds is not None and not (isinstance(seconds, numbers.Real) and seconds > 0):
        raise ArgumentFault(None, "no time", None, repr(seconds), "a number of seconds, more than 0")
    if memory is not None and not (isinstance(memory, numbers.Integral) and LEAST_MEMORY <= memory <= MOST_MEMORY):
        wanted = f"a whole number of MB, {LEAST_MEMORY} to {MOST_MEMORY:,}"
        raise ArgumentFault(None, "no memory", None, repr(memory), wanted)
    map_file, scen_file = read_input("map", map_given), read_input("scenario", scen_given)
    asked = most_agents(scen_file.contents) if agents is None else agents
    options = Options(asked, bound, workers, nodes, no_following, any_optimum, memory)
    ended = backend.solve(map_file, scen_file, options.taken(), seconds, progress)
    if ended.status is None:
        return OutOfTime(ended.nodes, ended.lower_bound)
    if ended.status in (0, 1, 6):
        return read_text(ended.out)
    raise fault_of(ended.out, Asked(map_file, scen_file, None, options))


def check_by(
    backend: Backend, map_given: Given, scen_given: Given, plan: Union[Given, Answer, Paths], agents: Optional[int],
    no_following: bool,
) -> Verdict:
    """`check`, by this backend."""
    map_file, scen_file = read_input("map", map_given), read_input("scenario", scen_given)
    text = _plan_text(plan)
    stated = agents_stated(text.contents) or 1 if agents is None else operator.index(agents)
    asked = Options(stated, no_following=no_following)
    taken = asked.taken()
    status, line = backend.check(map_file, scen_file, text, taken.agents, taken.no_following)
    if status in (0, 1):
        return read_verdict(line.rstrip("\n"))
    raise fault_of(line, Asked(map_file, scen_file, text, asked))


def _files(map: Optional[Given], scen: Optional[Given], grid: Any, starts: Any, goals: Any) -> Tuple[Given, Given]:
    """The map and the scenario that a call was given, or those of its arrays."""
    given = {"map": map, "scen": scen, "grid": grid, "starts": starts, "goals": goals}
    names = [name for name, value in given.items() if value is not None]
    if names == ["grid", "starts", "goals"]:
        instance = Instance(grid, starts, goals)
        return instance.map, instance.scen
    if map is None or scen is None or names != ["map", "scen"]:
        found = ", ".join(names) or "nothing"
        raise ArgumentFault(None, "no instance", None, found, "map and scen, or grid, starts and goals")
    return map, scen


def _plan_text(plan: Union[Given, Answer, Paths]) -> Input:
    if isinstance(plan, (NoPlan, GaveUp, OutOfTime, Unsolved)):
        return Input("plan", NoPlan(0).text().encode(), None)
    if isinstance(plan, (list, tuple)):
        plan = Plan(tuple(_path(agent, path) for agent, path in enumerate(plan)))
    return Input("plan", plan.text().encode(), None) if isinstance(plan, Plan) else read_input("plan", plan)


def _path(agent: int, path: Iterable[Sequence[int]]) -> Path:
    """A path of whole numbers."""
    place, places = path, []
    try:
        for place in path:
            x, y = place
            places.append((operator.index(x), operator.index(y)))
        if places:
            return tuple(places)
    except (TypeError, ValueError):
        pass
    text = f"no position of agent {agent} at time {len(places)}"
    raise PlanFault(None, text, None, shown(str(place)), "two whole numbers, x and y")
