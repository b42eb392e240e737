"""The plans of planners, each in a folder that is called as the planner."""
from __future__ import annotations

import os
import re
from typing import Dict, Iterator, List, NamedTuple, Optional, Tuple

from ...converters import FORMATS
from ...faults import Fault, PlanFault
from ...scenarios import Scenarios, refuse_missing
from ..series.rows import Key

NAME = re.compile(r"(.+)-([0-9]{1,9})")


class PlanFile(NamedTuple):
    """A plan's file and its format."""

    path: str
    source: str


class Stray(NamedTuple):
    """A file of a planner that is for no instance, or for one of which the planner has a plan already; and its fault."""

    planner: str
    path: str
    fault: Fault


Planners = Dict[str, Dict[Key, PlanFile]]


def suffixes_of(source: str, suffix: Optional[str]) -> Dict[str, str]:
    """For each end of a plan's name its format: a dot and the format's name, and where one is named that suffix."""
    named = {"." + name: name for name in FORMATS}
    return {suffix: source, **named} if suffix else named


def planners_in(folder: str, suffixes: Dict[str, str], scenarios: Scenarios) -> Tuple[Planners, List[Stray]]:
    """Each planner's plans by instance, of a folder's folders and of the folder itself where it has some; and stray files.

    What ends with none of the suffixes is no plan. A plan is called SCENARIO-AGENTS and a suffix.
    """
    refuse_missing(folder, os.sep)
    planners: Planners = {}
    strays: List[Stray] = []
    for planner, path in _files(os.path.abspath(folder)):
        suffix = next((suffix for suffix in suffixes if path.endswith(suffix)), None)
        if suffix:
            plans = planners.setdefault(planner, {})
            try:
                plans[_instance(path, suffix, scenarios, plans)] = PlanFile(path, suffixes[suffix])
            except Fault as fault:
                strays.append(Stray(planner, path, fault))
    if not planners:
        raise Fault(None, "no plans", folder, "no name that ends so", ", ".join(suffixes))
    return planners, strays


def _files(folder: str) -> Iterator[Tuple[str, str]]:
    """Each file behind the name of its planner."""
    for within, _, names in sorted(os.walk(folder)):
        planner = os.path.relpath(within, folder).split(os.sep)[0]
        for name in sorted(names):
            yield os.path.basename(folder) if planner == os.curdir else planner, os.path.join(within, name)


def _instance(path: str, suffix: str, scenarios: Scenarios, plans: Dict[Key, PlanFile]) -> Key:
    """The instance of a file beside these plans."""
    name = os.path.basename(path)
    parts = NAME.fullmatch(name[: -len(suffix)])
    if not parts:
        raise PlanFault(None, "no plan by its name", path, name, "SCENARIO-AGENTS and a suffix")
    scenario = scenarios.of_plan(parts.group(1) + ".scen", path)
    key = scenario.map_name, scenario.name, int(parts.group(2))
    if key in plans:
        raise PlanFault(None, "two plans of one instance", path, plans[key].path, "one of each planner")
    return key
