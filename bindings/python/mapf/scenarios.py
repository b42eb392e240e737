"""The scenarios of files and folders, and the maps that they name."""
from __future__ import annotations

import os
from typing import Dict, Iterator, NamedTuple, Sequence

from ._input import read_input
from .faults import Fault, FileFault, PlanFault
from .instance import rows_of


class Scenario(NamedTuple):
    """A scenario, its map, and how many rows it has."""

    name: str
    path: str
    map_name: str
    map_path: str
    rows: int


class Scenarios(NamedTuple):
    """Scenarios by name, and the faults of those that have no row or no map."""

    found: Dict[str, Scenario]
    lost: Dict[str, Fault]

    def of_plan(self, name: str, plan: str) -> Scenario:
        """The scenario of this name, which a plan is for."""
        if name in self.lost:
            raise self.lost[name]
        if name not in self.found:
            raise PlanFault(None, "no scenario for a plan", plan, name, "the name of a scenario of --scens")
        return self.found[name]


def scenarios_in(maps: str, scens: Sequence[str]) -> Scenarios:
    """The scenarios of these files and folders in order, each with the map of the folder that its first row names.

    Where all are lost, the first one's fault is raised.
    """
    map_paths = _by_name("map", list(_files([maps], ".map")))
    scen_paths = _by_name("scenario", list(_files(scens, ".scen")))
    scenarios = Scenarios({}, {})
    for name in sorted(scen_paths):
        try:
            scenarios.found[name] = _scenario(name, scen_paths[name], map_paths, maps)
        except Fault as fault:
            scenarios.lost[name] = fault
    if not scenarios.found:
        raise next(iter(scenarios.lost.values()))
    return scenarios


def _scenario(name: str, path: str, map_paths: Dict[str, str], maps: str) -> Scenario:
    rows = rows_of(read_input("scenario", path).contents)
    if not rows or rows[0] is None:
        raise Fault(None, "no scenario", path, "no row in line 2", "a row of nine fields")
    map_name = os.path.basename(rows[0].map_name)
    if map_name not in map_paths:
        raise Fault(None, "no map for a scenario", path, f"the name `{map_name}` in line 2", f"the name of a map in {maps}")
    return Scenario(name, path, map_name, map_paths[map_name], len(rows))


def refuse_missing(path: str, suffix: str) -> None:
    """Refuses what isn't there: a file, where the path ends so, or else a folder."""
    if not os.path.exists(path):
        text, wanted = ("no such file", "a file") if path.endswith(suffix) else ("no such folder", "a folder")
        raise FileFault(None, text, path, "nothing there", wanted)


def _files(named: Sequence[str], suffix: str) -> Iterator[str]:
    for path in named:
        refuse_missing(path, suffix)
        if not os.path.isdir(path):
            yield path
            continue
        found = [os.path.join(folder, name) for folder, _, names in os.walk(path) for name in names if name.endswith(suffix)]
        if not found:
            raise Fault(None, "no files", path, f"no *{suffix}", "one at least")
        yield from found


def _by_name(kind: str, paths: Sequence[str]) -> Dict[str, str]:
    """The paths by the files' names, of which each may be there once."""
    named: Dict[str, str] = {}
    for path in paths:
        name = os.path.basename(path)
        if name in named:
            raise Fault(None, f"two {kind}s of one name", path, named[name], "another name")
        if "\n" in name or "\r" in name:
            raise Fault(None, f"a {kind}'s name of two lines", repr(path), "the end of a line", "another name")
        named[name] = path
    return named
