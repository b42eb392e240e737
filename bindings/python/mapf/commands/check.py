"""`python3 -m mapf check`: judges a plan, or all plans of a folder, in any of the formats."""
from __future__ import annotations

import argparse
import os
import re
import sys
from concurrent.futures import ThreadPoolExecutor
from typing import Any, Iterator, NamedTuple, Optional, Tuple, Union

from .. import calls
from ..backend import Backend, chosen
from .._input import read_input
from ..converters import FORMATS, READ, format_of, read_plan
from ..faults import Fault, PlanFault, ScenarioFault
from ..instance import rows_of
from ..plan import GaveUp
from ..plan_text import Answer, agents_stated
from ..scenarios import scenarios_in
from ..verdict import Verdict
from .report import writer
from .status import status_of

NAME = re.compile(r"(.+)-([0-9]+)")


class Job(NamedTuple):
    """A plan's file, and the instance that it is for."""

    plan: str
    map: str
    scenario: str
    agents: Optional[int]


def add(commands: Any) -> None:
    """Adds the command."""
    parser = commands.add_parser(
        "check", help="judge plans",
        description="Judges plans: one JSON object or CSV row for each. The status is 0 where all are valid, 1 else.",
        epilog="""The program judges one plan, and takes --map, --scen, --agents, --plan and --no-following alone; by these words
        this command prints what the program does.""")
    parser.add_argument("--from", dest="source", choices=READ, default="plan", help="the format of the plans (plan)")
    parser.add_argument("--map", help="the map of all plans")
    parser.add_argument("--scen", help="the scenario of all plans")
    parser.add_argument("--plan", help="one plan, whose verdict is printed as the program does")
    parser.add_argument("--instances", metavar="DIR", help="the folder of maps and scenarios, where plans are called SCENARIO-AGENTS")
    parser.add_argument("--maps", metavar="DIR", help="the folder of maps, where plans are called SCENARIO-AGENTS")
    parser.add_argument("--scens", action="append", metavar="DIR", help="a folder of scenarios; may be given again")
    parser.add_argument("--agents", type=int, metavar="N", help="the number of agents (the name's, or else the plan's)")
    parser.add_argument("--no-following", action="store_true", help="no agent may enter a cell in the step in which another leaves it")
    parser.add_argument("--suffix", help="how files of a folder end that are plans (a dot and the format's name)")
    parser.add_argument("--out", choices=("json", "csv"), help="JSON lines or CSV (json)")
    parser.add_argument("--jobs", type=int, default=os.cpu_count() or 1, metavar="N", help="so many at a time")
    parser.add_argument("files", nargs="*", metavar="PLAN", help="a plan, or a folder of plans")
    parser.set_defaults(run=run, parser=parser)


def run(asked: argparse.Namespace) -> int:
    """Prints a line for each plan."""
    ways = [(asked.map, asked.scen), (asked.maps, asked.scens), (asked.instances,)]
    if [all(way) for way in ways if any(way)] != [True]:
        asked.parser.error("give --map and --scen, --maps and --scens, or --instances")
    if asked.jobs < 1:
        asked.parser.error("--jobs is 1 at least")
    if bool(asked.files) == (asked.plan is not None):
        asked.parser.error("give PLAN, which may be some or folders, or --plan")
    asked.found = scenarios_in(asked.maps, asked.scens) if asked.maps else None
    if asked.plan and not asked.out:
        return _as_the_program(asked)
    plans, backend = list(plans_of(asked)), chosen()
    write, bad = writer(asked.out or "json", sys.stdout), 0
    with ThreadPoolExecutor(asked.jobs) as threads:
        for row in threads.map(lambda path: judged(backend, asked, path), plans):
            write(row)
            bad += row["status"] != 0
    sys.stdout.flush()
    return 1 if bad else 0


def _as_the_program(asked: argparse.Namespace) -> int:
    """Prints a plan's verdict, or fails by the refusal's line."""
    job = job_of(asked, asked.plan)
    _, given = text_of(asked.source, job)
    verdict = calls.check_by(chosen(), job.map, job.scenario, given, job.agents, asked.no_following)
    print(verdict.line, flush=True)
    return 0 if verdict.valid else 1


def plans_of(asked: argparse.Namespace) -> Iterator[str]:
    """The files that were named, and those of the folders that were named."""
    for named in asked.files or [asked.plan]:
        if not os.path.isdir(named):
            yield named
            continue
        formats = FORMATS if asked.source == "auto" else (asked.source,)
        suffixes = (asked.suffix,) if asked.suffix else tuple(f".{name}" for name in formats)
        found = sorted(os.path.join(folder, name) for folder, _, names in os.walk(named) for name in names if name.endswith(suffixes))
        if not found:
            asked.parser.error(f"no plan {' or '.join(f'*{suffix}' for suffix in suffixes)} in {named}")
        yield from found


def judged(backend: Backend, asked: argparse.Namespace, path: str) -> dict:
    """The row of a plan."""
    job = Job(path, asked.map or "", asked.scen or "", asked.agents)
    try:
        job = job_of(asked, path)
        text, given = text_of(asked.source, job)
        job = job._replace(agents=agents_stated(text) if job.agents is None else job.agents)
        verdict = calls.check_by(backend, job.map, job.scenario, given, job.agents, asked.no_following)
        return {**_named(job), "status": 0 if verdict.valid else 1, "line": verdict.line, **_places(verdict)}
    except Fault as fault:
        refusal = {"line": fault.text, "number": fault.number, "kind": "refused", "message": str(fault)}
        return {**_named(job), "status": status_of(fault), **refusal}


def job_of(asked: argparse.Namespace, path: str) -> Job:
    """The instance of a plan: the one that was named, or by the plan's name."""
    if asked.map:
        return Job(path, asked.map, asked.scen, asked.agents)
    name = NAME.fullmatch(os.path.splitext(os.path.basename(path))[0])
    if not name:
        raise PlanFault(None, "no plan by its name", path, os.path.basename(path), "SCENARIO-AGENTS and a suffix")
    if asked.maps:
        scenario = asked.found.of_plan(name.group(1) + ".scen", path)
        return Job(path, scenario.map_path, scenario.path, int(name.group(2)) if asked.agents is None else asked.agents)
    scen = os.path.join(asked.instances, name.group(1) + ".scen")
    rows = rows_of(read_input("scenario", scen).contents)
    if not rows or rows[0] is None:
        raise ScenarioFault(None, "no row at line 2", scen, "no map's name", "a row of nine fields")
    agents = int(name.group(2)) if asked.agents is None else asked.agents
    return Job(path, os.path.join(asked.instances, rows[0].map_name), scen, agents)


def text_of(source: str, job: Job) -> Tuple[bytes, Union[str, Answer]]:
    """The plan text, converted where the plan is in another format; and what is judged: the file, or the plan that it has.

    Where a planner says that it found none, the text states nothing of the instance.
    """
    contents = read_input("plan", job.plan).contents
    if format_of(source, contents, job.plan) == "plan":
        return contents, job.plan
    map_contents, scen_contents = read_input("map", job.map).contents, read_input("scenario", job.scenario).contents
    answer = read_plan(source, contents, job.plan, map_contents, scen_contents)
    return (answer or GaveUp(1, 0)).text().encode(), answer


def _named(job: Job) -> dict:
    """The job's columns; map and scenario are called as in a series' rows."""
    return {**job._asdict(), "map": os.path.basename(job.map), "scenario": os.path.basename(job.scenario)}


def _places(verdict: Verdict) -> dict:
    first, second = (*verdict.agents, None, None)[:2]
    (x, y), (to_x, to_y) = verdict.cell or (None, None), verdict.to or (None, None)
    return {
        "number": verdict.number, "kind": verdict.kind, "first": first, "second": second, "x": x, "y": y, "to_x": to_x, "to_y": to_y,
        "time": verdict.time, "stated": verdict.stated, "found": verdict.found}
