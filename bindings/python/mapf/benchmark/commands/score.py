"""`python3 -m mapf score`: the plans of planners judged, and their costs by the optima and lower bounds of a series."""
from __future__ import annotations

import argparse
import os
import sys
from concurrent.futures import ThreadPoolExecutor
from typing import Any, Dict, List, Optional, Sequence, TextIO, Tuple

from ... import calls
from ...commands.check import Job, text_of
from ...commands.report import writer
from ...commands.status import status_of
from ...converters import FORMATS
from ...faults import Fault
from ...scenarios import Scenario, Scenarios, refuse_missing, scenarios_in
from ..scores.bounds import Bound, bounds_of
from ..scores.plans import PlanFile, Planners, planners_in, suffixes_of
from ..scores.score import Score, judged, missing, with_refuted
from ..scores.total import Total, totals
from ..series.rows import Key
from . import tell_lost

ABOUT = """Judges the plans of planners, each in a folder of its own, and divides their costs by the optima, or else the
lower bounds, of a series: a row for each planner and instance, and in a second table one for each planner. The status
is 1 where a claim is wrong, a file is stray or refused, or a plan is cheaper than the series' bound; else 0."""
Tables = Sequence[Tuple[Sequence[str], Sequence[Any]]]


def add(commands: Any) -> None:
    """Adds the command."""
    parser = commands.add_parser("score", help="score planners", description=ABOUT)
    parser.add_argument("--maps", required=True, metavar="DIR", help="the folder of maps, or a map")
    parser.add_argument("--scens", required=True, nargs="+", metavar="DIR", help="folders of scenarios, or scenarios")
    parser.add_argument("--plans", required=True, metavar="DIR", help="folders of planners: SCENARIO-AGENTS.FORMAT")
    parser.add_argument("--bounds", required=True, metavar="CSV", help="a series, which has optima and lower bounds")
    parser.add_argument("--suffix", help="how plans end, besides a dot and the format's name")
    parser.add_argument("--from", dest="source", choices=FORMATS, default="plan", help="the format of those (plan)")
    parser.add_argument("--no-following", action="store_true", help="judge by the rule of a series with --no-following")
    parser.add_argument("--jobs", type=int, default=os.cpu_count() or 1, metavar="N", help="so many at a time")
    parser.add_argument("--summary", action="store_true", help="the table of planners alone")
    out = parser.add_mutually_exclusive_group()
    out.add_argument(
        "--csv", nargs="*", metavar="FILE",
        help="print CSV, an empty line between the tables; or write it into these new files, one of each table")
    out.add_argument("--json", action="store_true", help="print JSON lines")
    parser.set_defaults(run=run, parser=parser)


def run(asked: argparse.Namespace) -> int:
    """Prints the rows."""
    if asked.jobs < 1:
        asked.parser.error("--jobs is 1 at least")
    _refuse_files(asked)
    scenarios = scenarios_in(asked.maps, asked.scens)
    bounds = bounds_of(asked.bounds, "no_following" if asked.no_following else "following")
    planners, strays = planners_in(asked.plans, suffixes_of(asked.source, asked.suffix), scenarios)

    def judge(task: Score) -> Score:
        plan = planners[task.planner].get(task.key)
        return _score(plan, scenarios.found[task.scenario], asked.no_following, task)

    with ThreadPoolExecutor(asked.jobs) as threads:
        scores = with_refuted(list(threads.map(judge, _tasks(planners, scenarios, bounds))))
    scores += [_refused(Score(stray.planner, plan=stray.path), stray.fault) for stray in strays]
    tables = (Score._fields, scores), (Total._fields, list(totals(sorted(planners), scores)))
    _write(asked, tables[1:] if asked.summary else tables)
    if asked.summary or not (asked.json or asked.csv is not None):
        _tell(scores)
    wrong = any(score.wrong_claim or score.message for score in scores)
    return max(tell_lost(scenarios), 1 if wrong else 0)


def _refuse_files(asked: argparse.Namespace) -> None:
    """Refuses too few or too many files to write, those that are there, and folders that aren't."""
    count = 1 if asked.summary else 2
    if len(asked.csv or ()) not in (0, count):
        asked.parser.error(f"--csv has no FILE or {count}")
    for path in asked.csv or ():
        if os.path.lexists(path):
            raise Fault(None, "the file is there already", path, "a file", "a new name")
        refuse_missing(os.path.dirname(path) or os.curdir, os.sep)


def _tasks(planners: Planners, scenarios: Scenarios, bounds: Dict[Key, Bound]) -> List[Score]:
    """For each planner each instance that the series or a planner has, without a verdict."""
    known = {(one.map_name, one.name) for one in scenarios.found.values()}
    keys = {key for key in bounds if key[:2] in known}.union(*planners.values())
    return [missing(planner, key, bounds.get(key, Bound())) for planner in sorted(planners) for key in sorted(keys)]


def _score(plan: Optional[PlanFile], scenario: Scenario, no_following: bool, task: Score) -> Score:
    """The task with the verdict on this plan, where there is one."""
    if plan is None:
        return task
    task = task._replace(plan=plan.path)
    try:
        text, given = text_of(plan.source, Job(plan.path, scenario.map_path, scenario.path, task.agents))
        verdict = calls.check(scenario.map_path, scenario.path, given, task.agents, no_following)
    except Fault as fault:
        return _refused(task, fault)
    return judged(task, text, verdict)


def _refused(score: Score, fault: Fault) -> Score:
    """The score of a file that was refused."""
    return score._replace(status=status_of(fault), verdict=fault.text, message=str(fault))


def _tell(scores: Sequence[Score]) -> None:
    """Says the messages, which the table of planners and tables for readers don't have."""
    for score in scores:
        if score.message:
            place = "" if score.plan and score.message.startswith(score.plan) else f"{score.plan}: "
            print(f"mapf: {place}{score.message}", file=sys.stderr)


def _write(asked: argparse.Namespace, tables: Tables) -> None:
    """Writes these tables."""
    if asked.csv:
        for path, table in zip(asked.csv, tables):
            with open(path, "x", newline="", encoding="utf-8", errors="surrogateescape") as file:
                _rows("csv", file, *table)
        return
    for number, (columns, rows) in enumerate(tables):
        if number and not asked.json:
            print()
        if asked.json or asked.csv is not None:
            _rows("json" if asked.json else "csv", sys.stdout, columns, rows)
        else:
            print("\n".join(_table([name for name in columns if name not in ("plan", "message")], rows)))
    sys.stdout.flush()


def _rows(kind: str, out: TextIO, columns: Sequence[str], rows: Sequence[Any]) -> None:
    write = writer(kind, out, columns)
    for row in rows:
        write(_shown(row))


def _shown(row: Any) -> Dict[str, Any]:
    """The row's fields, a ratio to four digits behind the point and a truth as 0 or 1."""
    return {name: _number(value) for name, value in row._asdict().items()}


def _number(value: Any) -> Any:
    return round(value, 4) if isinstance(value, float) else int(value) if isinstance(value, bool) else value


def _table(columns: Sequence[str], rows: Sequence[Any]) -> List[str]:
    """The lines of a table."""
    cells = [["" if row[name] is None else str(row[name]) for name in columns] for row in map(_shown, rows)]
    return [_line(columns), "|" + "---|" * len(columns), *(_line(line) for line in cells)]


def _line(cells: Sequence[str]) -> str:
    return "| " + " | ".join(cells) + " |"
