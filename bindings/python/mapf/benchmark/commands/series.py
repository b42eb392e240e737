"""`python3 -m mapf series`: how many agents are solved in time, as a CSV."""
from __future__ import annotations

import argparse
import os
import signal
import sys
from typing import Any, Callable, List, Sequence

from ...options import MOST_AGENTS, MOST_BOUND, MOST_NODES
from ...scenarios import scenarios_in
from ..plots import write_plot
from ..series.limits import Limits
from ..series.listing import one_a_row, one_a_scenario
from ..series.progress import Progress
from ..series.protocol import Agents, run_series
from ..series.rates import rates
from ..series.rows import AGAIN, Row, joined, read_series
from ..series.runner import Runner
from ..series.table import Table, write_series
from . import tell_lost

ABOUT = """Adds agents to each scenario until the first instance that isn't solved in time, and writes a CSV row for each run.
Ctrl-C leaves whole rows, and --resume goes on behind them."""
LISTINGS = {"rows": one_a_row, "scenarios": one_a_scenario}


def add(commands: Any) -> None:
    """Adds the command."""
    parser = commands.add_parser("series", help="how many agents are solved in time", description=ABOUT)
    parser.add_argument("--maps", metavar="DIR", help="the folder of maps, or a map")
    parser.add_argument("--scens", nargs="+", metavar="DIR", help="folders of scenarios, or scenarios")
    agents = _within(1, MOST_AGENTS)
    parser.add_argument(
        "--from", dest="first", type=agents, default=5, metavar="N", help="the first number of agents (5)")
    parser.add_argument("--step", type=agents, default=5, metavar="N", help="how many are added (5)")
    parser.add_argument("--to", dest="last", type=agents, metavar="N", help="the last number of agents (all rows)")
    parser.add_argument(
        "--jobs", type=_within(1, 10_000), default=1, metavar="N", help="so many scenarios at a time (1)")
    parser.add_argument("--csv", nargs="+", metavar="FILE", help="the file of rows; for --plot one of each solver")
    parser.add_argument("--resume", action="store_true", help="go on behind the rows of this ask that FILE has")
    _add_limits(parser)
    _add_modes(parser.add_mutually_exclusive_group())
    parser.set_defaults(run=run, parser=parser)


def _add_limits(parser: argparse.ArgumentParser) -> None:
    """The options that are called as the fields of `Limits`."""
    bound, nodes, megabytes = _within(0, MOST_BOUND), _within(1, MOST_NODES), _within(16, 1 << 30)
    parser.add_argument("--seconds", type=_seconds, default=10.0, metavar="S", help="the time of a run (10)")
    parser.add_argument(
        "--bound", type=bound, default=MOST_BOUND, metavar="B", help=f"the bound on the cost ({MOST_BOUND})")
    parser.add_argument(
        "--nodes", type=nodes, metavar="N", help="a limit on nodes, behind which a lower bound is known")
    parser.add_argument("--memory", type=megabytes, metavar="MB", help="the address space of a run in MB, 16 at least")
    parser.add_argument("--no-following", action="store_true", help="no agent may enter a cell in the step in which another leaves it")
    parser.add_argument(
        "--any-optimum", action="store_true", help="of several plans that cost least any will do, by another search")


def _add_modes(modes: Any) -> None:
    modes.add_argument(
        "--list", nargs="?", choices=LISTINGS, const="rows", help="print a command for each row, or each scenario, which writes to FILE.parts/")
    modes.add_argument(
        "--join", nargs="+", metavar="PART",
        help="put the rows of these files and folders into FILE, up to the first of each scenario that isn't solved")
    modes.add_argument("--rates", action="store_true", help="print the rates of success that FILE's rows state")
    modes.add_argument("--plot", metavar="SVG", help="draw success rates and times by agents, a curve for each FILE")


def run(asked: argparse.Namespace) -> int:
    """Runs, lists, joins, prints rates, or draws them."""
    if not asked.csv:
        asked.parser.error("--csv is missing")
    if asked.plot:
        write_plot(asked.plot, asked.csv)
        return 0
    if len(asked.csv) > 1:
        asked.parser.error("--csv has one FILE, but for --plot")
    path = asked.csv[0]
    if asked.join:
        series = joined(_parts(asked.join))
        write_series(path, series.asked, series.rows)
        return _status(path, series.rows)
    if asked.rates:
        print("\n".join(rates(read_series(path).rows)))
        return 0
    return _runs(asked, path)


def _runs(asked: argparse.Namespace, path: str) -> int:
    """Runs a series, or lists its commands."""
    if not asked.maps or not asked.scens:
        asked.parser.error("give --maps and --scens")
    if asked.last is not None and asked.last < asked.first:
        asked.parser.error(f"--to {asked.last} is below --from {asked.first}")
    scenarios = scenarios_in(asked.maps, asked.scens)
    found = list(scenarios.found.values())
    agents = Agents(asked.first, asked.step, asked.last)
    limits = Limits(*(getattr(asked, name) for name in Limits._fields))
    if asked.list:
        print("\n".join(LISTINGS[asked.list](found, agents, limits, path)), flush=True)
        return tell_lost(scenarios)
    runner = Runner(limits)
    again = {(one.map_name, one.name, count) for one in found for count in agents.of(one)} if asked.resume else None
    table = Table(path, runner.columns(), again)
    signal.signal(signal.SIGTERM, _interrupt)
    progress = Progress(len(found), table.rows)
    try:
        run_series(found, agents, runner, table, asked.jobs, progress)
    except KeyboardInterrupt:
        progress.end()
        whole = f"{path} has {len(table.rows)} whole rows, and --resume goes on behind them"
        print(f"mapf: stopped; {whole}", file=sys.stderr)
        return 130
    finally:
        progress.end()
        table.close()
    return max(tell_lost(scenarios), _status(path, table.rows))


def _status(path: str, rows: Sequence[Row]) -> int:
    """1 where runs have to be made again, which it says."""
    again = sum(row.status in AGAIN for row in rows)
    if again:
        said = f"{again} of {len(rows)} rows failed or were refused; --resume runs them again"
        print(f"mapf: {path}: {said}", file=sys.stderr)
    return 1 if again else 0


def _interrupt(*_: Any) -> None:
    raise KeyboardInterrupt


def _parts(named: List[str]) -> List[str]:
    """The files that were named, and those of the folders that were named."""
    parts: List[str] = []
    for path in named:
        parts += sorted(os.path.join(path, name) for name in os.listdir(path) if name.endswith(".csv")) if os.path.isdir(path) else [path]
    return parts


def _within(least: int, most: int) -> Callable[[str], int]:
    """What reads a number of this range."""

    def number(word: str) -> int:
        value = int(word)
        if not least <= value <= most:
            raise argparse.ArgumentTypeError(f"{word} is not from {least} to {most}")
        return value

    return number


def _seconds(word: str) -> float:
    number = round(float(word), 3)
    if not 0 < number <= 1_000_000:
        raise argparse.ArgumentTypeError(f"{word} is not a time from 0.001 to 1000000")
    return number
