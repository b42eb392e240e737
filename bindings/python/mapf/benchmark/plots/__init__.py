"""Pictures of series: success rates and times by agents, in SVG by the standard library."""
from __future__ import annotations

import os
from typing import Dict, List, Sequence, Tuple

from ...faults import Fault
from ...plan_text import shown
from . import axes
from .curves import Solver, most_scenarios, rate_points, runs, solvers_of, time_points
from .panel import HEIGHT, LEFT, WIDTH, Panel
from .styles import curve, style_of
from .svg import element, text

MARK = "<!-- success rates and times, by mapf series -->"
SPACE, FONTS = "http://www.w3.org/2000/svg", "Helvetica, Arial, sans-serif"
LEGEND, ENTRY, LETTER = 24.0, 56.0, 7.2


def write_plot(path: str, csvs: Sequence[str]) -> None:
    """Draws a panel of rates and one of times for each map of these series; no other file is overwritten."""
    solvers = solvers_of(csvs)
    maps = sorted({name for solver in solvers for name in solver.times})
    if not maps:
        raise Fault(None, "no row at line 2", csvs[0], "the end of the file", "a row: there is nothing to draw")
    _refuse_others(path)
    picture = _picture(solvers, maps)
    with open(path, "w", encoding="utf-8") as file:
        file.write(picture)


def _refuse_others(path: str) -> None:
    if os.path.exists(path) and not os.path.isfile(path):
        raise Fault(None, "no picture", path, "a folder, a device or a fifo", "a file")
    if os.path.exists(path):
        with open(path, encoding="utf-8", errors="replace") as file:
            first = file.readline()
        if first.strip() != MARK:
            wanted = "a new name, or an earlier picture of series"
            raise Fault(None, "another file is there", path, shown(first.strip()), wanted)


def _picture(solvers: Sequence[Solver], maps: Sequence[str]) -> str:
    legend, top = _legend(solvers)
    width, height = 2 * WIDTH, top + len(maps) * HEIGHT
    paper = element("rect", width=width, height=height, fill="#fff")
    parts = [element("title", "Success rates and times by agents"), paper, *legend]
    for number, name in enumerate(maps):
        times = {index: solver.times[name] for index, solver in enumerate(solvers) if name in solver.times}
        rates, seconds = _panels(name, times)
        parts += [rates.draw(0.0, top + number * HEIGHT), seconds.draw(WIDTH, top + number * HEIGHT)]
    size = {"width": width, "height": height, "viewBox": f"0 0 {width:g} {height:g}"}
    body = "\n".join(["", *parts, ""])
    return f"{MARK}\n{element('svg', body, xmlns=SPACE, font_family=FONTS, font_size=12, **size)}\n"


def _legend(solvers: Sequence[Solver]) -> Tuple[List[str], float]:
    """The entries, in as many lines as they need, and where the panels begin."""
    parts: List[str] = []
    x, y = LEFT, LEGEND
    for number, solver in enumerate(solvers):
        words = solver.name + (f", limit {solver.limit} s" if solver.limit else "")
        room = ENTRY + LETTER * len(words) + 16
        if x > LEFT and x + room > 2 * WIDTH:
            x, y = LEFT, y + 18
        sample = curve([(x, y - 4), (x + 48, y - 4)], [(x + 24, y - 4)], [""], style_of(number))
        parts += [sample, text(x + ENTRY, y, words)]
        x += room
    return parts, y + 8


def _panels(name: str, by_solver: Dict[int, Dict[int, List[float]]]) -> Tuple[Panel, Panel]:
    """The two panels of a map."""
    rates = {number: rate_points(by_count) for number, by_count in by_solver.items()}
    seconds = {number: time_points(by_count) for number, by_count in by_solver.items()}
    scenarios = sorted({most_scenarios(by_count) for by_count in by_solver.values()})
    counts = f"{scenarios[0]}" if len(scenarios) == 1 else f"{scenarios[0]} to {scenarios[-1]}"
    title = f"{name}, {counts} scenario{'' if scenarios == [1] else 's'}"
    across = axes.counts([point.agents for points in rates.values() for point in points])
    taken = {number: runs(by_count) for number, by_count in by_solver.items()}
    upright = axes.decades([one for solved in taken.values() for _, one in solved] or [1.0])
    return (
        Panel(title, "solved (%)", across, axes.percents(), rates, {}),
        Panel(title, "seconds, and their median", across, upright, seconds, taken))
