"""A plan as an SVG picture, for papers and pages: moving by SMIL, without a script; or one step of it, or where agents waited."""
from __future__ import annotations

import re
from colorsys import hls_to_rgb
from html import escape
from typing import List, NamedTuple, Optional, Sequence, Tuple

from .instance import Row
from .plan import Path, Plan
from .verdict import Verdict
from .ways import Spent, waits_of

BEGINS = '<svg xmlns="http://www.w3.org/2000/svg" data-plan="mapf"'
FLOOR, WALL, INK, BAD = "#ffffff", "#c9c5ba", "#1d2129", "#c7303a"
SECONDS, LEAST_WIDTH = 0.4, 14
WALLS = re.compile(rb"[@OT]+")


class Scene(NamedTuple):
    """What is drawn: a map's rows, the scenario's rows, a plan for some of them, its verdict, and the picture's title."""

    rows: Sequence[bytes]
    agents: Sequence[Optional[Row]]
    plan: Plan
    verdict: Verdict
    title: str


def moving(scene: Scene) -> str:
    """The plan from its first step to its last, over and over."""
    plan, total = scene.plan, scene.plan.makespan + 1
    agents = [_agent(number, path[0], _moves(path, total)) for number, path in enumerate(plan.paths)]
    return _picture(scene, scene.verdict.line, [*_goals(scene), *agents, _fault(scene)])


def still(scene: Scene, step: int) -> str:
    """The plan at one time, from 0 to its makespan."""
    agents = [_agent(number, scene.plan.at(number, step)) for number in range(len(scene.plan.paths))]
    words = f"{scene.verdict.line} (step {step} of {scene.plan.makespan})"
    return _picture(scene, words, [*_goals(scene), *agents, _fault(scene, step)])


def waiting(scene: Scene, spent: Sequence[Spent]) -> str:
    """The cells, the darker the longer agents waited on them, and the paths of agents that made detours."""
    waits, shapes = waits_of(scene.plan), []
    for (x, y), count in sorted(waits.items()):
        depth = 0.15 + 0.85 * count / max(waits.values())
        shapes.append(f'<rect x="{x}" y="{y}" width="1" height="1" fill="{BAD}" opacity="{depth:.2f}">'
                      f"<title>{x},{y}: {count} waits</title></rect>")
    for number, (path, one) in enumerate(zip(scene.plan.paths, spent)):
        if one.detour:
            points = " ".join(f"{x + 0.5},{y + 0.5}" for x, y in path)
            shapes.append(f'<polyline points="{points}" fill="none" stroke="{_hue(number)}" stroke-width=".15">'
                          f"<title>agent {number}: {one.least} steps at least, {one.waits} waits, {one.detour} of a detour</title></polyline>")
    least, waited, detours = (sum(numbers) for numbers in zip(*spent)) if spent else (None, sum(waits.values()), None)
    detour = "" if least is None else f", {least} at least, {detours} of detours"
    return _picture(scene, f"{scene.verdict.line}: {waited} waits{detour}", shapes)


def _picture(scene: Scene, words: str, shapes: Sequence[str]) -> str:
    width, height = max(LEAST_WIDTH, len(scene.rows[0])), len(scene.rows)
    size = width / 40
    whole, high, scale = width + 0.2, height + 2 * size, min(40, 960 / width)
    pieces = ((y, piece) for y, row in enumerate(scene.rows) for piece in WALLS.finditer(row))
    walls = "".join(f"M{piece.start()} {y}H{piece.end()}v1H{piece.start()}z" for y, piece in pieces)
    title = escape(scene.title.encode("utf-8", "replace").decode())
    lines = [
        f'{BEGINS} width="{whole * scale:.0f}" height="{high * scale:.0f}" viewBox="-.1 -.1 {whole:.1f} {high:.2f}">',
        f"<title>{title}</title>", f'<rect x="-.1" y="-.1" width="{whole:.1f}" height="{high:.2f}" fill="{FLOOR}"/>',
        f'<rect width="{len(scene.rows[0])}" height="{height}" fill="{FLOOR}" stroke="{WALL}" stroke-width=".1"/>',
        f'<path d="{walls}" fill="{WALL}"/>', *shapes,
        f'<text y="{height + 1.4 * size:.2f}" font-size="{size:.2f}" fill="{INK}" font-family="sans-serif">{escape(words)}</text>', "</svg>"]
    return "\n".join([*filter(None, lines), ""])


def _hue(number: int) -> str:
    """An agent's colour: hues are a golden angle apart, so that neighbours differ."""
    return "#" + "".join(f"{round(255 * part):02x}" for part in hls_to_rgb((number * 137.508 + 5) % 360 / 360, 0.45, 0.65))


def _goals(scene: Scene) -> List[str]:
    goals = ((_hue(number), *row.goal) for number, row in enumerate(scene.agents[: len(scene.plan.paths)]) if row)
    return [f'<rect x="{x + 0.13:.2f}" y="{y + 0.13:.2f}" width=".74" height=".74" fill="{hue}" fill-opacity=".15" '
            f'stroke="{hue}" stroke-width=".07"/>' for hue, x, y in goals]


def _agent(number: int, place: Tuple[int, int], moves: str = "") -> str:
    return (f'<g transform="translate({place[0]} {place[1]})">{moves}<title>agent {number}</title>'
            f'<circle cx=".5" cy=".5" r=".4" fill="{_hue(number)}"/><text x=".5" y=".63" font-size=".36" '
            f'font-family="sans-serif" text-anchor="middle" fill="{FLOOR}">{number}</text></g>')


def _moves(path: Path, total: int) -> str:
    """The animation of a path: its corners and the times of them, of so many steps."""
    last, steps = len(path) - 1, [(x - from_x, y - from_y) for (from_x, from_y), (x, y) in zip(path, path[1:])]
    times = [0, *(time for time in range(1, last) if steps[time - 1] != steps[time]), last, total] if last else [0, total]
    values = ";".join("{} {}".format(*path[min(time, last)]) for time in times)
    return _animated("animateTransform", "transform", values, times, total, 'type="translate"')


def _animated(name: str, attribute: str, values: str, times: Sequence[float], total: int, more: str) -> str:
    key_times = ";".join(f"{time / total:.7g}" for time in times)
    return (f'<{name} attributeName="{attribute}" {more} dur="{total * SECONDS:.1f}s" repeatCount="indefinite" '
            f'values="{values}" keyTimes="{key_times}"/>')


def _fault(scene: Scene, step: Optional[int] = None) -> str:
    """A ring where the first fault is, which stands out at its time."""
    verdict, total = scene.verdict, scene.plan.makespan + 1
    if verdict.number in (None, 61, 67):
        return ""
    last = len(scene.plan.paths[verdict.agents[0]]) - 1
    time = {62: 0, 64: last, 65: last}.get(verdict.number or 0, verdict.time or 0)
    x, y = verdict.cell or scene.plan.at(verdict.agents[0], time)
    to_x, to_y = verdict.to or (x, y)
    times = [0, max(0, time - 0.5), time + 0.5]
    look = _animated("animate", "opacity", ".35;1;.35", times, total, 'calcMode="discrete"') if step is None else ""
    return (f'<circle cx="{(x + to_x + 1) / 2}" cy="{(y + to_y + 1) / 2}" r=".8" fill="none" stroke="{BAD}" '
            f'stroke-width=".12" opacity="{1 if step == time else .35}">{look}</circle>')
