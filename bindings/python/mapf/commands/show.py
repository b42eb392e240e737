"""`python3 -m mapf show`: a page, or a picture, that shows a plan on its map."""
from __future__ import annotations

import argparse
import os
import pathlib
import webbrowser
from typing import Any

from .. import calls, page, picture
from .._input import read_input
from .._output import write_whole
from ..converters import READ
from ..faults import ArgumentFault, Fault
from ..instance import lines_of, rows_of
from ..plan import Plan, Unsolved
from ..plan_text import agents_stated
from ..verdict import Verdict
from ..ways import spent
from .check import Job, text_of
from .files import add_files

ABOUT = """Writes a page, one HTML file, that shows a plan on its map with the checker's verdict and the first fault; or, where
FILE ends with .svg, a picture that moves. Prints the file's name and the verdict; the status is 0 where it is written."""
MOST_CELLS = 2**17


def add(commands: Any) -> None:
    """Adds the command."""
    parser = commands.add_parser("show", help="a page or a picture that shows a plan", description=ABOUT)
    parser.add_argument("--from", dest="source", choices=READ, default="plan", help="the format of PLAN (plan)")
    parser.add_argument(
        "--no-following", action="store_true", help="no agent may enter a cell in the step in which another leaves it")
    parser.add_argument("-o", dest="out", metavar="FILE", help="FILE.html or FILE.svg (a page beside the plan, by its name)")
    parser.add_argument("--open", action="store_true", help="open it in the browser")
    stills = parser.add_mutually_exclusive_group()
    stills.add_argument("--step", type=int, metavar="N", help="a picture of one step, from 0")
    stills.add_argument("--waits", action="store_true", help="a picture of where agents waited, and of detours")
    add_files(parser, "map", "scen", "plan")
    parser.set_defaults(run=run)


def run(asked: argparse.Namespace) -> int:
    """Judges the plan, and writes the page or the picture."""
    path = asked.out or os.path.splitext(asked.plan)[0] + ".html"
    draws = path.lower().endswith(".svg")
    if not draws and (asked.waits or asked.step is not None):
        asked.parser.error("--step and --waits make pictures: give -o FILE.svg")
    _refuse_another_file(path, picture.BEGINS if draws else page.BEGINS)
    text, given = text_of(asked.source, Job(asked.plan, asked.map, asked.scen, None))
    text = given.text().encode() if isinstance(given, Unsolved) else text
    verdict = calls.check(asked.map, asked.scen, given, None, asked.no_following)
    stem = os.path.basename(asked.plan)
    name = stem if isinstance(given, str) else os.path.splitext(stem)[0] + ".plan"
    shown = _picture_of(asked, text, verdict) if draws else _page_of(asked, name, text, verdict)
    write_whole(path, shown.encode())
    print(f"{path}: {verdict.line}")
    if asked.open:
        webbrowser.open(pathlib.Path(path).resolve().as_uri())
    return 0


def _page_of(asked: argparse.Namespace, name: str, text: bytes, verdict: Verdict) -> str:
    files = {
        "map": (os.path.basename(asked.map), read_input("map", asked.map).contents),
        "scen": (os.path.basename(asked.scen), read_input("scenario", asked.scen).contents),
        "plan": (name, text)}
    return page.page_of(page.Shown(files, agents_stated(text) or 1, asked.no_following, (0 if verdict.valid else 1, verdict.line)))


def _picture_of(asked: argparse.Namespace, text: bytes, verdict: Verdict) -> str:
    """The picture of a text that the checker took."""
    if verdict.kind == "no plan given":
        raise Fault(None, "no picture", asked.plan, verdict.kind, "a plan")
    lines = text.decode("ascii").split("\n")[1:-1]
    places = ([place.split(",") for place in line.split(" ")] for line in lines)
    plan = Plan(tuple(tuple((int(x), int(y)) for x, y in path) for path in places))
    rows = lines_of(read_input("map", asked.map).contents)
    rows = rows[4:4 + int(rows[1].split()[1])]
    agents = rows_of(read_input("scenario", asked.scen).contents)
    scene = picture.Scene(rows, agents, plan, verdict, os.path.basename(asked.plan))
    if asked.waits:
        counted = verdict.valid and len(rows) * len(rows[0]) <= MOST_CELLS
        return picture.waiting(scene, spent(rows, plan) if counted else ())
    if asked.step is None:
        return picture.moving(scene)
    if not 0 <= asked.step <= plan.makespan:
        raise ArgumentFault(None, "no such step", None, f"{asked.step}", f"0 to {plan.makespan}")
    return picture.still(scene, asked.step)


def _refuse_another_file(path: str, begins: str) -> None:
    """Refuses a path at which something else is than what is to be written there."""
    if not os.path.lexists(path):
        return
    if os.path.isfile(path):
        with open(path, "rb") as file:
            if file.read(len(begins)) == begins.encode():
                return
    wanted = "a new name, or an earlier one to write anew"
    raise Fault(None, "there is something else", path, "no page or picture of mapf show", wanted)
