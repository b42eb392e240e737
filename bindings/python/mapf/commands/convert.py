"""`python3 -m mapf convert`: a plan from one format into another."""
from __future__ import annotations

import argparse
import sys
from typing import Any, Optional

from .._input import read_input
from ..converters import READ, SHAPES, WRITTEN, read_plan, write_plan
from ..plan import Plan
from .files import add_files

LOOKS = "\n".join(f"  {name:<22} {shape.looks}" for name, shape in SHAPES.items())


def add(commands: Any) -> None:
    """Adds the command."""
    parser = commands.add_parser(
        "convert", help="a plan from one format into another", formatter_class=argparse.RawDescriptionHelpFormatter,
        description="Converts a plan. What doesn't fit the format is refused by its line. The status is 1 where no plan is given.",
        epilog=f"formats:\n  auto                   the one that the file's content has\n  plan                   this project's plan text\n{LOOKS}")
    parser.add_argument("--from", dest="source", choices=READ, default="plan", help="the format of PLAN (plan)")
    parser.add_argument("--to", dest="target", choices=WRITTEN, default="plan", help="the format that is printed (plan)")
    parser.add_argument("--map", help="refuse positions outside of this map; `eecbs-stdout` needs it")
    parser.add_argument("--scen", help="the scenario that `moves` and `tracker` begin at")
    add_files(parser, "plan")
    parser.set_defaults(run=run)


def run(asked: argparse.Namespace) -> int:
    """Prints the plan in the other format."""
    plan = read_plan(
        asked.source, read_input("plan", asked.plan).contents, asked.plan, _contents("map", asked.map), _contents("scenario", asked.scen))
    if not isinstance(plan, Plan):
        print(f"mapf: {asked.plan}: {plan.text()}", end="", file=sys.stderr)
        return 1
    sys.stdout.write(write_plan(asked.target, plan))
    sys.stdout.flush()
    return 0


def _contents(kind: str, path: Optional[str]) -> Optional[bytes]:
    return read_input(kind, path).contents if path else None
