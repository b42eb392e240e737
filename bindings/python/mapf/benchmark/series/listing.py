"""Commands that make a series' rows apart, for GNU parallel, a job array or any shell."""
from __future__ import annotations

import os
import shlex
import sys
from typing import Iterator, Sequence

from ...program import program_path
from ...scenarios import Scenario
from .limits import Limits, option, seconds_text
from .protocol import Agents

PACKAGE = os.path.normpath(os.path.join(os.path.dirname(os.path.realpath(__file__)), "..", "..", ".."))


def parts_of(csv_path: str) -> str:
    """The folder of the parts that are to become this file."""
    return os.path.abspath(csv_path) + ".parts"


def one_a_row(scenarios: Sequence[Scenario], agents: Agents, limits: Limits, csv_path: str) -> Iterator[str]:
    """A command for each run; each writes a part of its own, and does nothing where that has its row."""
    for scenario in scenarios:
        for number in agents.of(scenario):
            part = f"{scenario.name}-{number}.csv"
            yield _command(scenario, Agents(number, agents.step, number), limits, parts_of(csv_path), part)


def one_a_scenario(scenarios: Sequence[Scenario], agents: Agents, limits: Limits, csv_path: str) -> Iterator[str]:
    """A command for each scenario's series; each writes a part of its own, and goes on where it was stopped."""
    for scenario in scenarios:
        yield _command(scenario, agents, limits, parts_of(csv_path), f"{scenario.name}.csv")


def _command(scenario: Scenario, agents: Agents, limits: Limits, parts: str, part: str) -> str:
    words = ["env", f"PYTHONPATH={PACKAGE}", f"MAPF_PROGRAM={os.path.abspath(program_path())}", sys.executable, "-m", "mapf", "series"]
    words += ["--maps", os.path.abspath(scenario.map_path), "--scens", os.path.abspath(scenario.path)]
    words += ["--from", str(agents.first), "--step", str(agents.step), *option("--to", agents.last)]
    words += ["--seconds", seconds_text(limits.seconds), *option("--memory", limits.memory), *limits.options(0).limits()]
    words += ["--resume", "--csv", os.path.join(parts, part)]
    return f"mkdir -p {shlex.quote(parts)} && " + " ".join(shlex.quote(word) for word in words)
