"""Runs of the program with a limit on their time."""
from __future__ import annotations

import re
import subprocess
import threading
import time
from contextlib import suppress
from typing import Dict, List, NamedTuple, Optional, Set, Tuple

from ..._input import utf8_path
from ...child import Child
from ...program import Program
from ...scenarios import Scenario
from .limits import Limits
from .rows import Row

PLAN = re.compile(rb"plan [0-9]+ ([0-9]+)\n")
NONE = re.compile(rb"none ([0-9]+)\n")
GAVE_UP = re.compile(rb"gave up ([0-9]+) ([0-9]+)\n")
PROGRESS = re.compile(rb"^mapf: ([0-9]+) nodes, no plan costs less than ([0-9]+)$", re.MULTILINE)
STATUSES = {0: "solved", 1: "none", 3: "refused", 4: "out_of_memory", 6: "gave_up"}


class Ended(NamedTuple):
    """How a run ended; the status is None where it was ended for its time."""

    status: Optional[int]
    out: bytes
    err: bytes
    seconds: float


class Runner:
    """Runs the program; `stop`, from any thread, ends all runs, whose rows are then lost."""

    def __init__(self, limits: Limits) -> None:
        self.limits = limits
        self.stopped = False
        self._program = Program()
        self._running: Set[subprocess.Popen] = set()
        self._lock = threading.Lock()
        self._tells = b"--progress" in subprocess.run([self._program.path, "solve", "--help"], stdout=subprocess.PIPE).stdout

    def run(self, scenario: Scenario, agents: int) -> Optional[Tuple[Row, str]]:
        """The row of a run, and what the program said if it refused or failed; None where it was stopped."""
        with utf8_path("map", scenario.map_path) as grid, utf8_path("scenario", scenario.path) as scen:
            ended = self._ended(self._words(grid, scen, agents))
        if ended is None:
            return None
        row = row_of(ended, scenario, agents)
        return row, _said(ended) if row.status in ("refused", "failed") else ""

    def columns(self) -> Dict[str, str]:
        """What each row says of the ask."""
        return self.limits.columns(self._program.version())

    def stop(self) -> None:
        """Ends all runs, and lets none begin."""
        with self._lock:
            self.stopped = True
            for process in self._running:
                with suppress(ProcessLookupError):
                    process.kill()

    def _words(self, grid: str, scen: str, agents: int) -> List[str]:
        options = self.limits.options(agents)
        words = [*options.around(), self._program.path, "solve", f"--map={grid}", f"--scen={scen}", *options.words()]
        return words + (["--progress"] if self._tells else [])

    def _ended(self, words: List[str]) -> Optional[Ended]:
        """Runs it in a session of its own, so that Ctrl-C reaches this program alone, which then stops it."""
        begin = time.monotonic()
        with self._lock:
            if self.stopped:
                return None
            process = Child(words, start_new_session=True)
            self._running.add(process)
        in_time = True
        try:
            out, err = process.communicate(timeout=self.limits.seconds)
        except subprocess.TimeoutExpired:
            in_time = False
            process.kill()
            out, err = process.communicate()
        seconds = time.monotonic() - begin
        with self._lock:
            self._running.discard(process)
            return None if self.stopped else Ended(process.returncode if in_time else None, out, err, seconds)


def row_of(ended: Ended, scenario: Scenario, agents: int) -> Row:
    """The row of a run that has ended."""
    plan, none, gave_up = PLAN.match(ended.out), NONE.match(ended.out), GAVE_UP.match(ended.out)
    told = PROGRESS.findall(ended.err)
    nodes, lower_bound = (int(told[-1][0]), int(told[-1][1])) if told else (None, None)
    status, cost = _status(ended), None
    if status == "solved" and plan:
        cost, lower_bound = int(plan.group(1)), None
    elif status == "none" and none:
        lower_bound = int(none.group(1)) + 1
    elif status == "gave_up" and gave_up:
        nodes, lower_bound = int(gave_up.group(1)), int(gave_up.group(2))
    elif status in ("solved", "none", "gave_up"):
        status = "failed"
    return Row(scenario.map_name, scenario.name, agents, status, cost, lower_bound, nodes, ended.seconds)


def _status(ended: Ended) -> str:
    return "out_of_time" if ended.status is None else STATUSES.get(ended.status, "failed")


def _said(ended: Ended) -> str:
    lines = ended.err.decode("utf-8", "replace").strip().split("\n")
    return f"status {ended.status}, {lines[-1]}"
