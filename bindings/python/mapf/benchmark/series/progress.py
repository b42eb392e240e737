"""What a series says while it runs."""
from __future__ import annotations

import shutil
import sys
import threading
from typing import List, Sequence

from .rows import Row


class Progress:
    """Says what the program refused; and on a terminal a line for each run, and in the last line how far the series is.

    Several threads may tell it of their runs.
    """

    def __init__(self, scenarios: int, known: Sequence[Row]) -> None:
        """scenarios: how many there are. known: the rows of earlier runs."""
        self._scenarios, self._done = scenarios, 0
        self._runs, self._solved = len(known), sum(row.status == "solved" for row in known)
        self._running: List[str] = []
        self._shown = sys.stderr.isatty()
        self._lock = threading.Lock()

    def begins(self, run: str) -> None:
        """A run begins."""
        with self._lock:
            self._running.append(run)
            self._show([])

    def ends(self, run: str, row: Row, said: str) -> None:
        """A run has ended; `said` is what the program said where it refused or failed."""
        with self._lock:
            self._running.remove(run)
            self._runs += 1
            self._solved += row.status == "solved"
            lines = [f"{run}: {row.status}, {row.seconds:.3f} s"] if self._shown else []
            self._show(lines + ([f"mapf: {run}: {said}"] if said else []))

    def scenario_done(self) -> None:
        """Nothing more is run of a scenario."""
        with self._lock:
            self._done += 1
            self._show([])

    def end(self) -> None:
        """Takes the last line away."""
        with self._lock:
            self._clear()
            self._shown = False

    def _show(self, lines: Sequence[str]) -> None:
        """Writes lines, and below them the last line anew, no wider than the terminal."""
        self._clear()
        for line in lines:
            print(line, file=sys.stderr)
        if self._shown:
            done = f"{self._done} of {self._scenarios} scenarios done, {self._solved} of {self._runs} runs solved"
            last = f"{done}; running {'; '.join(self._running)}" if self._running else done
            sys.stderr.write(last[: shutil.get_terminal_size().columns - 1])
            sys.stderr.flush()

    def _clear(self) -> None:
        if self._shown:
            sys.stderr.write("\r\x1b[K")
            sys.stderr.flush()
