"""A run of a program that answers: it can be stopped, has a limit on its time, and tells how far it is."""
from __future__ import annotations

import math
import re
import signal
import subprocess
import sys
import time
from typing import Any, Callable, NamedTuple, Optional, Sequence, Tuple

from .child import Child

TOLD = re.compile(rb"^mapf: ([0-9]+) nodes, no plan costs less than ([0-9]+)\n", re.MULTILINE)
STEP = 0.1

Progress = Callable[[int, int], Any]


class Ended(NamedTuple):
    """How a run ended.

    status: None where its time was over.
    out, err: what it wrote; err is without what it told.
    nodes, lower_bound: what it told last; 0 where it told nothing.
    """

    status: Optional[int]
    out: str
    err: str
    nodes: int
    lower_bound: int


class Told:
    """What a run has told of its search so far; `progress` hears each line of it once."""

    def __init__(self, progress: Optional[Progress]) -> None:
        self.nodes = 0
        self.lower_bound = 0
        self._progress = progress
        self._place = 0

    def said(self) -> Tuple[str, ...]:
        """What a `KeyboardInterrupt` says of it; nothing where it told nothing."""
        line = f"stopped after {self.nodes} nodes: no plan costs less than {self.lower_bound}"
        return (line,) if self._place else ()

    def hear(self, err: bytes) -> None:
        """Reads on in what the run has written."""
        for line in TOLD.finditer(err, self._place):
            self._place = line.end()
            self.nodes, self.lower_bound = int(line.group(1)), max(self.lower_bound, int(line.group(2)))
            if self._progress:
                self._progress(self.nodes, self.lower_bound)


def run(words: Sequence[str], seconds: Optional[float] = None, progress: Optional[Progress] = None) -> Ended:
    """Runs a program until it ends or its time is over.

    Ctrl-C ends it, and is raised here: in the main thread as ever; in another one where the program had it too, as from
    a terminal or a notebook, or where it ended what the main thread did. It says what the program told last.
    """
    end, told, seen = time.monotonic() + (math.inf if seconds is None else seconds), Told(progress), _interrupt()
    with Child(words) as child:
        try:
            out = None
            while out is None:
                left = end - time.monotonic()
                if left <= 0:
                    child.kill()
                out, err = _written(child, min(STEP, left) if left > 0 else STEP)
                told.hear(err)
                if _interrupt() not in (None, seen):
                    raise KeyboardInterrupt
        except BaseException as raised:
            child.kill()
            child.wait()
            if isinstance(raised, KeyboardInterrupt):
                raised.args = told.said()
            raise
    if child.returncode == -signal.SIGINT:
        raise KeyboardInterrupt(*told.said())
    late = child.returncode == -signal.SIGKILL and time.monotonic() >= end
    said = TOLD.sub(b"", err).decode("utf-8", "replace")
    return Ended(None if late else child.returncode, out.decode("utf-8", "replace"), said, told.nodes, told.lower_bound)


def _written(child: Child, seconds: float) -> Tuple[Optional[bytes], bytes]:
    """What it wrote, if it ends in so many seconds; else None, and its errors so far."""
    try:
        return child.communicate(timeout=seconds)
    except subprocess.TimeoutExpired as waited:
        return None, waited.stderr or b""


def _interrupt() -> Optional[KeyboardInterrupt]:
    """The Ctrl-C that ended a script or a cell last, if one did."""
    last = getattr(sys, "last_value", None)
    return last if isinstance(last, KeyboardInterrupt) else None
