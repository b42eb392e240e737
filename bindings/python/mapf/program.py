"""The backend crates/mapf/out/mapf: the built program, started for each call."""
from __future__ import annotations

import os
import subprocess
from contextlib import ExitStack
from typing import Optional, Sequence, Tuple

from ._input import Input
from .faults import BackendFailure, NotBuilt
from .options import Options
from .run import Ended, Progress, run

HERE = os.path.dirname(os.path.realpath(__file__))
ANSWERED = (0, 1, 6)
REFUSED = (3, 4, 5)


def built(name: str, *in_checkout: str) -> str:
    """Where a built file is: in a package that was installed with it, else at its place in the checkout."""
    installed = os.path.join(HERE, "built", name)
    return installed if os.path.isfile(installed) else os.path.normpath(os.path.join(HERE, "../../..", *in_checkout, name))


def program_path() -> str:
    """Where the program is: MAPF_PROGRAM of the environment, or where ./mapf leaves it."""
    return os.environ.get("MAPF_PROGRAM") or built("mapf", "crates", "mapf", "out")


class Program:
    """Runs of the program."""

    name = "program"

    def __init__(self, path: Optional[str] = None) -> None:
        self.path = path or program_path()
        if not os.access(self.path, os.X_OK):
            raise NotBuilt(f"no program {self.path}: ./mapf --version builds it")
        if os.fsencode(self.path).decode("utf-8", "replace") != self.path:
            raise NotBuilt(f"the program's path {self.path} isn't UTF-8, as its words are: name a copy by MAPF_PROGRAM")

    def solve(
        self, map_file: Input, scen_file: Input, options: Options, seconds: Optional[float] = None,
        progress: Optional[Progress] = None,
    ) -> Ended:
        """How the run ended: with the answer's text, or the refusal's line without `mapf: `, as `out`."""
        telling = [] if seconds is None and progress is None else ["--progress"]
        words = [*options.around(), self.path, "solve", *options.words(), *telling]
        return run_on(words, [map_file, scen_file], seconds, progress)

    def check(
        self, map_file: Input, scen_file: Input, plan: Input, agents: int, no_following: bool
    ) -> Tuple[int, str]:
        """The status, and the verdict's or the refusal's line."""
        words = [self.path, "check", "--agents", str(agents)] + (["--no-following"] if no_following else [])
        ended = run_on(words, [map_file, scen_file, plan])
        return ended.status or 0, ended.out

    def version(self) -> str:
        """The version that the program states."""
        done = subprocess.run([self.path, "--version"], stdout=subprocess.PIPE, check=True)
        return done.stdout.decode("ascii").split()[-1]


def run_on(
    words: Sequence[str], files: Sequence[Input], seconds: Optional[float] = None, progress: Optional[Progress] = None
) -> Ended:
    """Runs a command on a map, a scenario and a plan, and answers its text or, without `mapf: `, its refusal's line."""
    with ExitStack() as stack:
        paths = [stack.enter_context(given.file()) for given in files]
        named = [f"--{kind}={path}" for kind, path in zip(("map", "scen", "plan"), paths)]
        ended = run([*words, *named], seconds, progress)
    if ended.status is None or ended.status in ANSWERED and ended.out:
        return ended
    if ended.status in REFUSED and ended.err.startswith("mapf: "):
        return ended._replace(out=ended.err[len("mapf: "):])
    raise BackendFailure(f"{' '.join([*words, *named])} ended with status {ended.status}: {ended.err[:400]}")
