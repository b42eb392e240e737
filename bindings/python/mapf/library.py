"""The backend libmapf.so, by ctypes. This file alone states the types of its functions; bindings/c/mapf.h has them in C."""
from __future__ import annotations

import ctypes
import json
import os
import signal
import sys
from typing import Any, List, Optional, Tuple

from ._input import Input, read_input
from .faults import BackendFailure, NotBuilt
from .options import MOST_AGENTS, MOST_BOUND, MOST_NODES, MOST_WORKERS, Options
from .program import ANSWERED, built, run_on
from .run import Ended, Progress

HERE = os.path.dirname(os.path.realpath(__file__))
REFUSED = 3
NO_MEMORY = 4
GAVE_UP = 6
TOO_SHORT = 7
VERDICT_ROOM = 512
CHILD = "import sys; sys.path.insert(0, sys.argv[1]); from mapf.library import answer; sys.exit(answer(*sys.argv[2:]))"

BYTES, LENGTH, NUMBER, FLAG = ctypes.c_char_p, ctypes.c_size_t, ctypes.c_uint64, ctypes.c_uint8
OUT = (ctypes.c_char_p, ctypes.c_size_t, ctypes.POINTER(ctypes.c_uint64))
SOLVING = (BYTES, LENGTH, BYTES, LENGTH, NUMBER, NUMBER, NUMBER, FLAG, *OUT)
ARGUMENTS = {
    "mapf_solve": SOLVING,
    "mapf_solve_any": SOLVING,
    "mapf_check": (BYTES, LENGTH, BYTES, LENGTH, BYTES, LENGTH, NUMBER, FLAG, *OUT),
    "mapf_version": OUT,
}


def library_path() -> str:
    """Where the library is: MAPF_LIBRARY of the environment, or where bindings/build leaves it."""
    return os.environ.get("MAPF_LIBRARY") or built("libmapf.so", "bindings", "out")


class Library:
    """Calls of the library, which can be made by several threads."""

    name = "library"

    def __init__(self, path: Optional[str] = None) -> None:
        self.path = path or library_path()
        if not os.path.isfile(self.path):
            raise NotBuilt(f"no library {self.path}: bindings/build makes it")
        self._functions = ctypes.CDLL(self.path)
        for name, arguments in ARGUMENTS.items():
            function = getattr(self._functions, name, None)
            if function:
                function.argtypes, function.restype = arguments, ctypes.c_int32

    def solve(
        self, map_file: Input, scen_file: Input, options: Options, seconds: Optional[float] = None,
        progress: Optional[Progress] = None,
    ) -> Ended:
        """How the search ended, as by a `Program`: in a Python of its own, since nothing stops a call here.

        A limit on memory is one of that Python, too, which ends in other ways where it has too little.
        """
        self._solver(options)
        words = [*options.around(), sys.executable, "-S", "-E", "-c", CHILD, os.path.dirname(HERE), self.path, json.dumps(options)]
        telling = seconds is not None or progress is not None
        try:
            return run_on([*words, "telling" if telling else ""], [map_file, scen_file], seconds, progress)
        except BackendFailure:
            if options.memory is None:
                raise
            return Ended(NO_MEMORY, "43 no memory\n", "", 0, 0)

    def solve_here(self, map_file: Input, scen_file: Input, options: Options) -> Tuple[int, str]:
        """The status, and the answer's text or the refusal's line, by a call that nothing stops."""
        if options.bound <= MOST_BOUND and not 1 <= options.workers <= MOST_WORKERS:
            return REFUSED, "42 workers\n"
        room = 65_536 + 4_096 * min(options.agents, MOST_AGENTS)
        numbers = (options.agents, options.bound, options.nodes or 0, options.no_following)
        return self._call(self._solver(options), room, *_slice(map_file), *_slice(scen_file), *numbers)

    def check(
        self, map_file: Input, scen_file: Input, plan: Input, agents: int, no_following: bool
    ) -> Tuple[int, str]:
        """The status, and the verdict's or the refusal's line."""
        return self._call(
            "mapf_check", VERDICT_ROOM, *_slice(map_file), *_slice(scen_file), *_slice(plan), agents, no_following)

    def version(self) -> str:
        """The version that the library states."""
        return self._call("mapf_version", VERDICT_ROOM)[1].rstrip("\n")

    def _solver(self, options: Options) -> str:
        """The function that solves; an older library has one alone."""
        name = "mapf_solve_any" if options.any_optimum else "mapf_solve"
        if not hasattr(self._functions, name):
            raise NotBuilt(f"the library {self.path} is older and has no {name}: bindings/build makes a new one")
        return name

    def _call(self, name: str, room: int, *arguments: Any) -> Tuple[int, str]:
        """Calls a function, once more with as much room as its text needs where it had too little."""
        function, needed = getattr(self._functions, name), ctypes.c_uint64()
        while True:
            out = ctypes.create_string_buffer(room)
            status = function(*arguments, out, room, ctypes.byref(needed))
            if status != TOO_SHORT:
                return status, ctypes.string_at(out, needed.value).decode("ascii")
            if needed.value <= room:
                raise BackendFailure(f"{name} found {room} bytes too few for {needed.value}")
            room = needed.value


def answer(path: str, options: str, telling: str, *named: str) -> int:
    """What a child of `Library.solve` does: it answers as the program does, by its status and its two outputs."""
    signal.signal(signal.SIGINT, signal.SIG_DFL)
    map_file, scen_file = (read_input(kind, word.split("=", 1)[1]) for kind, word in zip(("map", "scenario"), named))
    limits = [10**power for power in range(7)] if telling else []
    status, text = _searched(Library(path), map_file, scen_file, Options(*json.loads(options)), limits)
    if status in ANSWERED:
        sys.stdout.write(text)
    else:
        sys.stderr.write(f"mapf: {text}")
    return status


def _searched(
    library: Library, map_file: Input, scen_file: Input, options: Options, limits: List[int]
) -> Tuple[int, str]:
    """Searches, first with ever more nodes, and tells after each such search what it found."""
    for limit in limits:
        if options.nodes is not None and not limit < options.nodes <= MOST_NODES:
            break
        status, text = library.solve_here(map_file, scen_file, options._replace(nodes=limit))
        if status != GAVE_UP:
            return status, text
        print("mapf: {2} nodes, no plan costs less than {3}".format(*text.split()), file=sys.stderr, flush=True)
    return library.solve_here(map_file, scen_file, options)


def _slice(given: Input) -> Tuple[bytes, int]:
    return given.contents, len(given.contents)
