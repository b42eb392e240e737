"""What the tests share: small instances, the backends, and the command line."""
import io
import os
import random
import signal
import subprocess
import sys
import unittest
from contextlib import redirect_stderr, redirect_stdout

import mapf.library
import mapf.program
from mapf.commands import main

ROOT = os.path.normpath(os.path.join(os.path.dirname(os.path.realpath(__file__)), "..", "..", ".."))
EXAMPLES = os.path.join(ROOT, "examples")
PACKAGE = os.path.join(ROOT, "bindings", "python")
HAS_LIBRARY = os.path.isfile(mapf.library.library_path())
HAS_PROGRAM = os.access(mapf.program.program_path(), os.X_OK)

# nohup, and a shell's `&`, start programs that ignore these, as all would that the tests start.
for _number in (signal.SIGHUP, signal.SIGINT, signal.SIGQUIT):
    if signal.getsignal(_number) is signal.SIG_IGN:
        signal.signal(_number, signal.default_int_handler if _number == signal.SIGINT else signal.SIG_DFL)

with_program = unittest.skipUnless(HAS_PROGRAM, "no program: ./mapf --version builds it")
with_library = unittest.skipUnless(HAS_LIBRARY, "no library: bindings/build makes it")


def backends():
    """Those that are built."""
    return ([mapf.program.Program()] if HAS_PROGRAM else []) + ([mapf.library.Library()] if HAS_LIBRARY else [])


def map_of(rows):
    """A map's bytes; rows are parted by spaces."""
    rows = rows.split()
    return "\n".join(["type octile", f"height {len(rows)}", f"width {len(rows[0])}", "map", *rows, ""]).encode()


def scen_of(width, height, *agents, name="map.map"):
    """A scenario's bytes; an agent is its start's x and y, and its goal's."""
    rows = [f"0\t{name}\t{width}\t{height}\t" + "\t".join(str(number) for number in agent) + "\t0" for agent in agents]
    return "\n".join(["version 1", *rows, ""]).encode()


BAY = map_of("... @.@"), scen_of(3, 2, (1, 0, 1, 0), (0, 0, 2, 0))
CROSSING = map_of("... ... ..."), scen_of(3, 3, (1, 0, 1, 2), (0, 1, 2, 1))
LINE = map_of("..."), scen_of(3, 1, (0, 0, 2, 0))
RING = map_of(".. .."), scen_of(2, 2, (0, 0, 1, 0), (1, 0, 1, 1), (1, 1, 0, 1), (0, 1, 0, 0))


def small_instances(count, seed):
    """So many instances of 1 to 4 agents on maps of up to 6 by 6: the map, the scenario and the number of agents."""
    draw = random.Random(seed)
    while count:
        width, height = draw.randint(1, 6), draw.randint(1, 6)
        rows = ["".join(draw.choice("....@") for _ in range(width)) for _ in range(height)]
        free = [(x, y) for y in range(height) for x in range(width) if rows[y][x] == "."]
        agents = draw.randint(1, 4)
        if len(free) >= agents:
            starts, goals = draw.sample(free, agents), draw.sample(free, agents)
            yield map_of(" ".join(rows)), scen_of(width, height, *(s + g for s, g in zip(starts, goals))), agents
            count -= 1


def command(*words):
    """The status, the output and the errors of `python3 -m mapf` with these words, in this process."""
    out, err = io.StringIO(), io.StringIO()
    with redirect_stdout(out), redirect_stderr(err):
        try:
            status = main([str(word) for word in words])
        except SystemExit as stopped:
            status = stopped.code
    return status, out.getvalue(), err.getvalue()


def process(*words, **options):
    """`python3 -m mapf` as a process of its own."""
    environment = {**os.environ, "PYTHONPATH": PACKAGE}
    return subprocess.Popen([sys.executable, "-m", "mapf", *(str(word) for word in words)], env=environment, **options)


def written(folder, name, contents):
    """The path of a file with these contents."""
    path = os.path.join(folder, name)
    os.makedirs(os.path.dirname(path), exist_ok=True)
    with open(path, "wb") as file:
        file.write(contents.encode() if isinstance(contents, str) else contents)
    return path
