"""Runs of the program and of the plain ones, for the scripts that time them: docs/BENCHMARK.md.

From the environment: RUNS, of how many runs a time is the middle one (3); QUICK, one small row alone, to see that a script
works.
"""
import os
import shutil
import subprocess
import sys
import tempfile
import threading
import time

HERE = os.path.dirname(os.path.abspath(__file__))
QUICK = "QUICK" in os.environ
RUNS = 1 if QUICK else int(os.environ.get("RUNS", "3"))
WORKERS = (1, 2, 4)


def measured(words, most=None):
    """The milliseconds and the greatest resident memory, in MB, of a run; and its output, which is None where the run was
    ended since it took more than so many seconds."""
    begin = time.monotonic()
    process = subprocess.Popen(words, stdout=subprocess.PIPE)
    end = threading.Timer(most, process.kill) if most else None
    if end:
        end.start()
    text = process.stdout.read().decode()
    _, status, usage = os.wait4(process.pid, 0)
    taken = (time.monotonic() - begin) * 1000
    if end:
        end.cancel()
    return taken, usage.ru_maxrss / 1024, None if os.WIFSIGNALED(status) else text


def solved(solver, name, agents, workers, bound=1000000, nodes=None, most=None):
    """A run of the solver on an instance."""
    words = [solver, "solve", "--map", name + ".map", "--scen", name + ".scen", "--agents", str(agents)]
    words += ["--bound", str(bound), "--workers", str(workers)]
    return measured(words + (["--nodes", str(nodes)] if nodes else []), most)


def middle(numbers):
    return sorted(numbers)[len(numbers) // 2]


def row(*columns):
    print("| " + " | ".join(str(column) for column in columns) + " |", flush=True)


def head(*columns):
    row(*columns)
    print("|" + "---|" * len(columns), flush=True)


def program(given):
    """The program that is to be timed: the one that was given, or else that of ./mapf, which is built first."""
    if given:
        return given[0]
    if subprocess.run([os.path.join(HERE, "..", "mapf"), "--help"], stdout=subprocess.DEVNULL).returncode != 0:
        sys.exit("the program was not built")
    return os.path.join(HERE, "..", "crates", "mapf", "out", "mapf")


def with_instances(work, *kinds):
    """Calls `work` with the program that is to be timed and a folder of these kinds of instances, which goes afterwards."""
    solver = program(sys.argv[1:])
    with tempfile.TemporaryDirectory() as folder:
        subprocess.run([sys.executable, os.path.join(HERE, "instances.py"), folder, *kinds], check=True)
        work(solver, folder)


def plain_programs(folder):
    """The plain pass and the plain check, built in the folder; none where there is no C compiler."""
    if not shutil.which("cc"):
        return None
    peers = []
    for name in ("plain_distances", "plain_check"):
        peers.append(os.path.join(folder, name))
        subprocess.run(["cc", "-O2", "-o", peers[-1], os.path.join(HERE, name + ".c")], check=True)
    return peers


def plain(peer, name, agents):
    """The plain pass on an instance: milliseconds of reading and of the tables, and its memory."""
    _, memory, text = measured([peer, name + ".map", name + ".scen", str(agents)])
    reading, tables, _, _ = text.split()
    return int(reading) / 1000, int(tables) / 1000, memory
