"""Ctrl-C, limits on time and killed parents: no search goes on behind them. All by real processes and signals."""
import contextlib
import glob
import os
import re
import signal
import subprocess
import sys
import tempfile
import time
import unittest
from unittest import mock

from support import PACKAGE, backends, map_of, process, scen_of, with_program, written

WAIT = 300
TRIES = 20
SOON = 0.5
STOPPED = "stopped after [0-9]+ nodes: no plan costs less than ([0-9]+)"
# Two agents in a corridor have to change places: the search has no end.
ENDLESS = map_of("." * 9), scen_of(9, 1, (0, 0, 8, 0), (8, 0, 0, 0), name="a.map")
IN_MAIN = "solve()"
COMMAND = """
from mapf.__main__ import start
sys.argv[1:] = ["solve", folder + "/a.map", folder + "/a.scen", "--progress"]
sys.stderr = told
sys.exit(start())
"""
IN_THREAD = "begin(solve).join()"
CAUGHT = """
try:
    begin(solve)
    ended.wait()
except KeyboardInterrupt:
    ended.wait()
    print("caught", flush=True)
"""
# As a kernel does: it runs a cell beside another thread, shows what was raised, and goes on.
CELLS = """
import code
begin(time.sleep, 1000)
code.InteractiveInterpreter(globals()).runcode({cell!r})
ended.wait()
print("next", flush=True)
"""
SCRIPT = """
import sys, threading, time, mapf
folder = {folder!r}
told = open(folder + "/told", "w")
ended = threading.Event()
def solve():
    try:
        mapf.solve(folder + "/a.map", folder + "/a.scen", progress=lambda *words: print(words, file=told, flush=True))
    finally:
        ended.set()
def begin(call, *words):
    thread = threading.Thread(target=call, args=words, daemon=True)
    thread.start()
    return thread
{code}
"""


class Stopping(unittest.TestCase):
    def setUp(self):
        folder = tempfile.TemporaryDirectory()
        self.addCleanup(folder.cleanup)
        self.folder = folder.name
        for name, contents in zip(("a.map", "a.scen"), ENDLESS):
            written(self.folder, name, contents)

    def goes_on(self):
        """The words of the processes that have this folder among theirs; one that has ended has none."""
        found = []
        for path in glob.glob("/proc/[0-9]*/cmdline"):
            with contextlib.suppress(OSError), open(path, "rb") as file:
                found.append(file.read())
        return [words for words in found if self.folder.encode() in words]

    def searching(self):
        """Whether a search has begun: there is the process that asked for it, and one that is past its gate."""
        return sum(b"read -r go" not in words for words in self.goes_on()) == 2

    def until(self, condition):
        end = time.monotonic() + WAIT
        while not condition():
            self.assertLess(time.monotonic(), end, "it never comes")
            time.sleep(0.01)

    def started(self, script, backend):
        """A process that runs the script."""
        environment = {**os.environ, "PYTHONPATH": PACKAGE, "MAPF_BACKEND": backend}
        running = subprocess.Popen(
            [sys.executable, "-c", SCRIPT.format(folder=self.folder, code=script)], env=environment, cwd=self.folder,
            stdout=subprocess.PIPE, stderr=subprocess.PIPE, start_new_session=True)
        self.addCleanup(running.kill)
        return running

    def begun(self, script, backend, lines=1):
        """A process that runs the script, once its search has told so many lines of itself."""
        running, told = self.started(script, backend), os.path.join(self.folder, "told")

        def heard():
            with open(told) as file:
                return file.read().count("\n")
        self.until(lambda: running.poll() is not None or os.path.exists(told) and heard() >= lines)
        os.remove(told)
        return running

    def interrupted(self, script, backend, send=os.kill, lines=1):
        """The status and what was printed after Ctrl-C; of some tries the first that ended soon, or else the last."""
        for _ in range(TRIES):
            running = self.begun(script, backend, lines)
            begin = time.monotonic()
            send(running.pid, signal.SIGINT)
            out, err = running.communicate(timeout=WAIT)
            seconds = time.monotonic() - begin
            self.until(lambda: not self.goes_on())
            if seconds < SOON:
                break
        self.assertLess(seconds, SOON)
        return running.returncode, out.decode(), err.decode()

    def each(self):
        for backend in backends():
            with self.subTest(backend.name):
                yield backend.name


@unittest.skipUnless(backends(), "neither library nor program is built")
class CtrlC(Stopping):
    def test_in_the_main_thread(self):
        for backend in self.each():
            status, _, err = self.interrupted(IN_MAIN, backend)
            self.assertEqual(status, -signal.SIGINT)
            self.assertRegex(err.splitlines()[-1], rf"\AKeyboardInterrupt: {STOPPED}\Z")

    def test_in_a_second_thread(self):
        for backend in self.each():
            status, _, err = self.interrupted(IN_THREAD, backend)
            self.assertEqual(status, -signal.SIGINT)
            self.assertIn("KeyboardInterrupt", err)

    def test_in_the_cell_of_a_kernel(self):
        for backend in self.each():
            for cell in (IN_MAIN, IN_THREAD):
                _, out, err = self.interrupted(CELLS.format(cell=cell), backend)
                self.assertEqual(out, "next\n")
                self.assertIn("KeyboardInterrupt", err)

    def test_from_a_terminal_in_a_second_thread(self):
        for backend in self.each():
            # The library's fifth line is of 10,000 nodes, and its next call takes seconds.
            lines = 5 if backend == "library" else 1
            self.assertEqual(self.interrupted(CAUGHT, backend, os.killpg, lines)[:2], (0, "caught\n"))

    def test_the_command(self):
        for backend in self.each():
            self.assertEqual(self.interrupted(COMMAND, backend), (130, "", ""))

    def test_the_command_says_the_last_bound(self):
        words = [os.path.join(self.folder, name) for name in ("a.map", "a.scen")]
        for backend in self.each():
            with mock.patch.dict(os.environ, {"MAPF_BACKEND": backend}):
                running = process("solve", *words, stdout=subprocess.PIPE, stderr=subprocess.PIPE)
            self.addCleanup(running.kill)
            self.until(lambda: running.poll() is not None or self.searching())
            time.sleep(3)
            running.send_signal(signal.SIGINT)
            out, err = running.communicate(timeout=WAIT)
            self.assertEqual((running.returncode, out), (130, b""))
            bound = re.fullmatch(rf"mapf: {STOPPED}\n", err.decode())
            self.assertTrue(bound, err)
            self.assertGreaterEqual(int(bound.group(1)), 16)


@unittest.skipUnless(backends(), "neither library nor program is built")
class KilledParents(Stopping):
    SIGNALS = (signal.SIGHUP, signal.SIGTERM, signal.SIGQUIT, signal.SIGKILL)

    def killed(self, running, number):
        running.send_signal(number)
        running.communicate(timeout=WAIT)
        self.assertNotEqual(running.returncode, 0)
        self.until(lambda: not self.goes_on())

    def test_python(self):
        for backend in self.each():
            for number, script in zip(self.SIGNALS, (IN_MAIN, IN_THREAD, IN_MAIN, IN_THREAD)):
                self.killed(self.begun(script, backend), number)

    def test_python_that_is_killed_before_its_child_is_tied_to_it(self):
        running = self.started("import fcntl, os\nfcntl.fcntl = lambda *_: os.kill(os.getpid(), 9)\nsolve()", "")
        running.communicate(timeout=WAIT)
        self.assertEqual(running.returncode, -signal.SIGKILL)
        self.until(lambda: not self.goes_on())

    def test_python_that_is_killed_at_any_time(self):
        begin = time.monotonic()
        self.killed(self.begun(IN_MAIN, ""), signal.SIGKILL)
        seconds = time.monotonic() - begin
        for tenth in range(1, 13):
            running = self.started(IN_MAIN, "")
            time.sleep(seconds * tenth / 10)
            self.killed(running, signal.SIGKILL)

    @with_program
    def test_series(self):
        for number in self.SIGNALS:
            with self.subTest(number):
                csv = os.path.join(self.folder, f"{int(number)}.csv")
                running = process(
                    "series", "--maps", self.folder, "--scens", self.folder, "--from", 2, "--seconds", 1000,
                    "--csv", csv, cwd=self.folder, stderr=subprocess.PIPE)
                self.addCleanup(running.kill)
                self.until(lambda: running.poll() is not None or self.searching())
                self.killed(running, number)
