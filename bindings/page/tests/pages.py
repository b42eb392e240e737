"""What the tests of the page share: a browser, the page with the module in it, and what it shows."""
import os
import shutil
import subprocess
import tempfile
import time
import unittest

from browser import DEADLINE, Browser
from support import ROOT, backends, written

PAGE = os.path.join(ROOT, "bindings", "out", "mapf.html")
SETTLED = "engine.answer === null && !state.solving"


class PageTest(unittest.TestCase):
    """Tests with one browser. files: how many were chosen."""

    files = 0

    @classmethod
    def setUpClass(cls):
        cls.folder = tempfile.mkdtemp(prefix="mapf-page-")
        cls.addClassCleanup(shutil.rmtree, cls.folder)
        cls.browser = Browser()
        cls.addClassCleanup(cls.browser.close)

    def tearDown(self):
        self.assertEqual(self.browser.complaints(), [])

    def load(self, **contents):
        """Chooses files (`map`, `scen`, `plan`), one behind the other."""
        for kind, text in contents.items():
            PageTest.files += 1
            path = written(self.folder, f"{PageTest.files}.{kind}", text)
            self.browser.choose(f"#file-{kind}", path)
            self.browser.until(f"$('name-{kind}').textContent === '{PageTest.files}.{kind}' && {SETTLED}")

    def saved(self, name):
        """What the browser saved in a file."""
        path, ends = os.path.join(self.browser.folder, name), time.monotonic() + DEADLINE
        while not os.path.exists(path) and time.monotonic() < ends:
            time.sleep(0.05)
        with open(path, "rb") as file:
            return file.read()

    def note(self):
        """What is said below the verdict's line."""
        return self.browser.value("$('note').textContent")

    def enter(self, field, number):
        """Enters a number in a field, as a reader does."""
        self.browser.value(f"$('{field}').value = '{number}', $('{field}').dispatchEvent(new Event('change'))")
        self.browser.until(SETTLED)

    def shown(self):
        """The verdict's title and line."""
        self.browser.until(SETTLED)
        return tuple(self.browser.value("[$('title').textContent, $('line').textContent]"))

    def painted(self):
        """Waits until what changed is painted."""
        self.browser.value("new Promise((seen) => requestAnimationFrame(() => requestAnimationFrame(() => seen(1))))")

    def pixel(self, x, y):
        """The colour of the picture at a point, in cells."""
        self.painted()
        return self.browser.value(
            f"(() => {{ const [x, y] = onScreen({x}, {y}).map(Math.round); "
            "return `rgb(${[...pen.getImageData(x, y, 1, 1).data].slice(0, 3).join(', ')})`; })()")

    def hue(self, agent=0):
        """The colour of an agent."""
        return self.browser.value(f"getComputedStyle($('agents').children[{agent}].firstChild).backgroundColor")


def program_check(grid, scen, plan, agents, rule=False):
    """The status and the line of the program."""
    status, line = _program("check", {"map": grid, "scen": scen, "plan": plan}, agents, rule)
    return status, line.rstrip("\n")


def program_solve(grid, scen, agents, bound=1_000_000, nodes=None, rule=False, any_optimum=False):
    """The status and the text of the program."""
    limit = (["--nodes", str(nodes)] if nodes else []) + (["--any-optimum"] if any_optimum else [])
    return _program("solve", {"map": grid, "scen": scen}, agents, rule, "--bound", str(bound), "--workers", "1", *limit)


def _program(command, files, agents, rule, *words):
    with tempfile.TemporaryDirectory() as folder:
        paths = [f"--{kind}={written(folder, kind, contents)}" for kind, contents in files.items()]
        following = ["--no-following"] if rule else []
        words = [backends()[0].path, command, *paths, "--agents", str(agents), *words, *following]
        done = subprocess.run(words, stdin=subprocess.DEVNULL, stdout=subprocess.PIPE, stderr=subprocess.PIPE)
    said = done.stdout or done.stderr
    return done.returncode, said.decode("ascii").replace("mapf: ", "", 1)
