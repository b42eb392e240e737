"""The files of dist/ have their checksums, and the wheel answers as the program does, where nothing else is installed."""
import glob
import importlib.util
import json
import os
import shutil
import subprocess
import sys
import tempfile
import unittest

from asks import DIST, README, asks, differs
from support import EXAMPLES, with_program

HAS_DIST = os.path.isfile(README)
with_dist = unittest.skipUnless(HAS_DIST, "no dist/: bindings/release makes it")
CALLS = """
import json, mapf, sys
def answered(grid, scen, agents, rule, below, texts):
    grid, scen, texts = (grid.encode("latin-1"), scen.encode("latin-1"), [text.encode() for text in texts])
    plans = [mapf.solve(grid, scen, agents, no_following=rule, **more).text() for more in ({}, {"bound": below})]
    return plans + [[mapf.check(grid, scen, text, agents, rule).line for text in texts]]
print(json.dumps([answered(*one) for one in json.load(sys.stdin)]))
"""


@with_dist
class Checksums(unittest.TestCase):
    def setUp(self):
        folder = tempfile.TemporaryDirectory()
        self.addCleanup(folder.cleanup)
        self.folder = shutil.copytree(DIST, os.path.join(folder.name, "dist"))

    def status(self):
        return subprocess.run(
            ["sha256sum", "-c", "README.md"], cwd=self.folder, stdout=subprocess.DEVNULL, stderr=subprocess.DEVNULL).returncode

    def test_they_fit_and_no_file_lacks_one(self):
        self.assertEqual(self.status(), 0)
        names = [os.path.basename(path) for path in glob.glob(os.path.join(DIST, "*"))]
        with open(README, encoding="utf-8") as file:
            listed = [words[1] for words in map(str.split, file) if len(words) == 2 and len(words[0]) == 64]
        self.assertEqual(sorted([*listed, "README.md"]), sorted(names))
        self.assertEqual(sorted(os.path.splitext(name)[1] for name in listed), [".html", ".whl"])

    def test_others_are_refused(self):
        for path in glob.glob(os.path.join(self.folder, "mapf*")):
            with self.subTest(path), open(path, "r+b") as file:
                byte = file.read(1)
                for put, status in ((bytes([byte[0] ^ 1]), 1), (byte, 0)):
                    file.seek(0)
                    file.write(put)
                    file.flush()
                    self.assertEqual(self.status(), status)


@with_dist
@with_program
@unittest.skipUnless(importlib.util.find_spec("ensurepip"), "no ensurepip")
class Wheel(unittest.TestCase):
    @classmethod
    def setUpClass(cls):
        folder = tempfile.TemporaryDirectory()
        cls.addClassCleanup(folder.cleanup)
        cls.bin, cls.folder = os.path.join(folder.name, "bin"), folder.name
        subprocess.run([sys.executable, "-m", "venv", folder.name], check=True)
        cls.done("pip", "install", "--quiet", "--no-index", "--disable-pip-version-check", *glob.glob(os.path.join(DIST, "*.whl")))

    @classmethod
    def done(cls, name, *words, given=""):
        """What a command of the environment prints, elsewhere and without variables of this checkout."""
        kept = {name: value for name, value in os.environ.items() if not name.startswith(("MAPF_", "PYTHON"))}
        return subprocess.run(
            [os.path.join(cls.bin, name), *words], cwd=cls.folder, env=kept, input=given, check=True,
            stdout=subprocess.PIPE, universal_newlines=True).stdout

    def test_the_command(self):
        files = [os.path.join(EXAMPLES, "bay" + end) for end in (".map", ".scen")]
        self.assertEqual(self.done("mapf", "solve", *files), "plan 2 4\n1,0 1,1 1,0\n0,0 1,0 2,0\n")
        for built in ("mapf.program.program_path()", "mapf.library.library_path()"):
            path = self.done("python3", "-c", f"import mapf.backend; print({built})").rstrip("\n")
            self.assertEqual(os.path.commonpath([path, self.folder]), self.folder)
            self.assertTrue(os.path.isfile(path))
        self.assertTrue(os.access(os.path.join(os.path.dirname(path), "mapf"), os.X_OK))

    def test_the_programs_answers(self):
        given = json.dumps([ask.given() for ask in asks()])
        for ask, answers in zip(asks(), json.loads(self.done("python3", "-c", CALLS, given=given))):
            self.assertEqual(differs(ask, *answers), [], ask)
