"""The package as users install it: in a virtual environment, another folder, and without PYTHONPATH."""
import glob
import importlib.metadata
import importlib.util
import json
import os
import shutil
import subprocess
import sys
import tempfile
import unittest
import zipfile

import mapf.library
import mapf.program
from support import EXAMPLES, HAS_PROGRAM, ROOT, with_library, with_program

OFFLINE = ("--no-index", "--no-build-isolation", "--no-deps")
PLAN = "plan 2 4\n1,0 1,1 1,0\n0,0 1,0 2,0\n"
CALLS = """
import mapf
grid, scen = {files!r}
answer = mapf.solve(grid, scen)
print(answer.text(), end="")
print(mapf.check(grid, scen, answer).line, mapf.__version__, mapf.version())
print(mapf.library.library_path(), mapf.program.program_path(), sep="\\n")
"""


def lacking():
    """What isn't there that making a wheel and an environment takes; None where all is."""
    for name in ("setuptools", "pip", "ensurepip"):
        if importlib.util.find_spec(name) is None:
            return f"no {name}"
    return None if int(importlib.metadata.version("setuptools").split(".")[0]) >= 61 else "no setuptools of version 61"


def copied(folder, with_built):
    """A checkout in a folder, with or without the built files."""
    shutil.copytree(os.path.join(ROOT, "bindings", "python"), os.path.join(folder, "bindings", "python"), symlinks=True)
    for name in ("bindings/build", "mapf", "crates.txt"):
        shutil.copy2(os.path.join(ROOT, name), os.path.join(folder, name))
    os.makedirs(os.path.join(folder, "crates"))
    library = mapf.library.library_path()
    built = ((library, "bindings/out/libmapf.so"), (library, "bindings/out/libmapf.a"),
             (mapf.program.program_path(), "crates/mapf/out/mapf"))
    for source, name in built if with_built else ():
        os.makedirs(os.path.dirname(os.path.join(folder, name)), exist_ok=True)
        shutil.copy(source, os.path.join(folder, name))


@unittest.skipIf(lacking(), lacking())
class Install(unittest.TestCase):
    @classmethod
    def setUpClass(cls):
        folder = tempfile.TemporaryDirectory()
        cls.addClassCleanup(folder.cleanup)
        cls.environment = os.path.join(folder.name, "environment")
        cls.elsewhere = os.path.join(folder.name, "elsewhere")
        os.mkdir(cls.elsewhere)
        # From Python 3.12 on an environment has no setuptools of its own.
        subprocess.run([sys.executable, "-m", "venv", "--system-site-packages", cls.environment], check=True)

    def setUp(self):
        folder = tempfile.TemporaryDirectory()
        self.addCleanup(folder.cleanup)
        self.folder = folder.name

    def done(self, *words, status=0, **variables):
        """What a command prints in the other folder, without this package's variables."""
        environment = {name: value for name, value in os.environ.items() if not name.startswith(("MAPF_", "PYTHON"))}
        ran = subprocess.run(
            words, cwd=self.elsewhere, env={**environment, **variables}, stdout=subprocess.PIPE, stderr=subprocess.PIPE)
        self.assertEqual(ran.returncode, status, ran.stdout + ran.stderr)
        return ran.stdout.decode()

    def installed(self, path):
        """Installs a wheel or a folder, and answers the environment's Python."""
        python = os.path.join(self.environment, "bin", "python3")
        self.done(python, "-m", "pip", "install", *OFFLINE, "--force-reinstall", path)
        return python

    def works(self, python):
        """Each way to solve and to check, by the installed files alone."""
        files = [os.path.join(EXAMPLES, "bay" + end) for end in (".map", ".scen")]
        version = f"{mapf.__version__} {mapf.__version__}"
        for backend in ("", "library", "program"):
            lines = self.done(python, "-c", CALLS.format(files=files), MAPF_BACKEND=backend)
            self.assertTrue(lines.startswith(f"{PLAN}valid 4 {version}\n"), lines)
            for path in lines.splitlines()[-2:]:
                self.assertTrue(path.startswith(os.path.realpath(self.environment) + os.sep), path)
        script = os.path.join(self.environment, "bin", "mapf")
        self.assertEqual(self.done(script, "--version"), f"mapf {mapf.__version__}\n")
        self.assertEqual(self.done(script, "solve", *files, "--no-following").split("\n")[0], "plan 2 7")
        self.assertEqual(json.loads(self.done(python, "-m", "mapf", "solve", *files, "--json"))["cost"], 4)
        plan = os.path.join(EXAMPLES, "plans", "bay-2.plan")
        judged = self.done(script, "check", "--map", files[0], "--scen", files[1], plan)
        self.assertEqual(json.loads(judged)["line"], "valid 4")

    @with_library
    @with_program
    def test_the_wheel_that_build_makes(self):
        copied(self.folder, with_built=True)
        path = os.path.dirname(sys.executable) + ":" + os.environ["PATH"]
        self.done(os.path.join(self.folder, "bindings", "build"), "--wheel", PATH=path)
        (wheel,) = glob.glob(os.path.join(self.folder, "bindings", "out", "*.whl"))
        self.assertRegex(os.path.basename(wheel), r"^mapf-[0-9]+\.[0-9]+\.[0-9]+[^-]*-py3-none-linux_x86_64\.whl$")
        shutil.rmtree(os.path.join(self.folder, "bindings", "python"))
        self.works(self.installed(wheel))

    @with_library
    @with_program
    def test_the_folder_of_sources(self):
        copied(self.folder, with_built=True)
        before = sorted(os.listdir(os.path.join(self.folder, "bindings", "python")))
        python = self.installed(os.path.join(self.folder, "bindings", "python"))
        self.assertEqual(sorted(os.listdir(os.path.join(self.folder, "bindings", "python"))), before)
        shutil.rmtree(os.path.join(self.folder, "bindings"))
        self.works(python)

    def test_without_built_files(self):
        copied(self.folder, with_built=False)
        sources = os.path.join(self.folder, "bindings", "python")
        self.done(sys.executable, "-m", "pip", "wheel", *OFFLINE, "--wheel-dir", self.folder, sources)
        (wheel,) = glob.glob(os.path.join(self.folder, "mapf-*-py3-none-any.whl"))
        with zipfile.ZipFile(wheel) as contents:
            self.assertFalse([name for name in contents.namelist() if "/built/" in name])
        python = self.installed(wheel)
        call = CALLS.format(files=[os.path.join(EXAMPLES, "bay" + end) for end in (".map", ".scen")])
        self.done(python, "-c", call, status=1)
        if HAS_PROGRAM:
            program = mapf.program.program_path()
            self.assertIn(program, self.done(python, "-c", call, MAPF_PROGRAM=program).split("\n"))
