"""The package's two rooms: calls of the program, and the benchmark, which imports them and is imported by none of them."""
import glob
import os
import re
import subprocess
import sys
import unittest

from support import PACKAGE, command

MAPF = os.path.join(PACKAGE, "mapf")


class Rooms(unittest.TestCase):
    def test_calls_import_nothing_of_the_benchmark(self):
        """No line of code has the word, but for the one that names the commands."""
        lines = []
        for path in glob.glob(os.path.join(MAPF, "**", "*.py"), recursive=True):
            name = os.path.relpath(path, MAPF)
            with open(path, encoding="utf-8") as file:
                found = [line for line in file if re.match(r"[^#]*\bbenchmark\b", line)]
            lines += [(name, line) for line in found if not name.startswith("benchmark" + os.sep)]
        ((name, line),) = lines
        self.assertEqual(name, os.path.join("commands", "__init__.py"))
        self.assertTrue(line.startswith("COMMANDS = ("), line)

    def test_calls_load_nothing_of_the_benchmark(self):
        names = "mapf", "mapf.commands", "mapf.commands.check", "mapf.commands.solve", "mapf.commands.show"
        said = f"import sys, {', '.join(names)}; print([name for name in sys.modules if 'benchmark' in name])"
        environment = {**os.environ, "PYTHONPATH": PACKAGE}
        out = subprocess.run([sys.executable, "-c", said], env=environment, stdout=subprocess.PIPE, check=True).stdout
        self.assertEqual(out, b"[]\n")

    def test_the_commands_of_both(self):
        status, out, _ = command("--help")
        self.assertEqual(status, 0)
        for name in ("solve", "convert", "check", "show", "score", "series"):
            self.assertRegex(out, rf"\n    {name} +[a-z]")
            self.assertEqual(command(name, "--help")[0], 0)
