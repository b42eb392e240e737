"""Commands whose output can't be written."""
import os
import subprocess
import sys
import unittest

from support import EXAMPLES, PACKAGE

PLAN = os.path.join(EXAMPLES, "plans", "bay-2.plan")


class Streams(unittest.TestCase):
    def ran(self, redirected):
        """The status and the errors of a conversion."""
        words = [sys.executable, "-m", "mapf", "convert", PLAN]
        environment = {**os.environ, "PYTHONPATH": PACKAGE}
        done = subprocess.run(["sh", "-c", f'"$@" {redirected}', "sh", *words], env=environment, stderr=subprocess.PIPE)
        return done.returncode, done.stderr.decode()

    def test_no_output(self):
        self.assertEqual(self.ran(">&-"), (5, "mapf: standard output is closed\n"))

    def test_no_room(self):
        self.assertEqual(self.ran(">/dev/full"), (5, "mapf: [Errno 28] No space left on device\n"))

    def test_no_errors(self):
        self.assertEqual(self.ran(">/dev/null 2>&-"), (0, ""))
