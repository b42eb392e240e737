"""Runs all tests of dist/: `python3 tests/dist`. The last line is `N passed, M failed`."""
import os
import sys

HERE = os.path.dirname(os.path.realpath(__file__))
BINDINGS = os.path.join(HERE, "..", "..", "bindings")
sys.path[:0] = [HERE, *(os.path.join(BINDINGS, part) for part in ("page/tests", "python/tests", "python"))]

if __name__ == "__main__":
    from runner import run
    sys.exit(run(HERE, "dist"))
