"""Runs all tests of the page: `python3 bindings/page/tests`. The last line is `N passed, M failed`."""
import os
import sys

HERE = os.path.dirname(os.path.realpath(__file__))
PYTHON = os.path.join(HERE, "..", "..", "python")
sys.path[:0] = [HERE, os.path.join(PYTHON, "tests"), PYTHON]

if __name__ == "__main__":
    from runner import run
    sys.exit(run(HERE, "page"))
