"""Runs all tests of the package: `python3 bindings/python/tests`. The last line is `N passed, M failed`."""
import os
import sys

HERE = os.path.dirname(os.path.realpath(__file__))
sys.path[:0] = [HERE, os.path.join(HERE, "..")]

if __name__ == "__main__":
    from runner import run
    sys.exit(run(HERE, "python package"))
