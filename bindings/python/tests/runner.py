"""Runs the tests of a folder, for its `__main__`."""
import sys
import unittest


def run(folder: str, subject: str) -> int:
    """The status; the last line is `N passed, M failed`, and above it stands why tests of the subject weren't run."""
    result = unittest.TextTestRunner(stream=sys.stderr, verbosity=0).run(unittest.defaultTestLoader.discover(folder))
    failed = len({str(test) for test, _ in result.failures + result.errors})
    for reason in sorted({reason for _, reason in result.skipped}):
        print(f"{subject}: not run, {reason}")
    print(f"{result.testsRun - failed - len(result.skipped)} passed, {failed} failed")
    return 1 if failed else 0
