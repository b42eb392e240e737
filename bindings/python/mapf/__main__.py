"""`python3 -m mapf`, and the script `mapf` of an installed package."""
import os
import sys

from .commands import main


def start() -> int:
    """Runs the command of the words that the process was given; 5 where its output can't be written."""
    sys.stderr = sys.stderr or open(os.devnull, "w", encoding="utf-8")
    if sys.stdout is None:
        print("mapf: standard output is closed", file=sys.stderr)
        return 5
    for stream in (sys.stdout, sys.stderr):
        # Files' names that are no UTF-8 are printed byte by byte.
        stream.reconfigure(errors="surrogateescape")
    return main()


if __name__ == "__main__":
    sys.exit(start())
