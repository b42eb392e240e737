"""The command line of `python3 -m mapf`."""
from __future__ import annotations

import argparse
import importlib
import os
import sys
from typing import List, Optional

from .. import __version__
from ..faults import BackendFailure, Fault, NotBuilt
from .files import take_files
from .status import status_of

# Looked up by name, here alone: the benchmark imports the rest of the package, and nothing of the rest imports the benchmark.
COMMANDS = (".solve", ".convert", ".check", ".show", "..benchmark.commands.score", "..benchmark.commands.series")


def main(words: Optional[List[str]] = None) -> int:
    """Runs a command, and answers its status: 2 to 5 as the program's, 125 where nothing is built, 130 after Ctrl-C."""
    name = os.path.basename(sys.argv[0])
    parser = argparse.ArgumentParser(
        prog=name if name == "mapf" else "python3 -m mapf",
        description="Find plans, convert and judge those of any planner, and run series.")
    parser.add_argument("-V", "--version", action="version", version=f"mapf {__version__}")
    commands = parser.add_subparsers(dest="command", metavar="COMMAND", required=True)
    for name in COMMANDS:
        importlib.import_module(name, __package__).add(commands)
    asked, more = parser.parse_known_args(_asked(sys.argv[1:] if words is None else words))
    take_files(asked, more)
    try:
        return asked.run(asked)
    except Fault as fault:
        return _ends(str(fault), status_of(fault))
    except (NotBuilt, BackendFailure) as failure:
        return _ends(str(failure), 125)
    except BrokenPipeError:
        os.dup2(os.open(os.devnull, os.O_WRONLY), sys.stdout.fileno())
        return 5
    except OSError as error:
        return _ends(str(error), 5)
    except KeyboardInterrupt as stopped:
        return _ends(str(stopped), 130) if stopped.args else 130


def _asked(words: List[str]) -> List[str]:
    """The words, of which `help COMMAND` is what the program has for `COMMAND --help`."""
    return [*words[1:], "--help"] if words[:1] == ["help"] else words


def _ends(message: str, status: int) -> int:
    sys.stdout.flush()
    print(f"mapf: {message}", file=sys.stderr)
    return status
