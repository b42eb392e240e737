"""Files on the command line: by their places, or by options, as the program has them."""
from __future__ import annotations

import argparse
from typing import Any, List

WORDS = {"map": "the map", "scen": "the scenario", "plan": "the plan"}


def add_files(parser: Any, *kinds: str) -> None:
    """Adds a command's files, each by its option or, in this order, by its place."""
    places = " ".join(kind.upper() for kind in kinds)
    options = " ".join(f"--{kind} {kind.upper()}" for kind in kinds)
    parser.usage = f"%(prog)s [OPTION ..] {places}\n       %(prog)s [OPTION ..] {options}"
    for kind in kinds:
        parser.add_argument(f"--{kind}", metavar=kind.upper(), help=f"{WORDS[kind]}, as the program has it")
    parser.add_argument("files", nargs="*", metavar=places, help="those that have no option, in this order")
    parser.set_defaults(kinds=kinds, parser=parser)


def take_files(asked: argparse.Namespace, more: List[str]) -> None:
    """Gives a command its files, some of which may stand behind options, and refuses words that it doesn't have."""
    end = more.index("--") if "--" in more else len(more)
    if [word for word in more[:end] if word.startswith("-")] or more and not hasattr(asked, "files"):
        asked.parser.error(f"unrecognized arguments: {' '.join(more)}")
    if more:
        asked.files = [*asked.files, *more[:end], *more[end + 1:]]
    missing = [kind for kind in getattr(asked, "kinds", ()) if getattr(asked, kind) is None]
    if hasattr(asked, "kinds") and len(asked.files) != len(missing):
        wanted = " ".join(kind.upper() for kind in missing) or "none, since each has its option"
        asked.parser.error(f"found {len(asked.files)} files without an option, wanted {wanted}")
    for kind, path in zip(missing, getattr(asked, "files", ())):
        setattr(asked, kind, path)
