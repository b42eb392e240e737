"""Which backend answers."""
from __future__ import annotations

import functools
import os
from typing import Union

from .faults import ArgumentFault, NotBuilt
from .library import Library, library_path
from .program import Program, program_path

Backend = Union[Library, Program]


def chosen(first: str = "library") -> Backend:
    """The one that MAPF_BACKEND (`library`, `program`) asks for; else the first, or the other, if it is built."""
    asked = os.environ.get("MAPF_BACKEND", "")
    built = {"library": os.path.isfile(library_path()), "program": os.access(program_path(), os.X_OK)}
    if asked not in ("", *built):
        raise ArgumentFault(None, "MAPF_BACKEND", None, repr(asked), "`library` or `program`")
    for name in [asked] if asked else sorted(built, key=lambda name: name != first):
        if asked or built[name]:
            return _library(library_path()) if name == "library" else Program(program_path())
    raise NotBuilt(
        f"neither the library {library_path()} nor the program {program_path()} is built: "
        "`bindings/build` makes the first, `./mapf --version` the second"
    )


@functools.lru_cache(maxsize=None)
def _library(path: str) -> Library:
    """The library, opened once."""
    return Library(path)
