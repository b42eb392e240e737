"""Files that are written whole, or not at all."""
from __future__ import annotations

import os
from contextlib import suppress

from .faults import Fault


def refuse_existing(path: str) -> None:
    """Refuses a path at which there is something."""
    if os.path.lexists(path):
        raise Fault(None, "there is something else", path, "a file or a folder", "a new name")


def write_whole(path: str, contents: bytes) -> None:
    """Writes a file, in place of one that is there; where that fails, nothing of it is left behind."""
    beside = f"{path}.{os.getpid()}.new"
    try:
        with open(beside, "xb") as file:
            file.write(contents)
        os.replace(beside, path)
    except FileExistsError:
        raise
    except BaseException:
        with suppress(OSError):
            os.remove(beside)
        raise
