"""The file that a series is written to: whole rows of one ask, by one writer at a time."""
from __future__ import annotations

import errno
import fcntl
import os
import shutil
import threading
from typing import BinaryIO, Container, List, Optional, Sequence

from ...faults import Fault
from ...scenarios import refuse_missing
from .rows import AGAIN, Asked, Key, Row, contents_of, head_of, refuse_devices, same_ask, series_of, text_of


class Table:
    """A file to which rows are added, each as a whole; several threads may add, and no other process."""

    def __init__(self, path: str, asked: Asked, again: Optional[Container[Key]] = None) -> None:
        """Begins a file that isn't there; or where `again` is given goes on behind its rows.

        again: the runs whose rows go if they failed or were refused.
        """
        self.rows: List[Row] = []
        self._asked = asked
        self._lock = threading.Lock()
        with _locked(path, "xb" if again is None else "ab"):
            if again is not None:
                self.rows = [row for row in _known(path, asked) if row.status not in AGAIN or row.key not in again]
            _replace(path, _bytes_of(asked, self.rows))
            self._file = _locked(path, "ab")

    def add(self, row: Row) -> None:
        """Adds a row, or nothing where there is no room."""
        line = text_of(self._asked, row).encode("utf-8", "surrogateescape")
        with self._lock:
            size = os.fstat(self._file.fileno()).st_size
            if self._file.write(line) != len(line):
                self._file.truncate(size)
                raise OSError(errno.ENOSPC, os.strerror(errno.ENOSPC), self._file.name)
            self.rows.append(row)

    def close(self) -> None:
        """Closes the file."""
        self._file.close()


def write_series(path: str, asked: Asked, rows: Sequence[Row]) -> None:
    """Writes a whole file, in place of a series of the same ask that is there."""
    with _locked(path, "ab"):
        _known(path, asked)
        _replace(path, _bytes_of(asked, rows))


def _locked(path: str, mode: str) -> BinaryIO:
    """The file, which no other process writes to as long as this one has it open."""
    refuse_devices(path)
    refuse_missing(os.path.dirname(path) or os.curdir, os.sep)
    try:
        file = open(path, mode, buffering=0)
    except FileExistsError:
        wanted = "a new name, or --resume to go on behind its rows"
        raise Fault(None, "the file is there already", path, "a file", wanted) from None
    try:
        fcntl.flock(file, fcntl.LOCK_EX | fcntl.LOCK_NB)
        mine = os.path.samestat(os.fstat(file.fileno()), os.stat(path))
    except BlockingIOError:
        mine = False
    if not mine:
        file.close()
        raise Fault(None, "another process writes the file", path, "its lock", "one writer at a time")
    return file


def _known(path: str, asked: Asked) -> List[Row]:
    """The whole rows of a file of this ask; what stands behind the last LF was being written when all stopped."""
    text = contents_of(path)
    if "\n" not in text and head_of(asked).startswith(text):
        return []
    series = series_of(text[: text.rfind("\n") + 1] or text, path)
    same_ask(path, series.asked, asked)
    return series.rows


def _bytes_of(asked: Asked, rows: Sequence[Row]) -> bytes:
    return (head_of(asked) + "".join(text_of(asked, row) for row in rows)).encode("utf-8", "surrogateescape")


def _replace(path: str, contents: bytes) -> None:
    """Puts a whole file in place of the one that is there."""
    path = os.path.realpath(path)
    beside = f"{path}.{os.getpid()}.new"
    try:
        with open(beside, "xb") as file:
            file.write(contents)
        shutil.copymode(path, beside)
        os.replace(beside, path)
    except OSError:
        if os.path.exists(beside):
            os.remove(beside)
        raise
