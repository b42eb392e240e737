"""The files and bytes that calls are given."""
from __future__ import annotations

import contextlib
import os
import tempfile
from typing import Iterator, Optional, Union

from .faults import FileFault

MOST_BYTES = 67_108_864

Given = Union[str, "os.PathLike[str]", bytes]


class Input:
    """The contents of a file, and its path; or bytes, without one."""

    def __init__(self, kind: str, contents: bytes, path: Optional[str]) -> None:
        self.kind = kind
        self.contents = contents
        self.path = path

    @contextlib.contextmanager
    def file(self) -> Iterator[str]:
        """The whole path of a file with these contents, in UTF-8 as the program's words are, for as long as it is wanted."""
        path = os.path.abspath(self.path) if self.path else ""
        if os.path.isfile(path) and path.isprintable():
            yield path
            return
        with tempfile.NamedTemporaryFile(prefix="mapf-") as file:
            file.write(self.contents)
            file.flush()
            yield file.name


@contextlib.contextmanager
def utf8_path(kind: str, path: str) -> Iterator[str]:
    """The path; or that of a copy of the file for as long as it is wanted, where the path isn't UTF-8: faults 50, 51 and 53."""
    if path.isprintable():
        yield path
    else:
        with read_input(kind, path).file() as copy:
            yield copy


def read_input(kind: str, given: Given) -> Input:
    """A map, a scenario or a plan, by its path or its bytes: faults 50, 51 and 53."""
    if isinstance(given, (bytes, bytearray, memoryview)):
        return Input(kind, _short(kind, bytes(given), None), None)
    path = os.fspath(given)
    try:
        file = open(path, "rb")
    except IsADirectoryError:
        raise FileFault(51, f"51 read failed {kind}", path, "a folder", "a file") from None
    except OSError as error:
        raise FileFault(50, f"50 cannot open {kind}", path, str(error.strerror), "a file that can be read") from error
    with file:
        try:
            return Input(kind, _short(kind, file.read(MOST_BYTES + 1), path), path)
        except OSError as error:
            raise FileFault(51, f"51 read failed {kind}", path, str(error.strerror), "a file that can be read") from error


def _short(kind: str, contents: bytes, path: Optional[str]) -> bytes:
    if len(contents) > MOST_BYTES:
        raise FileFault(53, f"53 too long {kind}", path, f"more than {MOST_BYTES:,} bytes", "as many at most")
    return contents
