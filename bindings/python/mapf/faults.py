"""The exceptions of this package."""
from __future__ import annotations

from typing import Optional


class Fault(Exception):
    """Something was refused.

    number: the fault's number, as the program prints it; None for a fault of a conversion.
    text: the line that the program prints, without ``mapf: ``.
    path: the file that the fault is about; None where bytes were given, or where it is about no file.
    found, wanted: what is there, and what should be.
    """

    def __init__(self, number: Optional[int], text: str, path: Optional[str], found: str, wanted: str) -> None:
        place = f"{path}: " if path else ""
        super().__init__(f"{place}{text}: found {found}, wanted {wanted}")
        self.number = number
        self.text = text
        self.path = path
        self.found = found
        self.wanted = wanted


class MapFault(Fault):
    """The map can't be read: 1 to 9."""


class ScenarioFault(Fault):
    """The scenario can't be read: 11 to 13."""


class InstanceFault(Fault):
    """The scenario's first rows are no instance on the map: 21 to 27."""


class PlanFault(Fault):
    """The text isn't a plan text: 31 to 33."""


class ArgumentFault(Fault):
    """A number is outside its range: 41, 42 and 44."""


class OutOfMemory(Fault):
    """There was not enough memory: 43."""


class FileFault(Fault):
    """A file can't be opened or read, or is too long: 50, 51 and 53."""


class ConversionFault(Fault):
    """A file isn't in the format that was named, at this line (from 1)."""

    def __init__(self, format_name: str, line: int, path: Optional[str], found: str, wanted: str) -> None:
        super().__init__(None, f"no {format_name} at line {line}", path, found, wanted)
        self.format_name = format_name
        self.line = line


class NotBuilt(RuntimeError):
    """Neither the library nor the program is built, or the library is too old for what is asked."""


class BackendFailure(RuntimeError):
    """The program or the library ended in a way that it never should."""
