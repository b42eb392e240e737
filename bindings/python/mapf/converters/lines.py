"""The lines of a planner's file."""
from __future__ import annotations

import re
from typing import Iterable, Iterator, List, Optional, Tuple

from ..faults import ConversionFault
from ..plan import Position
from ..plan_text import MOST_COST, MOST_POSITIONS, shown

COORDINATE = r"(0|[1-9][0-9]{0,8})"
COST = re.compile(r"0|[1-9][0-9]{0,9}")
MOST_COORDINATE = 999_999_999


class Lines:
    """The lines in their order, without their LF or CR LF, which the last one may lack. Blank last lines are none.

    last: the number of the line that was read last, or that is looked at, from 1.
    blank: how many blank last lines the file has.
    """

    def __init__(self, format_name: str, contents: bytes, path: Optional[str], size: Optional[Tuple[int, int]]) -> None:
        self.format_name = format_name
        self.path = path
        self.size = size
        self.last = 0
        self._pieces = contents.split(b"\n")
        if not self._pieces[-1]:
            self._pieces.pop()
        whole = len(self._pieces)
        while self._pieces and not self._pieces[-1].strip():
            self._pieces.pop()
        self.blank = whole - len(self._pieces)

    def __iter__(self) -> Iterator[str]:
        while True:
            line = self.next()
            if line is None:
                return
            yield line

    def next(self) -> Optional[str]:
        """The next line; None at the end of the file."""
        if self.last == len(self._pieces):
            return None
        piece = self._pieces[self.last]
        self.last += 1
        return (piece[:-1] if piece.endswith(b"\r") else piece).decode("latin-1")

    def position(self, x: int, y: int) -> Position:
        """A position in the line that is looked at, if it is on the map or no map was given."""
        return self.column(x), self.row(y)

    def column(self, x: int) -> int:
        """A column, if it is on the map or no map was given."""
        return self._inside("column", x, self.size[0] if self.size else None)

    def row(self, y: int) -> int:
        """A row, if it is on the map or no map was given."""
        return self._inside("row", y, self.size[1] if self.size else None)

    def cell(self, number: int) -> Position:
        """The position of the cell row * width + column; the map has to be given."""
        assert self.size
        width, height = self.size
        row, column = divmod(self._inside("cell", number, width * height), width)
        return column, row

    def _inside(self, kind: str, number: int, count: Optional[int]) -> int:
        most = MOST_COORDINATE if count is None else count - 1
        if not 0 <= number <= most:
            raise self.fault(self.last, f"{kind} {number}", f"a {kind} from 0 to {most}")
        return number

    def step(self, path: List[Position], position: Position) -> None:
        """Adds a position to a path."""
        if len(path) == MOST_POSITIONS:
            raise self.fault(self.last, "a longer path", f"{MOST_POSITIONS:,} positions at most")
        path.append(position)

    def path_of(self, positions: Iterable[Position]) -> List[Position]:
        """The path that has these positions."""
        path: List[Position] = []
        for position in positions:
            self.step(path, position)
        return path

    def cost(self, number: int, digits: str) -> int:
        """The cost that a line states."""
        if not COST.fullmatch(digits) or int(digits) > MOST_COST:
            raise self.fault(number, f"the cost {shown(digits)}", f"a number from 0 to {MOST_COST:,}")
        return int(digits)

    def unfit(self, line: Optional[str], wanted: str) -> ConversionFault:
        """The fault of the line that was read last, or of the end of the file."""
        if line is None:
            return self.fault(self.last + 1, "the end of the file", wanted)
        return self.fault(self.last, shown(line), wanted)

    def fault(self, number: int, found: str, wanted: str) -> ConversionFault:
        """The fault of a line."""
        return ConversionFault(self.format_name, number, self.path, found, wanted)
