"""The League of Robot Runners: the JSON object that its start kit writes, where `actionModel` is `MAPF`.

`actualPaths`, or else `plannerPaths`, has for each agent its moves parted by commas: `U` leads to row - 1, `D` to row
+ 1, `L` to column - 1, `R` to column + 1, and `W` waits. `start` has for each agent row, column and an orientation,
which is dropped. `teamSize` has to fit them, `sumOfCost` states the cost, and other members are passed over.
"""
from __future__ import annotations

import json
import re
from typing import Any, Dict, Iterator, List, NamedTuple, Optional

from ..plan import Position
from ..plan_text import shown
from .lines import Lines
from .moves import MOVES, walk
from .shape import Found, Starts

MODEL = "MAPF"
UPPER = {name.upper(): step for name, step in MOVES.items()}
DECODER = json.JSONDecoder()
BETWEEN = re.compile(r"[ \t\r\n:,]*")


class Value(NamedTuple):
    """A value of a JSON text, the place that it begins at, and the number of that line."""

    value: Any
    place: int
    line: int


class Document:
    """A JSON object, and where its members stand."""

    def __init__(self, lines: Lines) -> None:
        self._lines = lines
        self._text = "\n".join(lines)
        try:
            whole = json.loads(self._text)
        except (ValueError, RecursionError) as error:
            found = f"no JSON ({getattr(error, 'msg', error)})"
            raise lines.fault(getattr(error, "lineno", 1), found, "a JSON object") from error
        if not isinstance(whole, dict):
            raise lines.fault(1, shown(json.dumps(whole)), "a JSON object")
        place = self._text.index("{")
        parts = list(self._parts(Value(whole, place, self._text.count("\n", 0, place) + 1)))
        self._members: Dict[str, Value] = {name.value: member for name, member in zip(parts[::2], parts[1::2])}

    def _parts(self, whole: Value) -> Iterator[Value]:
        """The values of an array, or of an object each name and its value."""
        end, line = whole.place + 1, whole.line
        while True:
            between = BETWEEN.match(self._text, end)
            assert between
            if self._text[between.end()] in "]}":
                return
            line += self._text.count("\n", end, between.end())
            value, end = DECODER.raw_decode(self._text, between.end())
            yield Value(value, between.end(), line)
            line += self._text.count("\n", between.end(), end)

    def optional(self, name: str) -> Optional[Value]:
        """A member, if it is there."""
        return self._members.get(name)

    def member(self, name: str) -> Value:
        """A member that has to be there."""
        if name not in self._members:
            raise self._lines.fault(1, f"no `{name}`", f"a JSON object with `{name}`")
        return self._members[name]

    def values(self, name: str) -> List[Value]:
        """What an array has that has to be there."""
        array = self.member(name)
        if not isinstance(array.value, list):
            raise self._lines.fault(array.line, shown(json.dumps(array.value)), f"an array, as `{name}`")
        return list(self._parts(array))


def read(lines: Lines, starts: Starts) -> Found:
    """The paths and the cost."""
    document = Document(lines)
    model = document.member("actionModel")
    if model.value != MODEL:
        found = f"the action model {shown(json.dumps(model.value))}"
        raise lines.fault(model.line, found, f"`{MODEL}`, which moves by U, D, L, R and W")
    planned = document.optional("plannerPaths") and not document.optional("actualPaths")
    moves = document.values("plannerPaths" if planned else "actualPaths")
    begins = document.values("start")
    if len(begins) != len(moves):
        raise lines.fault(document.member("start").line, f"{len(begins)} starts", f"{len(moves)}, as there are paths")
    size, cost = document.optional("teamSize"), document.optional("sumOfCost")
    if size and json.dumps(size.value) != str(len(moves)):
        raise lines.fault(size.line, f"a team of {shown(json.dumps(size.value))}", f"{len(moves)}, as there are paths")
    stated = lines.cost(cost.line, json.dumps(cost.value)) if cost else None
    return Found([_path(lines, begin, names) for begin, names in zip(begins, moves)], stated)


def _path(lines: Lines, begin: Value, names: Value) -> List[Position]:
    lines.last = begin.line
    start = begin.value
    if not isinstance(start, list) or not 2 <= len(start) <= 3 or any(type(number) is not int for number in start[:2]):
        raise lines.unfit(json.dumps(start), "`[row, column, orientation]`")
    position = lines.position(start[1], start[0])
    lines.last = names.line
    if not isinstance(names.value, str):
        raise lines.unfit(json.dumps(names.value), "moves parted by commas, in quotes")
    return walk(lines, position, names.value.split(",") if names.value else [], UPPER)
