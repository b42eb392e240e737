"""Makes an exception of a refusal's line: the file, what was found in it, and what is wanted there."""
from __future__ import annotations

import re
from typing import Dict, NamedTuple, Optional, Type

from . import faults
from ._input import Input
from .instance import byte_at, lines_of, map_size, rows_of, words_of
from .options import Options
from .plan_text import HEADS, shown

WANTED = {
    1: "`type octile` in line 1",
    2: "`height H` in line 2, with H from 1 to 2,048",
    3: "`width W` in line 3, with W from 1 to 2,048",
    4: "`map` in line 4",
    5: "as many rows as the height says",
    6: "as many bytes as the width says",
    7: "`.`, `G`, `@`, `O` or `T`",
    8: "the end of the file, or blank lines",
    9: "2,048 at most",
    11: "`version 1` in line 1",
    12: "nine fields",
    13: "a number of 1 to 9 digits",
    21: "1 to 1,000 agents",
    22: "as many rows as agents",
    23: "the size of the map",
    24: "a free cell of the map",
    25: "a free cell of the map",
    26: "a start that no earlier row has",
    27: "a goal that no earlier row has",
    31: HEADS,
    32: "positions `x,y` parted by single spaces, and LF; nothing behind the last agent's line",
    33: "a position on the map",
    41: "0 to 1,000,000",
    42: "1 to 64",
    43: "more memory",
    44: "1 to 1,000,000",
    50: "a file that can be opened",
    51: "a file that can be read",
    53: "67,108,864 bytes at most",
}


class Asked(NamedTuple):
    """What a call was given."""

    map_file: Input
    scen_file: Input
    plan: Optional[Input]
    options: Options


def fault_of(line: str, asked: Asked) -> faults.Fault:
    """The exception for a refusal's line."""
    text = line.rstrip("\n")
    numbers = [int(number) for number in re.findall(r"[0-9]+", text)]
    if not numbers or numbers[0] not in WANTED:
        raise faults.BackendFailure(f"no refusal: {line!r}")
    number = numbers[0]
    kind, given = _about(number, text, asked)
    return kind(number, text, given.path if given else None, _found(number, numbers[1:], asked), WANTED[number])


def _about(number: int, text: str, asked: Asked) -> "tuple[Type[faults.Fault], Optional[Input]]":
    """The exception's type, and the file that the fault is about."""
    if number <= 9:
        return faults.MapFault, asked.map_file
    if number <= 13:
        return faults.ScenarioFault, asked.scen_file
    if number <= 27:
        return faults.InstanceFault, asked.scen_file
    if number <= 33:
        return faults.PlanFault, asked.plan
    if number == 43:
        return faults.OutOfMemory, None
    if number <= 44:
        return faults.ArgumentFault, None
    files = {"map": asked.map_file, "scenario": asked.scen_file, "plan": asked.plan}
    return faults.FileFault, files.get(text.split()[-1])


def _found(number: int, places: "list[int]", asked: Asked) -> str:
    if number <= 9:
        return _found_in_map(number, places, lines_of(asked.map_file.contents))
    if number <= 13:
        return _found_in_scenario(number, places, lines_of(asked.scen_file.contents))
    if number <= 22:
        agents = asked.options.agents
        return f"{agents}" if number == 21 else f"{places[0]} rows for {agents} agents"
    if number <= 27:
        return _found_in_row(number, places, asked)
    if number <= 33 and asked.plan:
        return _found_in_plan(number, places, asked.plan.contents.split(b"\n"))
    _, bound, workers, nodes, *_ = asked.options
    arguments: Dict[int, str] = {41: f"{bound}", 42: f"{workers}", 43: "too little", 44: f"{nodes}"}
    return arguments.get(number, "a failure")


def _line(lines: "list[bytes]", number: int) -> str:
    return shown(lines[number - 1].decode("latin-1")) if number <= len(lines) else "the end of the file"


def _found_in_map(number: int, places: "list[int]", lines: "list[bytes]") -> str:
    if number <= 4:
        return _line(lines, number)
    if number == 6:
        return f"{len(lines[places[0] - 1])} bytes"
    if number == 7:
        return f"the byte {places[2]}, {shown(chr(places[2]))}"
    return _line(lines, places[0])


def _found_in_scenario(number: int, places: "list[int]", lines: "list[bytes]") -> str:
    if number == 11:
        return _line(lines, 1)
    words = words_of(lines[places[0] - 1])
    if number == 12:
        return f"{len(words)} words"
    field = places[1]
    return shown(words[0 if field == 1 else field - 10].decode("latin-1"))


def _found_in_row(number: int, places: "list[int]", asked: Asked) -> str:
    row = rows_of(asked.scen_file.contents)[places[-1]]
    if row is None:
        return "no row"
    if number == 23:
        size = map_size(asked.map_file.contents)
        return "{} x {}".format(*row.size) + (" for a map of {} x {}".format(*size) if size else "")
    x, y = row.start if number in (24, 26) else row.goal
    if number >= 26:
        return f"{x},{y} in both"
    byte = byte_at(asked.map_file.contents, (x, y))
    return f"{x},{y}, which is " + (f"blocked by `{byte}`" if byte else "outside")


def _found_in_plan(number: int, places: "list[int]", pieces: "list[bytes]") -> str:
    """Of a plan's pieces between LFs, the last of which is no whole line."""
    line = 1 if number == 31 else places[0]
    text = shown(pieces[line - 1].decode("latin-1")) if line <= len(pieces) else "the end of the file"
    if number == 33:
        return pieces[line - 1].split(b" ")[places[1]].decode("latin-1")
    return text + (" without LF" if line == len(pieces) and pieces[-1] else "")
