"""The rows of a series, in CSV: one for each run, each beginning with what was asked."""
from __future__ import annotations

import csv
import io
import os
import re
from typing import Any, Dict, Iterable, List, Mapping, NamedTuple, Optional, Sequence, Tuple

from ...faults import Fault
from ...plan_text import shown
from .limits import COLUMNS

STATUSES = ("solved", "none", "gave_up", "out_of_time", "out_of_memory", "refused", "failed")
AGAIN = ("refused", "failed")
SECONDS = re.compile(r"[0-9]{1,18}(\.[0-9]{1,9})?")
NUMBER = re.compile(r"[0-9]{1,18}")

Key = Tuple[str, str, int]
Asked = Mapping[str, Optional[str]]


class Row(NamedTuple):
    """A run.

    status: solved; none (no plan within the bound); gave_up (at the limit on nodes); out_of_time; out_of_memory; refused
        (the files or the numbers); failed (the program ended as it never should).
    cost: of a plan, the sum of costs. lower_bound: no plan without conflict costs less, where that is known and no plan is.
    nodes: the nodes that were taken, where the program tells.
    """

    map: str
    scenario: str
    agents: int
    status: str
    cost: Optional[int]
    lower_bound: Optional[int]
    nodes: Optional[int]
    seconds: float

    @property
    def key(self) -> Key:
        """What tells rows apart."""
        return self.map, self.scenario, self.agents


class Series(NamedTuple):
    """A file of rows.

    asked: for each column of the ask what all rows say, None where there is no row; files of the first form have none.
    """

    asked: Asked
    rows: List[Row]


def line_of(fields: Iterable[Any]) -> str:
    """A line of CSV."""
    out = io.StringIO()
    csv.writer(out, lineterminator="\n").writerow(fields)
    return out.getvalue()


def head_of(asked: Asked) -> str:
    """The first line."""
    return line_of([*asked, *Row._fields])


def text_of(asked: Asked, row: Row) -> str:
    """The row's line."""
    return line_of([*asked.values(), *row[:-1], f"{row.seconds:.3f}"])


def refuse_devices(path: str) -> None:
    """Refuses what is there and is no file."""
    if os.path.exists(path) and not os.path.isfile(path):
        raise Fault(None, "no file of rows", path, "a folder, a device or a fifo", "a file")


def contents_of(path: str) -> str:
    """The text of a file, without a byte order mark or CR at lines' ends."""
    refuse_devices(path)
    with open(path, newline="", encoding="utf-8-sig", errors="surrogateescape") as file:
        return file.read().replace("\r\n", "\n")


def read_series(path: str) -> Series:
    """The series that a file states; the first line that is no row is refused."""
    return series_of(contents_of(path), path)


def series_of(text: str, path: str) -> Series:
    """The series that a text states: its ask is that of all rows, and no run is there twice."""
    lines = text.split("\n")
    names = _names(lines[0], path)
    if lines[-1] or len(lines) < 2:
        raise Fault(None, f"no row at line {len(lines)}", path, shown(lines[-1]), "a whole line")
    asked: Asked = dict.fromkeys(names)
    rows: Dict[Key, Row] = {}
    for number, line in enumerate(lines[1:-1], 2):
        values, row = _row(line, len(names), path, number)
        if row.key in rows:
            raise twice(path, row.key, number)
        asked = asked if rows else dict(zip(names, values))
        same_ask(path, dict(zip(names, values)), asked)
        rows[row.key] = row
    return Series(asked, list(rows.values()))


def _fields(line: str) -> List[str]:
    try:
        return next(csv.reader([line]), [])
    except csv.Error:
        return []


def _names(line: str, path: str) -> List[str]:
    """The columns of the ask."""
    fields = _fields(line)
    names = fields[: -len(Row._fields)]
    if tuple(fields[len(names):]) != Row._fields or len(set(names)) != len(names) or not set(names) <= set(COLUMNS):
        raise Fault(None, "no head at line 1", path, shown(line), line_of([*COLUMNS, *Row._fields]).strip())
    return names


def _row(line: str, asked: int, path: str, number: int) -> Tuple[List[str], Row]:
    """What a line says of the ask, in so many fields, and of its run."""
    fields = _fields(line)
    if len(fields) == asked + len(Row._fields):
        map_name, scenario, agents, status, *counts, seconds = fields[asked:]
        if NUMBER.fullmatch(agents) and status in STATUSES and SECONDS.fullmatch(seconds):
            if all(not count or NUMBER.fullmatch(count) for count in counts):
                known: List[Any] = [int(count) if count else None for count in counts]
                return fields[:asked], Row(map_name, scenario, int(agents), status, *known, float(seconds))
    raise Fault(None, f"no row at line {number}", path, shown(line), ",".join(Row._fields))


def same_ask(path: str, found: Asked, wanted: Asked) -> None:
    """Refuses the first column in which two asks differ; what no row says yet fits all."""
    for name in {**wanted, **found}:
        known = {asked[name] for asked in (found, wanted) if name in asked} - {None}
        if (name in found) != (name in wanted) or len(known) > 1:
            raise Fault(None, "another ask", path, _said(found, name), f"{_said(wanted, name)}, or another file")


def _said(asked: Asked, name: str) -> str:
    return f"`{name}` {asked[name] or 'empty'}" if name in asked else f"no column `{name}`"


def twice(path: str, key: Key, line: int) -> Fault:
    """The fault of a run that has two rows."""
    return Fault(None, f"a run is there twice, at line {line}", path, "{}, {}, {} agents".format(*key), "each run once")


def joined(paths: Sequence[str]) -> Series:
    """The rows of some files by map, scenario and agents, up to the first of each scenario that isn't solved.

    Each file has a row, and each run is in one file alone.
    """
    asked: Optional[Asked] = None
    rows: Dict[Key, Row] = {}
    for path in paths:
        part = read_series(path)
        if not part.rows:
            raise Fault(None, "no row at line 2", path, "the end of the file", "a row: run its command again")
        asked = part.asked if asked is None else asked
        same_ask(path, part.asked, asked)
        for number, row in enumerate(part.rows, 2):
            if row.key in rows:
                raise twice(path, row.key, number)
            rows[row.key] = row
    return Series(asked or {}, _until_unsolved([rows[key] for key in sorted(rows)]))


def _until_unsolved(rows: Sequence[Row]) -> List[Row]:
    kept: List[Row] = []
    ended = None
    for row in rows:
        if ended != (row.map, row.scenario):
            kept.append(row)
            ended = None if row.status == "solved" else (row.map, row.scenario)
    return kept
