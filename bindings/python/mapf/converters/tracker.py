"""The tracker of tracker.pathfinding.ai: a CSV file of the columns' names and one row, that of the instance.

`solution_plan` has a line of moves for each agent, as move strings are (moves.py); where it is empty there is no
plan. `agents` says how many there are, and `solution_cost`, where it isn't empty, what they cost. Other columns are
passed over.
"""
from __future__ import annotations

import csv
from typing import List, NamedTuple, Optional, Tuple

from .._input import MOST_BYTES
from ..plan_text import shown
from .lines import Lines
from .moves import walks
from .shape import Found, Starts

PLAN, AGENTS, COST = "solution_plan", "agents", "solution_cost"

# A plan is one field, and longer than what the module takes by itself.
csv.field_size_limit(max(csv.field_size_limit(), MOST_BYTES))


class Row(NamedTuple):
    """A row's fields, and the line that it begins in."""

    line: int
    fields: List[str]

    def line_of(self, place: int) -> int:
        """The line that a field begins in."""
        return self.line + sum(field.count("\n") for field in self.fields[:place])


def read(lines: Lines, starts: Starts) -> Optional[Found]:
    """The paths and the cost, or None without a plan."""
    head, row = _head_and_row(lines)
    names = head.fields
    plan, agents = row.fields[names.index(PLAN)], row.fields[names.index(AGENTS)]
    if not plan:
        return None
    texts = plan.split("\n")
    if not texts[-1] and agents == str(len(texts) - 1):
        texts.pop()
    first = row.line_of(names.index(PLAN))
    if agents != str(len(texts)):
        raise lines.fault(first, f"{len(texts)} lines of moves", f"{shown(agents)}, as `{AGENTS}` says")
    cost = names.index(COST) if COST in names else None
    stated = lines.cost(row.line_of(cost), row.fields[cost]) if cost is not None and row.fields[cost] else None
    return Found(walks(lines, starts, texts, first), stated)


def _head_and_row(lines: Lines) -> Tuple[Row, Row]:
    """The columns' names and the row, with as many fields."""
    rows = _rows(lines)
    for name in (AGENTS, PLAN):
        if not rows or rows[0].fields.count(name) != 1:
            raise lines.fault(1, shown(",".join(rows[0].fields)) if rows else "no columns", f"one column `{name}`")
    if len(rows) == 1:
        raise lines.unfit(None, "a row")
    if len(rows) > 2:
        raise lines.fault(rows[2].line, "another row", "one instance in a file")
    if len(rows[1].fields) != len(rows[0].fields):
        raise lines.fault(rows[1].line, f"{len(rows[1].fields)} fields", f"{len(rows[0].fields)}, as there are columns")
    return rows[0], rows[1]


def _rows(lines: Lines) -> List[Row]:
    table = csv.reader((line + "\n" for line in lines), strict=True)
    rows: List[Row] = []
    while True:
        first = lines.last + 1
        try:
            fields = next(table, None)
        except csv.Error as error:
            raise lines.fault(lines.last, str(error), "a row of CSV") from error
        if fields is None:
            return rows
        rows.append(Row(first, fields))
