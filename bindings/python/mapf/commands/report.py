"""Rows of judged plans, as JSON lines or as CSV."""
from __future__ import annotations

import csv
import json
from typing import Callable, Sequence, TextIO

COLUMNS = (
    "plan", "map", "scenario", "agents", "status", "line", "number", "kind", "first", "second", "x", "y", "to_x", "to_y", "time",
    "stated", "found", "message",
)


def writer(kind: str, out: TextIO, columns: Sequence[str] = COLUMNS) -> Callable[[dict], None]:
    """What writes a row; CSV begins with the columns' names. A row has all columns, empty (null) where it has no such thing."""
    if kind == "json":
        return lambda row: print(json.dumps({name: row.get(name) for name in columns}), file=out)
    table = csv.DictWriter(out, columns, lineterminator="\n")
    table.writeheader()
    return table.writerow
