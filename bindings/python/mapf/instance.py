"""What the converters and the messages need of a map and a scenario. Whether they are well-formed, the program judges."""
from __future__ import annotations

import re
from typing import List, NamedTuple, Optional, Tuple

from .options import MOST_AGENTS
from .plan import Position

BLANKS = re.compile(rb"[ \t]+")


class Row(NamedTuple):
    """A scenario's row: the map that it names and its size, an agent's start and its goal."""

    map_name: str
    size: Position
    start: Position
    goal: Position


def lines_of(contents: bytes) -> List[bytes]:
    """The lines of a map or a scenario: cut at LF, one CR at the end dropped, and no last piece that is empty."""
    lines = contents.split(b"\n")
    if not lines[-1]:
        lines.pop()
    return [line[:-1] if line.endswith(b"\r") else line for line in lines]


def words_of(line: bytes) -> List[bytes]:
    """The words of a line, parted by blanks."""
    return [word for word in BLANKS.split(line) if word]


def rows_of(contents: bytes) -> List[Optional[Row]]:
    """The rows of a scenario in their order; None for a line that is no row."""
    lines = lines_of(contents)[1:]
    while lines and not words_of(lines[-1]):
        lines.pop()
    return [_row(line) for line in lines]


def most_agents(contents: bytes) -> int:
    """How many agents a scenario is taken to have where nobody says: its rows, from 1 to 1,000."""
    return max(1, min(len(rows_of(contents)), MOST_AGENTS))


def _row(line: bytes) -> Optional[Row]:
    words = words_of(line)
    if len(words) < 9 or not all(re.fullmatch(rb"[0-9]{1,9}", word) for word in words[-7:-1]):
        return None
    width, height, start_x, start_y, goal_x, goal_y = (int(word) for word in words[-7:-1])
    name = b" ".join(words[1:-7]).decode("utf-8", "surrogateescape")
    return Row(name, (width, height), (start_x, start_y), (goal_x, goal_y))


def map_size(contents: bytes) -> Optional[Tuple[int, int]]:
    """The width and the height that a map states, or None."""
    lines = [words_of(line) for line in lines_of(contents)[1:3]]
    if [words[:1] for words in lines] != [[b"height"], [b"width"]]:
        return None
    numbers = [words[1] for words in lines if len(words) == 2 and re.fullmatch(rb"[0-9]{1,9}", words[1])]
    return (int(numbers[1]), int(numbers[0])) if len(numbers) == 2 else None


def byte_at(contents: bytes, position: Position) -> Optional[str]:
    """The character of a map at a position, or None outside."""
    x, y = position
    rows = lines_of(contents)[4:]
    return chr(rows[y][x]) if y < len(rows) and x < len(rows[y]) else None
