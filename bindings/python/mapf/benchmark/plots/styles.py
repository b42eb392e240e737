"""How the curves of solvers are told apart: by marks and dashes, in print too, and by colours."""
from __future__ import annotations

from typing import NamedTuple, Sequence, Tuple

from .svg import element, shown

Place = Tuple[float, float]

COLOURS = ("#000000", "#0072b2", "#d55e00", "#009e73", "#cc79a7", "#e69f00", "#56b4e9")
DASHES = ("none", "7 3", "2 2", "9 3 2 3", "12 4")
MARKS = (
    "M-3.6 0a3.6 3.6 0 1 0 7.2 0a3.6 3.6 0 1 0 -7.2 0Z", "M-4 -4H4V4H-4Z", "M0 -5L4.6 3.6H-4.6Z",
    "M0 -5.6L5.6 0L0 5.6L-5.6 0Z", "M-5 0H5M0 -5V5", "M-4 -4L4 4M-4 4L4 -4", "M0 5L4.6 -3.6H-4.6Z")


class Style(NamedTuple):
    """A solver's; the first has full marks, and those of the others let it be seen below them."""

    colour: str
    dash: str
    mark: str
    fill: str


def style_of(number: int) -> Style:
    """The style of a solver, from 0."""
    colour = COLOURS[number % len(COLOURS)]
    return Style(colour, DASHES[number % len(DASHES)], MARKS[number % len(MARKS)], "none" if number else colour)


def curve(line: Sequence[Place], marks: Sequence[Place], titles: Sequence[str], style: Style) -> str:
    """A line through places, and marks, whose titles a viewer shows."""
    points = " ".join(f"{x:.1f},{y:.1f}" for x, y in line)
    parts = [element("polyline", points=points, fill="none", stroke_dasharray=style.dash)]
    parts += [_mark(place, title, style) for place, title in zip(marks, titles)]
    return element("g", "\n".join(["", *parts, ""]), fill=style.fill, stroke=style.colour, stroke_width=1.4)


def dots(places: Sequence[Place], style: Style) -> str:
    """A light dot at each place."""
    path = "".join(dict.fromkeys(f"M{x:.1f} {y:.1f}h0" for x, y in places))
    return element(
        "path", d=path, fill="none", stroke=style.colour, stroke_width=2.8, stroke_linecap="round", opacity=0.4)


def _mark(place: Place, title: str, style: Style) -> str:
    at = "translate({:.1f} {:.1f})".format(*place)
    return element("path", element("title", shown(title)) if title else "", d=style.mark, transform=at)
