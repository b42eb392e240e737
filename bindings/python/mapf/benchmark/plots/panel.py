"""A panel: two axes, and the curves of all solvers on one map."""
from __future__ import annotations

from typing import Dict, List, NamedTuple

from .axes import Axis
from .curves import Point, Run
from .styles import curve, dots, style_of
from .svg import element, line, text

WIDTH, HEIGHT = 372.0, 262.0
LEFT, RIGHT, TOP, BOTTOM = 62.0, 14.0, 30.0, 44.0
INSET, ABOVE, DOT = 10.0, 18.0, 3.0


class Panel(NamedTuple):
    """A title, what the upright axis is called, both axes, and by each solver's number its points and its runs."""

    title: str
    label: str
    across: Axis
    upright: Axis
    points: Dict[int, List[Point]]
    runs: Dict[int, List[Run]]

    def draw(self, left: float, top: float) -> str:
        """The panel with its upper left there."""
        parts = [*self._frame(), *self._agents(), *self._values()]
        parts += [self._dots(solver, runs) for solver, runs in self.runs.items() if runs]
        for solver, points in self.points.items():
            parts += self._curve(solver, points)
        return element("g", "\n".join(["", *parts, ""]), transform=f"translate({left:.1f} {top:.1f})")

    def _dots(self, solver: int, runs: List[Run]) -> str:
        """A dot for each run, those of a solver beside those of the one before."""
        beside = DOT * (solver - max(self.runs) / 2)
        return dots([(self._x(agents) + beside, self._y(seconds)) for agents, seconds in runs], style_of(solver))

    def _curve(self, solver: int, points: List[Point]) -> List[str]:
        """The curve, and the notes beside its marks."""
        places = [(self._x(point.agents), self._y(point.value)) for point in points]
        notes = [(place, point.note) for place, point in zip(places, points) if point.note]
        line_and_marks = curve(places, places, [point.title for point in points], style_of(solver))
        return [line_and_marks, *(text(x + 4, y - 7, note, font_size=9) for (x, y), note in notes)]

    def _x(self, value: float) -> float:
        return LEFT + INSET + self.across.place(value) * (WIDTH - LEFT - RIGHT - 2 * INSET)

    def _y(self, value: float) -> float:
        return HEIGHT - BOTTOM - INSET - self.upright.place(value) * (HEIGHT - TOP - BOTTOM - INSET - ABOVE)

    def _frame(self) -> List[str]:
        middle, width, height = (TOP + HEIGHT - BOTTOM) / 2, WIDTH - LEFT - RIGHT, HEIGHT - TOP - BOTTOM
        return [
            element("rect", x=LEFT, y=TOP, width=width, height=height, fill="none", stroke="#000"),
            text(LEFT, TOP - 9, self.title, font_weight="bold"),
            text((LEFT + WIDTH - RIGHT) / 2, HEIGHT - 6, "agents", "middle"),
            text(0.0, 0.0, self.label, "middle", transform=f"translate(13 {middle:.1f}) rotate(-90)")]

    def _agents(self) -> List[str]:
        parts, y = [], HEIGHT - BOTTOM
        for value in self.across.named:
            x = self._x(value)
            parts += [line(x, y, x, y + 4, stroke="#000"), text(x, y + 17, f"{value:g}", "middle")]
        return parts

    def _values(self) -> List[str]:
        parts = [line(LEFT, self._y(value), LEFT + 3, self._y(value), stroke="#000") for value in self.upright.minor]
        for value in self.upright.named:
            y = self._y(value)
            parts.append(line(LEFT, y, WIDTH - RIGHT, y, stroke="#ccc", stroke_width=0.6))
            parts += [line(LEFT - 4, y, LEFT, y, stroke="#000"), text(LEFT - 7, y + 4, f"{value:g}", "end")]
        return parts
