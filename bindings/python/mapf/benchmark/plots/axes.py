"""Axes: where a number stands between the two ends, and which numbers are named."""
from __future__ import annotations

import math
from typing import List, NamedTuple, Sequence

MOST_NAMED = 8


class Axis(NamedTuple):
    """A range of numbers; `minor` ones have a mark and no name."""

    low: float
    high: float
    named: List[float]
    minor: List[float]
    logarithmic: bool

    def place(self, value: float) -> float:
        """Where a number stands: 0 at the low end, 1 at the high one."""
        low, high = self.low, self.high
        if self.logarithmic:
            low, high, value = math.log10(low), math.log10(high), math.log10(value)
        return (value - low) / (high - low)


def percents() -> Axis:
    """From 0 to 100."""
    return Axis(0, 100, [0, 20, 40, 60, 80, 100], [], False)


def counts(values: Sequence[int]) -> Axis:
    """The numbers of agents themselves where they are few, or else round ones."""
    low, high = min(values), max(values)
    named = sorted(set(values))
    if len(named) > MOST_NAMED:
        step = _round_step((high - low) / MOST_NAMED)
        named = [step * number for number in range(math.ceil(low / step), high // step + 1)]
    return Axis(low - (low == high), high + (low == high), list(named), [], False)


def _round_step(least: float) -> int:
    """The first of 1, 2, 5, 10, 20 and so on that isn't below."""
    power = 10 ** max(0, math.floor(math.log10(max(least, 1))))
    return next(power * factor for factor in (1, 2, 5, 10) if power * factor >= least)


def decades(values: Sequence[float]) -> Axis:
    """Powers of ten, around the values, which are above 0."""
    low, high = math.floor(math.log10(min(values))), math.ceil(math.log10(max(values)))
    powers = range(low, max(high, low + 1) + 1)
    minor = [factor * 10.0 ** power for power in powers[:-1] for factor in range(2, 10)]
    return Axis(10.0 ** powers[0], 10.0 ** powers[-1], [10.0 ** power for power in powers], minor, True)
