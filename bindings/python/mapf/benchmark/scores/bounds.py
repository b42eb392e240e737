"""What a series says of the least costs."""
from __future__ import annotations

from typing import Dict, NamedTuple, Optional

from ...faults import Fault
from ..series.rows import Key, read_series


class Bound(NamedTuple):
    """The least cost of an instance, or else what no plan costs less than, where one of them is known."""

    optimum: Optional[int] = None
    lower_bound: Optional[int] = None

    def ratio(self, cost: int) -> Optional[float]:
        """A cost by the optimum, or else by the lower bound, from which it is as far or nearer."""
        least = self.lower_bound if self.optimum is None else self.optimum
        if not least:
            return 1.0 if cost == self.optimum else None
        return cost / least

    def is_above(self, cost: int) -> bool:
        """Whether a plan of this cost contradicts it."""
        return cost < max(self.optimum or 0, self.lower_bound or 0)


def bounds_of(path: str, rule: str) -> Dict[Key, Bound]:
    """The bounds that a series of this rule knows."""
    series = read_series(path)
    stated = series.asked.get("rule") or rule
    if stated != rule:
        raise Fault(None, "another rule", path, f"`rule` {stated}", f"`rule` {rule}")
    return {row.key: Bound(row.cost, row.lower_bound) for row in series.rows}
