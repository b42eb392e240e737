"""The commands `series` and `score`."""
from __future__ import annotations

import sys
from typing import Dict, Tuple

from ...faults import Fault
from ...scenarios import Scenarios


def tell_lost(scenarios: Scenarios) -> int:
    """Says on standard error which scenarios were left out, once for each map that isn't there; 1 where there are any."""
    groups: Dict[Tuple[str, str], Tuple[Fault, int]] = {}
    for fault in scenarios.lost.values():
        reason = fault.text, fault.found
        first, count = groups.get(reason, (fault, 0))
        groups[reason] = first, count + 1
    for fault, count in groups.values():
        print(f"mapf: {fault}; {count} scenario{'' if count == 1 else 's'} left out", file=sys.stderr)
    return 1 if scenarios.lost else 0
