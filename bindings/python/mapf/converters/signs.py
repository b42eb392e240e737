"""How the formats are told apart: by how a file's lines begin, which no two of them share."""
from __future__ import annotations

import re
from typing import Optional

# In their order: what a planner prints beside its paths may look like any other line.
SIGNS = (
    ("eecbs-stdout", re.compile(rb"^Agent 0 \([0-9]+ -->", re.MULTILINE)),
    ("plan", re.compile(rb"\A(?:plan|none|gave up) [0-9]")),
    ("eecbs", re.compile(rb"\AAgent 0: ")),
    ("lns", re.compile(rb"\AAgent 0:\(")),
    ("mapf-visualizer", re.compile(rb"\A0:\(")),
    ("lacam", re.compile(rb"\A[A-Za-z0-9_]+=.*$", re.MULTILINE)),
    ("libmultirobotplanning", re.compile(rb"\A(?:schedule|statistics|cost):")),
    ("robot-runners", re.compile(rb"\A\s*\{")),
    ("tracker", re.compile(rb"\A(?:[^\n]*,)?solution_plan[,\r\n]")),
    ("moves", re.compile(rb"\A[udlrw\s]*[udlrw]\s*\Z")),
)


def signed(contents: bytes) -> Optional[str]:
    """The name of the format that a file's content has, or None."""
    return next((name for name, sign in SIGNS if sign.search(contents)), None)
