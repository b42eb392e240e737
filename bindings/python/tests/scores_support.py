"""What the tests of scores share: instances, a series, and planners' plans."""
import json
import os
import tempfile
import unittest

from series_support import HEAD
from support import BAY, CROSSING, command, written

OPTIMUM = "plan 2 4\n1,0 1,1 1,0\n0,0 1,0 2,0\n"
# Both agents wait first: 6 in place of 4.
LATE = "plan 2 6\n1,0 1,0 1,1 1,0\n0,0 0,0 1,0 2,0\n"
CLASH = "plan 2 4\n1,0 1,1 1,2\n0,1 1,1 2,1\n"
AROUND = "plan 2 5\n1,0 1,1 1,2\n0,1 0,1 1,1 2,1\n"
BOUNDS = [("bay.map", "bay.scen", 2, "solved", 4, ""), ("crossing.map", "crossing.scen", 2, "gave_up", "", 4)]


class WithPlanners(unittest.TestCase):
    """Two instances, a series of them, and a folder for each planner."""

    def setUp(self):
        folder = tempfile.TemporaryDirectory()
        self.addCleanup(folder.cleanup)
        self.folder = folder.name
        for name, (grid, scen) in (("bay", BAY), ("crossing", CROSSING)):
            written(self.folder, f"maps/{name}.map", grid)
            written(self.folder, f"scens/more/{name}.scen", scen.replace(b"map.map", b"some/%s.map" % name.encode()))
        self.bounds(BOUNDS)

    def bounds(self, rows, rule="following"):
        lines = [f"9,99,,,{rule},yes,1.0.0," + ",".join(map(str, row)) + ",,0.1\n" for row in rows]
        written(self.folder, "rows.csv", HEAD + "\n" + "".join(lines))

    def plans(self, **planners):
        """A folder for each planner; a plan is called as its scenario and agents, `_` for `-`."""
        for planner, texts in planners.items():
            for name, text in texts.items():
                written(self.folder, f"plans/{planner}/{name.replace('_', '-')}.plan", text)

    def score(self, *more):
        maps, scens, plans = (os.path.join(self.folder, name) for name in ("maps", "scens", "plans"))
        bounds = os.path.join(self.folder, "rows.csv")
        return command("score", "--maps", maps, "--scens", scens, "--plans", plans, "--bounds", bounds, *more)

    def rows(self, *more):
        """The status, the rows of instances by planner and scenario, and those of planners."""
        status, out, err = self.score("--json", *more)
        self.assertEqual(err, "")
        rows = [json.loads(line) for line in out.splitlines()]
        instances = {(row["planner"], row["scenario"]): row for row in rows if row.get("scenario")}
        return status, instances, [row for row in rows if "instances" in row]
