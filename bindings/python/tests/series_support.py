"""What the tests of series share: a folder of instances, and a stand-in for the program where time matters."""
import csv
import os
import tempfile
import unittest

from support import map_of, scen_of, written

FIRST_HEAD = "map,scenario,agents,status,cost,lower_bound,nodes,seconds"
HEAD = "seconds_limit,bound,nodes_limit,memory_limit,rule,any_optimum,version," + FIRST_HEAD
# Of up to 10 agents it finds a plan, of 15 it never ends, unless there is a limit on nodes; it says what it began with.
STAND_IN = """#!/bin/sh
nodes=
while [ $# -gt 0 ]; do
    case $1 in
    --version) echo "mapf {version}"; exit ;;
    --help) echo "{help}"; exit ;;
    --agents) agents=$2 ;;
    --nodes) nodes=$2 ;;
    esac
    shift
done
echo "$agents $$" >>"{folder}/began"
{says}
if [ "$agents" -le 10 ]; then echo "plan $agents $((agents * 10))" && exit; fi
if [ -n "$nodes" ]; then echo "gave up $nodes 140" && exit 6; fi
exec sleep 600
"""


def rows_of(path):
    """The rows of a CSV, which are whole, without what was asked and their seconds."""
    with open(path, newline="") as file:
        text = file.read()
    assert text.endswith("\n") and text.startswith(HEAD + "\n"), text
    return [row[7:-1] for row in list(csv.reader(text.splitlines()))[1:]]


class Folder(unittest.TestCase):
    """Tests with a folder of their own."""

    def setUp(self):
        folder = tempfile.TemporaryDirectory()
        self.addCleanup(folder.cleanup)
        self.folder = folder.name
        self.csv = os.path.join(self.folder, "rows.csv")

    def words(self, *more):
        maps, scens = os.path.join(self.folder, "maps"), os.path.join(self.folder, "scens")
        return ("series", "--maps", maps, "--scens", scens, "--csv", self.csv, *more)

    def contents(self, name="rows.csv"):
        with open(os.path.join(self.folder, name), "rb") as file:
            return file.read()


class WithStandIn(Folder):
    """With a stand-in for the program, and three scenarios of 20 agents."""

    def setUp(self):
        super().setUp()
        self.program("")
        written(self.folder, "maps/wide.map", map_of("." * 20))
        for name in "abc":
            agents = [(x, 0, x, 0) for x in range(20)]
            written(self.folder, f"scens/{name}.scen", scen_of(20, 1, *agents, name="wide.map"))
        kept = os.environ.get("MAPF_PROGRAM")
        os.environ["MAPF_PROGRAM"] = os.path.join(self.folder, "program")
        self.addCleanup(
            lambda: os.environ.pop("MAPF_PROGRAM") if kept is None else os.environ.update(MAPF_PROGRAM=kept))

    def program(self, says, shown="", version="7.8.9"):
        text = STAND_IN.format(folder=self.folder, help=shown, says=says, version=version)
        path = written(self.folder, "program.new", text)
        os.chmod(path, 0o755)
        # A file that a run just begins with can't be written to.
        os.replace(path, os.path.join(self.folder, "program"))

    def began(self):
        """The agents and the process of each run that began."""
        with open(os.path.join(self.folder, "began")) as file:
            return [tuple(int(word) for word in line.split()) for line in file]

    def runs(self):
        """How many runs began."""
        return len(self.began()) if os.path.exists(os.path.join(self.folder, "began")) else 0

    def expected(self, *last):
        return [["wide.map", f"{name}.scen", *row] for name in "abc"
                for row in (["5", "solved", "50", "", ""], ["10", "solved", "100", "", ""], list(last))]
