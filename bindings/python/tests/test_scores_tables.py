"""The tables of `python3 -m mapf score`: their forms, and files that don't fit."""
import csv
import io
import json
import os
import unittest

from scores_support import LATE, OPTIMUM, WithPlanners
from support import BAY, backends, written


@unittest.skipUnless(backends(), "neither library nor program is built")
class Tables(WithPlanners):
    def test_csv_and_tables(self):
        self.plans(best={"bay_2": OPTIMUM}, late={"bay_2": LATE})
        status, out, _ = self.score("--csv")
        texts = out.split("\n\n")
        rows, totals = (list(csv.DictReader(io.StringIO(text))) for text in texts)
        self.assertEqual((status, [row["planner"] for row in rows]), (0, ["best", "best", "late", "late"]))
        self.assertEqual([row["mean_ratio"] for row in totals], ["1.0", "1.5"])
        self.assertEqual(self.score("--csv", "--summary"), (0, texts[1], ""))
        status, out, _ = self.score()
        self.assertIn("| late | bay.map | bay.scen | 2 | 0 | valid 6 | 6 | 6 |  | 4 |  | 1.5 | 0 |\n", out)
        self.assertTrue(out.endswith("| late | 2 | 1 | 1 | 1.5 | 1.5 | 0 | 0 | 1 | 1.5 |\n"))
        self.assertEqual(self.score("--summary"), (0, out.split("\n\n")[1], ""))

    def test_csv_in_two_files(self):
        self.plans(best={"bay_2": OPTIMUM}, late={"bay_2": LATE})
        _, printed, _ = self.score("--csv")
        paths = [os.path.join(self.folder, name) for name in ("scores.csv", "planners.csv", "again.csv")]
        self.assertEqual(self.score("--csv", *paths[:2]), (0, "", ""))
        self.assertEqual(self.score("--summary", "--csv", paths[2]), (0, "", ""))
        texts = []
        for path in paths:
            with open(path) as file:
                texts.append(file.read())
        self.assertEqual(texts, [printed.split("\n\n")[0] + "\n", texts[2], printed.split("\n\n")[1]])
        status, out, err = self.score("--csv", paths[0], os.path.join(self.folder, "new.csv"))
        said = f"mapf: {paths[0]}: the file is there already: found a file, wanted a new name\n"
        self.assertEqual((status, out, err), (3, "", said))
        nowhere = os.path.join(self.folder, "results")
        status, out, err = self.score("--summary", "--csv", os.path.join(nowhere, "rows.csv"))
        said = f"mapf: {nowhere}: no such folder: found nothing there, wanted a folder\n"
        self.assertEqual((status, out, err), (5, "", said))
        for words in (("--csv", paths[0]), ("--csv", *paths), ("--summary", "--csv", *paths[:2])):
            self.assertEqual(self.score(*words)[0], 2)

    def test_the_table_goes_on_behind_stray_files(self):
        self.plans(one={"bay_2": OPTIMUM, "crossing_2": "plan\n"}, two={"bay_2": OPTIMUM})
        cases = {"one/bay.plan": "no plan by its name", "one/lost-2.plan": "no scenario for a plan",
                 "one/run/bay-2.plan": "two plans of one instance", "three/off-2.plan": "no map for a scenario"}
        paths = {name: written(self.folder, os.path.join("plans", name), OPTIMUM) for name in cases}
        scen = written(self.folder, "scens/off.scen", BAY[1].replace(b"map.map", b"off.map"))
        status, out, err = self.score("--json")
        left_out = (f"{scen}: no map for a scenario: found the name `off.map` in line 2, "
                    f"wanted the name of a map in {os.path.join(self.folder, 'maps')}")
        self.assertEqual((status, err), (1, f"mapf: {left_out}; 1 scenario left out\n"))
        rows = [json.loads(line) for line in out.splitlines()]
        strays = {row["plan"]: row for row in rows if row.get("scenario") == ""}
        self.assertEqual({path: (3, cases[name]) for name, path in paths.items()},
                         {path: (row["status"], row["verdict"]) for path, row in strays.items()})
        lines = {(row["planner"], row["map"]): row["verdict"] for row in rows if row.get("map")}
        self.assertEqual(lines, {
            ("one", "bay.map"): "valid 4", ("one", "crossing.map"): "31 head line", ("two", "bay.map"): "valid 4",
            ("two", "crossing.map"): "missing", ("three", "bay.map"): "missing", ("three", "crossing.map"): "missing"})
        totals = {row["planner"]: (row["instances"], row["valid"], row["refused"]) for row in rows if "instances" in row}
        self.assertEqual(totals, {"one": (2, 1, 4), "two": (2, 1, 0), "three": (2, 0, 1)})
        status, _, err = self.score("--summary")
        self.assertEqual((status, len(err.splitlines())), (1, 6))
        for said in (*cases.values(), "31 head line"):
            self.assertIn(f": {said}: found ", err)

    def test_what_ends_the_command(self):
        status, _, err = self.score()
        plans = os.path.join(self.folder, "plans")
        self.assertEqual((status, err), (5, f"mapf: {plans}: no such folder: found nothing there, wanted a folder\n"))
        written(self.folder, "plans/notes.md", "fast")
        status, _, err = self.score()
        self.assertEqual((status, "no plans" in err), (3, True))
        self.plans(one={"bay_2": OPTIMUM})
        written(self.folder, "rows.csv", "mine\n")
        status, out, err = self.score()
        self.assertEqual((status, out, "no head at line 1" in err), (3, "", True))
