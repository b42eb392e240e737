"""`python3 -m mapf score`, and the names by which rows of `check` and of `series` are put side by side."""
import csv
import io
import json
import os
import tempfile
import unittest

from scores_support import AROUND, BOUNDS, CLASH, LATE, OPTIMUM, WithPlanners
from support import BAY, EXAMPLES, backends, command, with_program, written


@unittest.skipUnless(backends(), "neither library nor program is built")
class Scores(WithPlanners):
    def test_planners_by_a_series(self):
        self.plans(
            best={"bay_2": OPTIMUM, "crossing_2": AROUND}, late={"bay_2": LATE, "crossing_2": CLASH},
            lazy={"bay_2": "none 3\n"})
        status, rows, totals = self.rows()
        self.assertEqual(status, 1)
        names = ("verdict", "stated", "found", "optimum", "lower_bound", "ratio", "wrong_claim")
        said = {key: tuple(row[name] for name in names) for key, row in rows.items()}
        self.assertEqual(said, {
            ("best", "bay.scen"): ("valid 4", 4, 4, 4, None, 1.0, 0),
            ("best", "crossing.scen"): ("valid 5", 5, 5, None, 4, 1.25, 0),
            ("late", "bay.scen"): ("valid 6", 6, 6, 4, None, 1.5, 0),
            ("late", "crossing.scen"): ("66 vertex conflict agents 0 1 cell 1,1 time 1", 4, 4, None, 4, None, 1),
            ("lazy", "bay.scen"): ("no plan given", None, None, 4, None, None, 0),
            ("lazy", "crossing.scen"): ("missing", None, None, None, 4, None, 0)})
        names = ("planner", "instances", "solved", "valid", "mean_ratio", "worst_ratio", "wrong_claims")
        self.assertEqual([tuple(row[name] for name in names) for row in totals], [
            ("best", 2, 2, 2, 1.125, 1.25, 0), ("late", 2, 2, 1, 1.5, 1.5, 1), ("lazy", 2, 0, 0, None, None, 0)])

    def test_wrong_claims(self):
        cases = (
            (OPTIMUM.replace("2 4", "2 5"), "67 wrong cost stated 5 found 4", 5, 4, 1),
            ("none 4\n", "no plan given", None, None, 1), ("none 3\n", "no plan given", None, None, 0),
            ("gave up 7 5\n", "no plan given", None, None, 1), ("gave up 7 4\n", "no plan given", None, None, 0),
            ("plan 1 2\n0,0 1,0 2,0\n", "61 agent count 1", 2, 2, 1))
        for text, line, stated, found, wrong in cases:
            with self.subTest(text):
                self.plans(one={"bay_2": text})
                status, rows, totals = self.rows()
                row = rows["one", "bay.scen"]
                said = tuple(row[name] for name in ("verdict", "stated", "found", "ratio"))
                self.assertEqual(said, (line, stated, found, None))
                self.assertEqual((status, row["wrong_claim"], totals[0]["wrong_claims"]), (wrong, wrong, wrong))

    def test_what_is_refused_is_no_claim(self):
        self.plans(one={"bay_2": OPTIMUM[:-1], "crossing_3": AROUND})
        status, rows, totals = self.rows()
        self.assertEqual((status, rows["one", "bay.scen"]["verdict"]), (1, "32 bad line 3"))
        self.assertIn("bay-2.plan: 32 bad line 3: found ", rows["one", "bay.scen"]["message"])
        self.assertEqual([totals[0][name] for name in ("instances", "solved", "wrong_claims")], [3, 0, 0])

    def test_a_bound_above_a_valid_plan(self):
        self.bounds([("bay.map", "bay.scen", 2, "gave_up", "", 5)])
        self.plans(one={"bay_2": OPTIMUM})
        status, rows, _ = self.rows()
        message = "the series' bound is above this valid plan"
        self.assertEqual((status, rows["one", "bay.scen"]["message"]), (1, message))

    def test_no_following(self):
        self.bounds([("bay.map", "bay.scen", 2, "solved", 7, "")], "no_following")
        self.plans(one={"bay_2": OPTIMUM})
        status, rows, _ = self.rows("--no-following")
        line = "66 following conflict agents 1 0 cell 1,0 time 1"
        self.assertEqual((status, rows["one", "bay.scen"]["verdict"]), (1, line))
        status, out, err = self.score()
        self.assertEqual((status, out), (3, ""))
        self.assertIn("another rule: found `rule` no_following, wanted `rule` following", err)

    def test_formats_and_planners_by_names(self):
        text = "Agent 0: (0,1)->(1,1)->(0,1)->\nAgent 1: (0,0)->(0,1)->(0,2)->\n"
        written(self.folder, "plans/of-eecbs/run/bay-2.eecbs", text)
        written(self.folder, "plans/of-eecbs/notes.md", "fast")
        written(self.folder, "plans/of-moves/bay-2.txt", "du\nrr\n")
        written(self.folder, "plans/bay-2.plan", OPTIMUM)
        status, rows, _ = self.rows()
        self.assertEqual((status, sorted(key[0] for key in rows if key[1] == "bay.scen")), (0, ["of-eecbs", "plans"]))
        status, rows, _ = self.rows("--suffix", ".txt", "--from", "moves")
        lines = {key[0]: row["verdict"] for key, row in rows.items() if key[1] == "bay.scen"}
        self.assertEqual((status, lines), (0, {"of-eecbs": "valid 4", "of-moves": "valid 4", "plans": "valid 4"}))

    def test_a_valid_plan_refutes_the_bound_of_another_planner(self):
        cases = (("none 4\n", 5, 1), ("none 3\n", 4, 0), ("gave up 7 5\n", 5, 1), ("gave up 7 4\n", 4, 0))
        for rows in ([], BOUNDS):
            self.bounds(rows)
            for text, bound, wrong in cases:
                with self.subTest(text, rows=rows):
                    self.plans(good={"bay_2": OPTIMUM}, late={"bay_2": LATE}, proud={"bay_2": text})
                    status, scores, totals = self.rows()
                    row = scores["proud", "bay.scen"]
                    self.assertEqual((status, row["stated_bound"], row["wrong_claim"]), (wrong, bound, wrong))
                    self.assertEqual(row["message"], "a valid plan of good costs 4" if wrong else None)
                    self.assertEqual([total["wrong_claims"] for total in totals], [0, 0, wrong])

    def test_plans_with_faults_refute_nothing(self):
        self.bounds([])
        self.plans(bad={"crossing_2": CLASH}, sure={"crossing_2": "none 4\n"})
        _, rows, _ = self.rows()
        self.assertEqual([rows[name, "crossing.scen"]["wrong_claim"] for name in ("bad", "sure")], [1, 0])

    def test_means_over_what_all_planners_solved(self):
        # Ratios of bay and crossing: 1 and 1.25; 1.5 and none; 1.5 and 1.25.
        self.plans(a={"bay_2": OPTIMUM, "crossing_2": AROUND}, b={"bay_2": LATE, "crossing_2": CLASH},
                   c={"bay_2": LATE, "crossing_2": AROUND})
        _, _, totals = self.rows()
        names = "mean_ratio", "common", "common_mean_ratio"
        said = [tuple(total[name] for name in names) for total in totals]
        self.assertEqual(said, [(1.125, 1, 1.0), (1.5, 1, 1.5), (1.375, 1, 1.5)])
        self.plans(d={"bay_2": "none 3\n"})
        _, _, totals = self.rows()
        self.assertEqual({(total["common"], total["common_mean_ratio"]) for total in totals}, {(0, None)})

    def test_check_finds_scenarios_as_series_does(self):
        self.plans(best={"bay_2": OPTIMUM, "crossing_2": CLASH, "lost_2": OPTIMUM, "off_2": OPTIMUM})
        written(self.folder, "scens/off.scen", BAY[1].replace(b"map.map", b"off.map"))
        words = ("--maps", os.path.join(self.folder, "maps"), "--scens", os.path.join(self.folder, "scens"))
        status, out, _ = command("check", *words, os.path.join(self.folder, "plans"))
        rows = [json.loads(line) for line in out.splitlines()]
        said = [(row["map"], row["scenario"], row["agents"], row["line"]) for row in rows]
        self.assertEqual((status, said), (1, [
            ("bay.map", "bay.scen", 2, "valid 4"),
            ("crossing.map", "crossing.scen", 2, "66 vertex conflict agents 0 1 cell 1,1 time 1"),
            ("", "", None, "no scenario for a plan"), ("", "", None, "no map for a scenario")]))
        status, _, err = command("check", *words[:2], os.path.join(self.folder, "plans"))
        self.assertEqual((status, "give --map and --scen" in err), (2, True))


class Examples(unittest.TestCase):
    @with_program
    def test_the_plans_of_the_examples_by_a_series(self):
        with tempfile.TemporaryDirectory() as folder:
            rows, files = os.path.join(folder, "rows.csv"), ("--maps", EXAMPLES, "--scens", EXAMPLES)
            self.assertEqual(command("series", *files, "--from", 2, "--to", 2, "--seconds", 600, "--csv", rows)[0], 0)
            plans = os.path.join(EXAMPLES, "plans")
            status, out, _ = command("score", *files, "--plans", plans, "--bounds", rows)
            self.assertEqual(status, 1)
            self.assertIn("\n| moves | 4 | 2 | 2 | 1.0 | 1.0 | 0 | 0 | 1 | 1.0 |\n", out)
            self.assertIn("\n| plans | 4 | 4 | 2 | 1.0 | 1.0 | 2 | 0 | 1 | 1.0 |\n", out)
            with open(rows, newline="") as file:
                known = {(row["map"], row["scenario"], row["agents"]): row["cost"] for row in csv.DictReader(file)}
            _, out, _ = command("check", "--out", "csv", *files, plans)
            judged = csv.DictReader(io.StringIO(out))
            costs = [known.get((row["map"], row["scenario"], row["agents"])) for row in judged]
            self.assertEqual(costs, ["4", "5", "51", None])
