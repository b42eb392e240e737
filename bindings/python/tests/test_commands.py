"""`python3 -m mapf convert` and `check`."""
import csv
import io
import json
import os
import tempfile
import unittest

from mapf.commands.report import COLUMNS
from support import BAY, EXAMPLES, backends, command, written

BAY_TEXT = "plan 2 4\n1,0 1,1 1,0\n0,0 1,0 2,0\n"
BAY_FILES = ("--map", os.path.join(EXAMPLES, "bay.map"), "--scen", os.path.join(EXAMPLES, "bay.scen"))
PLANS = os.path.join(EXAMPLES, "plans")


class Convert(unittest.TestCase):
    def test_from_each_format(self):
        for name, file in (("eecbs", "bay-2.eecbs"), ("lacam", "bay-2.lacam"), ("libmultirobotplanning", "bay-2.yaml"),
                           ("moves", "bay-2.moves")):
            with self.subTest(name):
                self.assertEqual(command("convert", "--from", name, *BAY_FILES, os.path.join(PLANS, name, file)), (0, BAY_TEXT, ""))

    def test_from_one_into_another(self):
        status, out, err = command("convert", "--from", "eecbs", "--to", "moves", os.path.join(PLANS, "eecbs", "bay-2.eecbs"))
        self.assertEqual((status, out, err), (0, "du\nrr\n", ""))

    def test_a_file_of_another_format(self):
        path = os.path.join(PLANS, "lacam", "bay-2.lacam")
        status, out, err = command("convert", "--from", "eecbs", path)
        self.assertEqual((status, out), (3, ""))
        self.assertEqual(err, f"mapf: {path}: no eecbs at line 1: found 'agents=2', wanted `Agent 0: (row,column)->..`\n")

    def test_no_such_file(self):
        status, out, err = command("convert", "--from", "eecbs", "/nowhere")
        self.assertEqual((status, out), (5, ""))
        self.assertIn("/nowhere: 50 cannot open plan", err)

    def test_wrong_command_lines(self):
        for words in ((), ("convert",), ("convert", "--from", "cbs", "x"), ("check", "x"), ("series",)):
            status, out, err = command(*words)
            self.assertEqual((status, out), (2, ""))
            self.assertIn("usage: ", err)


@unittest.skipUnless(backends(), "neither library nor program is built")
class Check(unittest.TestCase):
    def rows(self, *words):
        status, out, err = command("check", *words)
        self.assertEqual(err, "")
        return status, [json.loads(line) for line in out.splitlines()]

    def test_a_plan(self):
        status, (row,) = self.rows(*BAY_FILES, os.path.join(PLANS, "bay-2.plan"))
        self.assertEqual((status, row["status"], row["line"], row["kind"], row["agents"], row["found"]), (0, 0, "valid 4", "valid", 2, 4))
        self.assertEqual(tuple(row), COLUMNS)

    def test_no_following(self):
        status, (row,) = self.rows(*BAY_FILES, "--no-following", os.path.join(PLANS, "bay-2.plan"))
        self.assertEqual((status, row["line"]), (1, "66 following conflict agents 1 0 cell 1,0 time 1"))
        self.assertEqual((row["first"], row["second"], row["x"], row["y"], row["time"]), (1, 0, 1, 0, 1))

    def test_the_folder_of_the_examples(self):
        status, rows = self.rows("--instances", EXAMPLES, PLANS)
        self.assertEqual(status, 1)
        self.assertEqual([(os.path.basename(row["plan"]), row["status"], row["line"]) for row in rows], [
            ("bay-2.plan", 0, "valid 4"), ("crossing-2.plan", 1, "66 vertex conflict agents 0 1 cell 1,1 time 1"),
            ("grid-32-32-2.plan", 0, "valid 51"), ("line-1.plan", 1, "65 ends late agent 0")])

    def test_a_folder_of_each_format(self):
        crossing = {"eecbs": "66 vertex conflict agents 0 1 cell 1,1 time 1", "lacam": "valid 5", "moves": "valid 5"}
        for name in ("eecbs", "lacam", "moves"):
            with self.subTest(name):
                _, rows = self.rows("--instances", EXAMPLES, "--from", name, "--jobs", 2, os.path.join(PLANS, name))
                self.assertEqual([row["line"] for row in rows], ["valid 4", crossing[name]])
        status, rows = self.rows(
            "--instances", EXAMPLES, "--from", "libmultirobotplanning", "--suffix", ".yaml", os.path.join(PLANS, "libmultirobotplanning"))
        self.assertEqual((status, [row["line"] for row in rows]), (0, ["valid 4"]))

    def test_csv(self):
        status, out, _ = command("check", "--out", "csv", "--instances", EXAMPLES, PLANS)
        rows = list(csv.DictReader(io.StringIO(out)))
        self.assertEqual((status, len(rows), rows[0]["line"], rows[1]["first"], rows[0]["first"]), (1, 4, "valid 4", "0", ""))

    def test_what_is_refused_has_a_row(self):
        with tempfile.TemporaryDirectory() as folder:
            grid, scen = written(folder, "bay.map", BAY[0]), written(folder, "bay.scen", BAY[1].replace(b"map.map", b"bay.map"))
            for name, text in (("bay-1.plan", BAY_TEXT), ("bay-2.plan", BAY_TEXT[:-1]), ("bay-3.plan", BAY_TEXT), ("bay.plan", BAY_TEXT),
                               ("none-2.plan", BAY_TEXT)):
                written(folder, "plans/" + name, text)
            status, rows = self.rows("--instances", folder, os.path.join(folder, "plans"))
            self.assertEqual(status, 1)
            self.assertEqual([(row["status"], row["line"]) for row in rows], [
                (1, "61 agent count 2"), (3, "32 bad line 3"), (3, "22 too few rows: 2"), (3, "no plan by its name"), (5, "50 cannot open scenario")])
            self.assertEqual((rows[0]["map"], rows[0]["scenario"]), ("bay.map", "bay.scen"))
            self.assertTrue(all(row["message"] for row in rows[1:]))
            path = written(folder, "spoiled", "Agent 1: (0,1)->\n")
            status, (row,) = self.rows("--map", grid, "--scen", scen, "--from", "eecbs", path)
            self.assertEqual((status, row["status"], row["line"], row["kind"]), (1, 3, "no eecbs at line 1", "refused"))

    def test_folders_without_plans(self):
        with tempfile.TemporaryDirectory() as folder:
            status, out, err = command("check", *BAY_FILES, folder)
            self.assertEqual((status, out), (2, ""))
            self.assertIn(f"no plan *.plan in {folder}", err)
        status, (row,) = self.rows(*BAY_FILES, folder)
        self.assertEqual((status, row["status"], row["line"]), (1, 5, "50 cannot open plan"))

    def test_either_an_instance_or_a_folder_of_them(self):
        plan = os.path.join(PLANS, "bay-2.plan")
        for words in ((), ("--map", "m"), ("--scen", "s"), (*BAY_FILES, "--instances", EXAMPLES), ("--instances", EXAMPLES, "--map", "m")):
            status, out, _ = command("check", *words, plan)
            self.assertEqual((status, out), (2, ""))
