"""Costs that planners state, and planners that found no plan."""
import csv
import io
import json
import tempfile
import unittest

import mapf
from mapf.converters import UNSOLVED, read_plan, write_plan
from support import BAY, backends, command, written
from test_converters import PLAN, TEXTS
from test_formats import BAY_FILES, COLUMNS, READ, REDUMPED

# How each format states a cost, and how it states another one.
STATED = {
    "lacam": (TEXTS["lacam"], "soc=4", "soc=3"),
    "libmultirobotplanning": (REDUMPED, "cost: 4", "cost: 3"),
    "eecbs-stdout": (READ["eecbs-stdout"], "-->2", "-->1"),
    "tracker": (READ["tracker"], '4,2026-01-02,"', '3,2026-01-02,"'),
    "robot-runners": (READ["robot-runners"], '"sumOfCost": 4', '"sumOfCost": 3'),
}


class Stated(unittest.TestCase):
    def test_the_cost_is_kept(self):
        for name, (text, right, wrong) in STATED.items():
            with self.subTest(name):
                self.assertEqual(read_plan(name, text.encode(), None, *BAY).stated, 4)
                plan = read_plan(name, text.replace(right, wrong, 1).encode(), None, *BAY)
                self.assertEqual((plan, plan.stated, plan.cost), (PLAN, 3, 4))
                self.assertEqual(plan.text(), "plan 2 3\n1,0 1,1 1,0\n0,0 1,0 2,0\n")
        self.assertIsNone(read_plan("eecbs", TEXTS["eecbs"].encode()).stated)

    def test_from_one_format_into_another(self):
        for name in ("lacam", "libmultirobotplanning"):
            text, right, wrong = STATED[name]
            plan = read_plan(name, text.replace(right, wrong, 1).encode())
            for target in ("lacam", "libmultirobotplanning"):
                self.assertEqual(read_plan(target, write_plan(target, plan).encode()).stated, 3)

    @unittest.skipUnless(backends(), "neither library nor program is built")
    def test_another_cost_is_judged(self):
        with tempfile.TemporaryDirectory() as folder:
            for name, (text, right, wrong) in STATED.items():
                with self.subTest(name):
                    path = written(folder, "plan." + name, text.replace(right, wrong, 1))
                    status, out, err = command("check", "--from", name, *BAY_FILES, path)
                    row = json.loads(out)
                    self.assertEqual((status, err, row["line"]), (1, "", "67 wrong cost stated 3 found 4"))
                    self.assertEqual((row["number"], row["stated"], row["found"]), (67, 3, 4))
                    converted = command("convert", "--from", name, *BAY_FILES, path)[1].encode()
                    for plan in (converted, read_plan(name, text.replace(right, wrong, 1).encode(), None, *BAY)):
                        self.assertEqual(mapf.check(*BAY, plan).line, row["line"])


class Unsolved(unittest.TestCase):
    TEXTS = {
        "lacam": (
            "agents=2\nsolved=0\nsoc=0\nmakespan=0\nsolution=\n", "agents=2\nsolver=planner\nsolved=0\n",
            TEXTS["lacam"].replace("solved=1", "solved=0")),
        "tracker": (COLUMNS + "\nbay,even,1,2,4,2026-01-02,,,\n", COLUMNS + '\nbay,even,1,2,4,2026-01-02,,,""\n'),
    }

    def test_there_is_no_plan(self):
        for name, texts in self.TEXTS.items():
            for text in texts:
                with self.subTest(name, text=text):
                    self.assertEqual(read_plan(name, text.encode(), None, *BAY), UNSOLVED)

    @unittest.skipUnless(backends(), "neither library nor program is built")
    def test_no_plan_given(self):
        with tempfile.TemporaryDirectory() as folder:
            for name, texts in self.TEXTS.items():
                path = written(folder, "plan." + name, texts[0])
                for agents in ((), ("--agents", 2)):
                    with self.subTest(name, agents=agents):
                        status, out, err = command("check", "--from", name, "--out", "csv", *BAY_FILES, *agents, path)
                        (row,) = csv.DictReader(io.StringIO(out))
                        self.assertEqual((status, err, row["status"]), (1, "", "1"))
                        self.assertEqual((row["line"], row["kind"]), ("no plan given", "no plan given"))

    def test_converted(self):
        with tempfile.TemporaryDirectory() as folder:
            path = written(folder, "plan.lacam", self.TEXTS["lacam"][0])
            for words in (("--from", "lacam"), ("--from", "auto"), ("--from", "lacam", "--to", "eecbs")):
                self.assertEqual(command("convert", *words, path), (1, "", f"mapf: {path}: no plan given\n"))

    @unittest.skipUnless(backends(), "neither library nor program is built")
    def test_shown(self):
        with tempfile.TemporaryDirectory() as folder:
            words = [written(folder, name, text) for name, text in (("a.map", BAY[0]), ("a.scen", BAY[1]))]
            path = written(folder, "a.lacam", self.TEXTS["lacam"][0])
            status, out, err = command("show", "--from", "lacam", *words, path)
            self.assertEqual((status, out, err), (0, f"{folder}/a.html: no plan given\n", ""))
