"""`--from auto`: a file's format by its content, by each command that reads plans; files of 1,000 agents."""
import json
import os
import shutil
import tempfile
import unittest

import mapf
from mapf.converters import FORMATS, WRITTEN, format_of, read_plan, write_plan
from support import BAY, EXAMPLES, backends, command, written
from test_converters import PLAN, TEXTS
from test_formats import READ, REDUMPED, outputs
from test_formats_stated import Unsolved

PLANS = os.path.join(EXAMPLES, "plans")
BAY_FILES = ("--map", os.path.join(EXAMPLES, "bay.map"), "--scen", os.path.join(EXAMPLES, "bay.scen"))
ALL = {"plan": PLAN.text(), **TEXTS, **READ}


class Known(unittest.TestCase):
    def test_each_text(self):
        self.assertEqual(set(ALL), set(FORMATS))
        for name, text in (*ALL.items(), ("libmultirobotplanning", REDUMPED), ("libmultirobotplanning", "cost: 4\n" + REDUMPED),
                           ("plan", "none 4\n"), ("plan", "gave up 5 4\n"), ("moves", "\nr\n\n"), ("robot-runners", " \n{}"),
                           *((name, text) for name, texts in Unsolved.TEXTS.items() for text in texts)):
            for ends in ("\n", "\r\n"):
                with self.subTest(name, ends=ends):
                    self.assertEqual(format_of("auto", text.replace("\n", ends).encode(), None), name)

    def test_each_example(self):
        for name in set(FORMATS) - {"plan"}:
            for file in os.listdir(os.path.join(PLANS, name)):
                with self.subTest(name, file=file), open(os.path.join(PLANS, name, file), "rb") as plan:
                    self.assertEqual(format_of("auto", plan.read(), None), name)

    def test_a_thousand_agents(self):
        plan = mapf.Plan(tuple(((x, y), (x + 1, y)) for x in range(0, 64, 2) for y in range(32))[:1000])
        ends = [f"0\tmap\t64\t32\t{x}\t{y}\t{x + 1}\t{y}\t1\n" for (x, y), _ in plan.paths]
        instance = mapf.Instance(["." * 64] * 32, *zip(*plan.paths)).map, ("version 1\n" + "".join(ends)).encode()
        texts = {**{name: write_plan(name, plan) for name in WRITTEN}, **outputs(plan, 64)}
        self.assertEqual(set(texts), set(FORMATS))
        for name, text in texts.items():
            with self.subTest(name):
                self.assertEqual(format_of("auto", text.encode(), None), name)
                self.assertEqual(read_plan("auto", text.encode(), None, *instance), plan)

    def test_no_known_format(self):
        for text, found in ((b"", "''"), (b"type octile\n", "'type octile'"), (b"\n\n", "''"), (b"Agent 1: (0,0)->\n", "'Agent 1: (0,0)->'"),
                            (b"ruld x\n", "'ruld x'"), (b"\xff\xfe", "'\u00ff\u00fe'"), (b"planned 2 4\n", "'planned 2 4'")):
            with self.subTest(text), tempfile.TemporaryDirectory() as folder:
                path = written(folder, "file", text)
                wanted = f"mapf: {path}: no known format at line 1: found {found}, wanted {', '.join(FORMATS)}\n"
                self.assertEqual(command("convert", "--from", "auto", path), (3, "", wanted))


@unittest.skipUnless(backends(), "neither library nor program is built")
class Commands(unittest.TestCase):
    def setUp(self):
        folder = tempfile.TemporaryDirectory()
        self.addCleanup(folder.cleanup)
        self.folder = folder.name

    def test_convert_check_and_show(self):
        for name, text in ALL.items():
            with self.subTest(name):
                path = written(self.folder, "plan", text)
                self.assertEqual(command("convert", "--from", "auto", *BAY_FILES, path), (0, PLAN.text(), ""))
                self.assertEqual(command("check", "--from", "auto", *BAY_FILES, "--plan", path), (0, "valid 4\n", ""))
                page = os.path.join(self.folder, name + ".html")
                self.assertEqual(command("show", "--from", "auto", BAY_FILES[1], BAY_FILES[3], path, "-o", page), (0, f"{page}: valid 4\n", ""))
                self.assertEqual(mapf.read_plan(path, "auto", *BAY), PLAN)

    def test_a_folder_of_all_formats(self):
        for name in FORMATS:
            if name != "plan":
                shutil.copytree(os.path.join(PLANS, name), os.path.join(self.folder, name))
        for file in ("libmultirobotplanning/bay-2.yaml", "libmultirobotplanning/crossing-2.yml"):
            os.rename(os.path.join(self.folder, file), os.path.join(self.folder, os.path.splitext(file)[0] + ".libmultirobotplanning"))
        written(self.folder, "readme.txt", "mine")
        status, out, err = command("check", "--from", "auto", "--instances", EXAMPLES, self.folder)
        rows = [json.loads(line) for line in out.splitlines()]
        self.assertEqual((status, err, len(rows)), (1, "", 18))
        self.assertEqual([row["plan"][len(self.folder):] for row in rows if row["status"]], ["/eecbs/crossing-2.eecbs"])
