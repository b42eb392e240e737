"""`python3 -m mapf show`: what is written, and what isn't."""
import json
import os
import re
import tempfile
import unittest
from unittest import mock

from support import BAY, CROSSING, EXAMPLES, backends, command, process, written

PLANS = os.path.join(EXAMPLES, "plans")
BAY_TEXT = "plan 2 4\n1,0 1,1 1,0\n0,0 1,0 2,0\n"
CROSSING_TEXT = "plan 2 4\n1,0 1,1 1,2\n0,1 1,1 2,1\n"


def given(path):
    """What a page begins with."""
    with open(path, encoding="utf-8") as file:
        page = file.read()
    return json.loads(re.search(r'<script type="application/json" id="given">(.*?)</script>', page, re.DOTALL).group(1))


@unittest.skipUnless(backends(), "neither library nor program is built")
class Show(unittest.TestCase):
    def setUp(self):
        folder = tempfile.TemporaryDirectory()
        self.addCleanup(folder.cleanup)
        self.folder = folder.name

    def files(self, instance, plan, name="plan"):
        """The words for these files."""
        contents = {"a.map": instance[0], "a.scen": instance[1], name: plan}
        return [written(self.folder, file, text) for file, text in contents.items()]

    def shows(self, *words):
        """The page that is written with these words, and what it begins with."""
        status, out, err = command("show", *words)
        self.assertEqual((status, err), (0, ""))
        path, line = out.rstrip("\n").split(": ", 1)
        begins = given(path)
        self.assertEqual(begins["verdict"][1], line)
        return path, begins

    def test_beside_the_plan_with_the_verdict(self):
        path, begins = self.shows(*self.files(BAY, BAY_TEXT, "bay-2.plan"))
        self.assertEqual(path, os.path.join(self.folder, "bay-2.html"))
        self.assertEqual(begins, {
            "files": [
                ["map", "a.map", BAY[0].decode()], ["scen", "a.scen", BAY[1].decode()],
                ["plan", "bay-2.plan", BAY_TEXT]],
            "agents": 2, "rule": False, "verdict": [0, "valid 4"]})
        self.assertEqual(sorted(os.listdir(self.folder)), ["a.map", "a.scen", "bay-2.html", "bay-2.plan"])

    def test_a_fault_and_the_rule(self):
        words = self.files(CROSSING, CROSSING_TEXT)
        self.assertEqual(self.shows(*words)[1]["verdict"], [1, "66 vertex conflict agents 0 1 cell 1,1 time 1"])
        begins = self.shows(*self.files(BAY, BAY_TEXT), "--no-following")[1]
        self.assertEqual(begins["verdict"], [1, "66 following conflict agents 1 0 cell 1,0 time 1"])
        self.assertTrue(begins["rule"])

    def test_plans_of_each_format(self):
        instance = [os.path.join(EXAMPLES, "bay.map"), os.path.join(EXAMPLES, "bay.scen")]
        for name, file in (("plan", "bay-2.plan"), ("eecbs", "eecbs/bay-2.eecbs"), ("lacam", "lacam/bay-2.lacam"),
                           ("moves", "moves/bay-2.moves"),
                           ("libmultirobotplanning", "libmultirobotplanning/bay-2.yaml")):
            with self.subTest(name):
                page = os.path.join(self.folder, name + ".html")
                path, begins = self.shows("--from", name, *instance, os.path.join(PLANS, file), "-o", page)
                self.assertEqual((path, begins["verdict"][1]), (page, "valid 4"))
                self.assertEqual(begins["files"][2][1:], ["bay-2.plan", BAY_TEXT])

    def test_another_file_is_not_overwritten(self):
        words = self.files(BAY, BAY_TEXT)
        path = written(self.folder, "plan.html", "<!doctype html>\n<p>mine</p>\n")
        for page in ((), ("-o", words[0]), ("-o", self.folder)):
            status, out, err = command("show", *words, *page)
            self.assertEqual((status, out), (3, ""))
            self.assertIn("no page or picture of mapf show", err)
        with open(path, encoding="ascii") as file:
            self.assertEqual(file.read(), "<!doctype html>\n<p>mine</p>\n")

    def test_a_page_is_written_anew(self):
        self.shows(*self.files(BAY, BAY_TEXT))
        self.assertEqual(self.shows(*self.files(CROSSING, CROSSING_TEXT))[1]["verdict"][0], 1)

    def test_what_is_refused_writes_nothing(self):
        for plan, line in ((BAY_TEXT[:-1], "32 bad line 3"), (BAY_TEXT.replace("2 4", "3 4"), "22 too few rows: 2"),
                           ("", "31 head line")):
            status, out, err = command("show", *self.files(BAY, plan))
            self.assertEqual((status, out), (3, ""))
            self.assertIn(line, err)
        words = self.files(BAY, BAY_TEXT)
        for more, said in (((*words[:2], "/nowhere/plan"), "/nowhere/plan: 50 cannot open plan"),
                           ((*words, "-o", "/nowhere/page"), "/nowhere/page")):
            status, out, err = command("show", *more)
            self.assertEqual((status, out), (5, ""))
            self.assertIn(said, err)
        self.assertEqual(sorted(os.listdir(self.folder)), ["a.map", "a.scen", "plan"])

    def test_a_text_without_a_plan(self):
        begins = self.shows(*self.files(BAY, "none 5\n"))[1]
        self.assertEqual((begins["agents"], begins["verdict"]), (1, [1, "no plan given"]))

    def test_names_and_bytes_that_would_end_the_script(self):
        plan = BAY_TEXT.encode()
        scen = BAY[1].replace(b"map.map", b"</script><!--@MODULE@ \xe9")
        begins = self.shows(*self.files((BAY[0], scen), plan, "<script>\u00e9.plan"))[1]
        self.assertEqual(begins["files"][1][2].encode("latin-1"), scen)
        self.assertEqual(begins["files"][2][1], "<script>\u00e9.plan")

    def test_open(self):
        seen = os.path.join(self.folder, "seen")
        browser = written(self.folder, "browser", f'#!/bin/sh\necho "$1" >"{seen}"\n')
        os.chmod(browser, 0o755)
        with mock.patch.dict(os.environ, {"BROWSER": browser}):
            self.assertEqual(process("show", *self.files(BAY, BAY_TEXT), "--open", stdout=-3).wait(), 0)
        with open(seen, encoding="ascii") as file:
            self.assertEqual(file.read(), f"file://{os.path.realpath(self.folder)}/plan.html\n")
