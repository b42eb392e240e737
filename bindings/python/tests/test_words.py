"""What is written for the program runs by `python3 -m mapf`, with the same output; and files by their places or by options."""
import os
import subprocess
import unittest

import mapf.program
from support import EXAMPLES, backends, command, with_program

BAY = [os.path.join(EXAMPLES, "bay" + end) for end in (".map", ".scen")]
PLAN = os.path.join(EXAMPLES, "plans", "bay-2.plan")
BAY_TEXT = "plan 2 4\n1,0 1,1 1,0\n0,0 1,0 2,0\n"
FILES = ("--map", BAY[0], f"--scen={BAY[1]}")
SOLVE = ("solve", *FILES, "--agents", "2", "--workers", "2")
CHECK = ("check", *FILES, "--agents", "2", "--plan")
CROSSING = [os.path.join(EXAMPLES, "crossing" + end) for end in (".map", ".scen")]
CASES = (
    (*SOLVE, "--bound", "100"), (*SOLVE, "--bound=3"), (*SOLVE, "--bound", "4", "--nodes", "5"), (*SOLVE, "--bound", "9", "--no-following"),
    (*SOLVE, "--bound", "9", "--any-optimum"), ("solve", *FILES, "--agents", "+02", "--workers", "1", "--bound", "100"),
    ("solve", "--workers", "1", "--scen", BAY[1], "--bound", "100", "--map", BAY[0], "--agents", "1"),
    (*SOLVE, "--bound", "1000001"), (*SOLVE, "--bound", "9", "--far"), ("solve", *FILES, "--agents", "3", "--workers", "1", "--bound", "9"),
    ("solve", "--map", "/nowhere", "--scen", BAY[1], "--agents", "2", "--workers", "1", "--bound", "9"),
    (*CHECK, PLAN), (*CHECK, PLAN, "--no-following"), (*CHECK, BAY[0]), (*CHECK, "/nowhere"),
    ("check", *FILES, "--agents", "1", "--plan", PLAN), ("check", *FILES, "--agents", "2"), ("-V",), ("--version",),
    ("check", "--map", CROSSING[0], "--scen", CROSSING[1], "--agents", "2", "--plan", os.path.join(EXAMPLES, "plans", "crossing-2.plan")),
)


@with_program
class SameWords(unittest.TestCase):
    def test_status_and_output(self):
        for words in CASES:
            with self.subTest(words):
                done = subprocess.run([mapf.program.program_path(), *words], stdout=subprocess.PIPE, stderr=subprocess.PIPE)
                status, out, err = command(*words)
                self.assertEqual((status, out, bool(err)), (done.returncode, done.stdout.decode(), bool(done.stderr)))

    def test_progress(self):
        words = (*SOLVE, "--bound", "100", "--progress")
        done = subprocess.run([mapf.program.program_path(), *words], stdout=subprocess.PIPE, stderr=subprocess.PIPE)
        self.assertEqual(command(*words), (0, done.stdout.decode(), done.stderr.decode()))

    def test_help(self):
        for words in (("help",), ("help", "solve"), ("solve", "--help"), ("check", "-h")):
            status, out, err = command(*words)
            self.assertEqual((status, err), (0, ""))
            self.assertIn("usage: ", out)
            self.assertEqual("The program" in out, words != ("help",))


@unittest.skipUnless(backends(), "neither library nor program is built")
class Places(unittest.TestCase):
    def test_by_places_options_and_both(self):
        for words in (BAY, FILES, (BAY[0], "--agents", 2, BAY[1]), ("--map", BAY[0], BAY[1]), (BAY[0], "--scen", BAY[1]),
                      ("--seconds", 60, *BAY, "--workers", 1), ("--", *BAY), (BAY[0], "--agents", 2, "--", BAY[1])):
            with self.subTest(words):
                self.assertEqual(command("solve", *words), (0, BAY_TEXT, ""))

    def test_too_few_and_too_many(self):
        for words, found in (((), "0 files without an option, wanted MAP SCEN"), (BAY[:1], "1 files without an option, wanted MAP SCEN"),
                             ((*BAY, PLAN), "3 files without an option, wanted MAP SCEN"), (FILES[:2], "0 files without an option, wanted SCEN"),
                             ((*FILES, PLAN), "1 files without an option, wanted none, since each has its option")):
            status, out, err = command("solve", *words)
            self.assertEqual((status, out), (2, ""))
            self.assertIn("usage: ", err)
            self.assertTrue(err.endswith(f"error: found {found}\n"), err)

    def test_convert(self):
        path = os.path.join(EXAMPLES, "plans", "eecbs", "bay-2.eecbs")
        for words in ((path,), ("--plan", path)):
            self.assertEqual(command("convert", "--from", "eecbs", *words), (0, BAY_TEXT, ""))

    def test_check(self):
        path = os.path.join(EXAMPLES, "plans", "eecbs", "bay-2.eecbs")
        self.assertEqual(command("check", *FILES, "--from", "eecbs", "--plan", path), (0, "valid 4\n", ""))
        self.assertEqual(command("check", "--instances", EXAMPLES, "--plan", PLAN), (0, "valid 4\n", ""))
        rows = command("check", *FILES, "--out", "csv", PLAN)
        self.assertEqual(command("check", *FILES, "--out", "csv", "--plan", PLAN), rows)
        self.assertEqual(command("check", *FILES, "--plan", PLAN, PLAN)[:2], (2, ""))

    def test_words_that_no_command_has(self):
        for words in (("solve", *BAY, "--far"), ("check", *FILES, PLAN, "--far", "x"), ("series", "far"), ("score", "--maps", "far", "far")):
            self.assertEqual(command(*words)[:2], (2, ""))
