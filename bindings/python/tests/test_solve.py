"""Limits on time, progress, workers, and `python3 -m mapf solve`."""
import json
import os
import sys
import tempfile
import time
import unittest
import unittest.mock

import mapf
from mapf.calls import solve_by
from mapf.options import Options
from support import BAY, EXAMPLES, LINE, backends, command, map_of, scen_of, written

BAY_FILES = tuple(os.path.join(EXAMPLES, "bay" + end) for end in (".map", ".scen"))
BAY_TEXT = "plan 2 4\n1,0 1,1 1,0\n0,0 1,0 2,0\n"
# Two agents in a corridor have to change places: there is no plan, and within the greatest bound no end of the search.
ENDLESS = map_of("." * 9), scen_of(9, 1, (0, 0, 8, 0), (8, 0, 0, 0))
LEAST = 16


@unittest.skipUnless(backends(), "neither library nor program is built")
class Limits(unittest.TestCase):
    def each(self):
        for backend in backends():
            with self.subTest(backend.name):
                yield backend

    def test_out_of_time_keeps_the_bound(self):
        for backend in self.each():
            for seconds in (1, 10, 60):
                begin = time.monotonic()
                answer = solve_by(backend, *ENDLESS, None, 1000000, None, False, seconds=seconds)
                self.assertIsInstance(answer, mapf.OutOfTime)
                self.assertGreaterEqual(time.monotonic() - begin, seconds)
                if answer.lower_bound:
                    break
            self.assertGreaterEqual(answer.lower_bound, LEAST)
            self.assertLess(time.monotonic() - begin, seconds + 60)

    def test_out_of_time_before_anything_is_told(self):
        for backend in self.each():
            answer = solve_by(backend, *ENDLESS, 2, 1000000, None, False, seconds=1e-9)
            self.assertEqual((type(answer), answer.nodes), (mapf.OutOfTime, 0))
            self.assertEqual(answer.text(), f"out of time 0 {answer.lower_bound}\n")

    def test_an_answer_in_time(self):
        for backend in self.each():
            self.assertEqual(solve_by(backend, *BAY, 2, 100, None, False, seconds=60).text(), BAY_TEXT)

    def test_progress(self):
        for backend in self.each():
            told = []
            solve_by(backend, *ENDLESS, 2, 1000000, 2000, False, progress=lambda *words: told.append(words))
            self.assertGreaterEqual(len(told), 2)
            self.assertEqual(told, sorted(told))
            self.assertTrue(all(LEAST <= bound and nodes <= 2000 for nodes, bound in told))

    def test_what_progress_raises_ends_the_search(self):
        def stop(nodes, bound):
            raise StopIteration(bound)
        for backend in self.each():
            with self.assertRaises(StopIteration) as stopped:
                solve_by(backend, *ENDLESS, 2, 1000000, None, False, progress=stop)
            self.assertGreaterEqual(stopped.exception.value, LEAST)

    def test_another_fault_of_a_notebook_ends_nothing(self):
        def tell(nodes, bound):
            sys.last_value = ValueError()
        for backend in self.each():
            with unittest.mock.patch.object(sys, "last_value", KeyboardInterrupt(), create=True):
                self.assertEqual(solve_by(backend, *BAY, 2, 100, None, False, progress=tell).text(), BAY_TEXT)

    def test_workers(self):
        for backend in self.each():
            for workers in (1, 3, 64):
                self.assertEqual(solve_by(backend, *BAY, 2, 100, None, False, workers).text(), BAY_TEXT)
            for workers in (0, 65, -1, 2**64):
                with self.assertRaises(mapf.ArgumentFault) as refused:
                    solve_by(backend, *BAY, 2, 100, 0, False, workers)
                self.assertEqual((refused.exception.number, refused.exception.found), (42, str(workers)))

    def test_a_wrong_limit_is_refused_where_progress_is_told_too(self):
        for backend in self.each():
            with self.assertRaises(mapf.ArgumentFault) as refused:
                solve_by(backend, *BAY, 2, 100, 0, False, progress=print)
            self.assertEqual(refused.exception.number, 44)

    def test_all_rows(self):
        for backend in self.each():
            self.assertEqual(solve_by(backend, *BAY, None, 100, None, False).text(), BAY_TEXT)
            with self.assertRaises(mapf.InstanceFault) as refused:
                solve_by(backend, LINE[0], b"version 1\n", None, 100, None, False)
            self.assertEqual(refused.exception.text, "22 too few rows: 0")

    def test_no_time(self):
        for seconds in (0, -1, float("nan"), "3", [3]):
            with self.assertRaises(mapf.ArgumentFault) as refused:
                mapf.solve(*BAY, 2, seconds=seconds)
            found = f"no time: found {seconds!r}, wanted a number of seconds, more than 0"
            self.assertEqual(str(refused.exception), found)

    def test_memory(self):
        for backend in self.each():
            self.assertEqual(solve_by(backend, *BAY, 2, 100, None, False, memory=1000).text(), BAY_TEXT)
            with self.assertRaises(mapf.OutOfMemory) as refused:
                solve_by(backend, *ENDLESS, 2, 1000000, None, False, memory=24)
            self.assertEqual((refused.exception.number, refused.exception.text), (43, "43 no memory"))
        for memory in (0, 15, -1, 2**30 + 1, "64", 64.5):
            with self.assertRaises(mapf.ArgumentFault) as refused:
                mapf.solve(*BAY, 2, memory=memory)
            found = f"no memory: found {memory!r}, wanted a whole number of MB, 16 to 1,073,741,824"
            self.assertEqual(str(refused.exception), found)

    def test_options_become_words(self):
        words = "--agents 2 --workers 3 --bound 9 --nodes 4 --no-following --any-optimum"
        self.assertEqual(Options(2, 9, 3, 4, True, True).words(), words.split())
        self.assertEqual(Options(2).words(), "--agents 2 --workers 1 --bound 1000000".split())


@unittest.skipUnless(backends(), "neither library nor program is built")
class Command(unittest.TestCase):
    def endless(self, *more):
        with tempfile.TemporaryDirectory() as folder:
            files = written(folder, "a.map", ENDLESS[0]), written(folder, "a.scen", ENDLESS[1])
            return command("solve", *files, *more)

    def test_the_answers(self):
        cases = (((), 0, BAY_TEXT), (("--bound", 3), 1, "none 3\n"), (("--bound", 4, "--nodes", 5), 6, "gave up 5 4\n"),
                 (("--agents", 1), 0, "plan 1 0\n1,0\n"), (("--workers", 2, "--seconds", 60), 0, BAY_TEXT),
                 (("--no-following",), 0, "plan 2 7\n1,0 1,1 1,1 1,1 1,0\n0,0 0,0 1,0 2,0\n"))
        for more, status, text in cases:
            with self.subTest(more):
                self.assertEqual(command("solve", *BAY_FILES, *more), (status, text, ""))

    def out_of_time(self, *more):
        """The first answer out of time that a bound was told before."""
        for seconds in (1.5, 10, 60):
            status, out, err = self.endless("--seconds", seconds, *more)
            self.assertEqual((status, err), (6, ""))
            if " 0\n" not in out and '"lower_bound": 0' not in out:
                break
        return out

    def test_out_of_time(self):
        out = self.out_of_time()
        self.assertRegex(out, r"^out of time [0-9]+ [0-9]+\n$")
        self.assertGreaterEqual(int(out.split()[-1]), LEAST)

    def test_json(self):
        def of(*more):
            status, out, err = command("solve", *BAY_FILES, "--json", *more)
            row = json.loads(out)
            self.assertEqual((err, row.pop("map"), row.pop("scenario")), ("", *BAY_FILES))
            self.assertGreaterEqual(row.pop("seconds"), 0)
            return status, row
        nothing = {"agents": 2, "cost": None, "lower_bound": None, "nodes": None, "paths": None}
        paths = [[[1, 0], [1, 1], [1, 0]], [[0, 0], [1, 0], [2, 0]]]
        self.assertEqual(of(), (0, {**nothing, "status": "solved", "cost": 4, "paths": paths}))
        self.assertEqual(of("--bound", 3), (1, {**nothing, "status": "none", "lower_bound": 4}))
        gave_up = {**nothing, "status": "gave_up", "nodes": 5, "lower_bound": 4}
        self.assertEqual(of("--bound", 4, "--nodes", 5), (6, gave_up))

    def test_out_of_memory(self):
        found = "mapf: 43 no memory: found too little, wanted more memory\n"
        self.assertEqual(self.endless("--memory", 24), (4, "", found))

    def test_json_out_of_time(self):
        row = json.loads(self.out_of_time("--json"))
        self.assertEqual((row["status"], row["agents"]), ("out_of_time", 2))
        self.assertEqual((row["cost"], row["paths"]), (None, None))
        self.assertGreaterEqual(row["lower_bound"], LEAST)
        self.assertGreaterEqual(row["seconds"], 1.5)

    def test_progress(self):
        status, out, err = self.endless("--nodes", 2000, "--progress")
        self.assertEqual((status, out.split()[:3]), (6, ["gave", "up", "2000"]))
        for line in err.splitlines():
            self.assertRegex(line, r"^mapf: [0-9]+ nodes, no plan costs less than [0-9]+$")
        self.assertGreaterEqual(len(err.splitlines()), 2)

    def test_refusals(self):
        cases = ((("--workers", 65), 3, "mapf: 42 workers: found 65, wanted 1 to 64\n"),
                 (("--bound", -5), 3, "mapf: 41 bound: found -5, wanted 0 to 1,000,000\n"),
                 (("--seconds", 0), 3, "mapf: no time: found 0.0, wanted a number of seconds, more than 0\n"),
                 (("--memory", 8), 3, "mapf: no memory: found 8, wanted a whole number of MB, 16 to 1,073,741,824\n"),
                 (("--agents", 3), 3, f"mapf: {BAY_FILES[1]}: 22 too few rows: 2: found 2 rows for 3 agents, "
                  "wanted as many rows as agents\n"))
        for more, status, text in cases:
            with self.subTest(more):
                self.assertEqual(command("solve", *BAY_FILES, *more), (status, "", text))
        status, out, err = command("solve", BAY_FILES[0], "/nowhere")
        self.assertEqual((status, out), (5, ""))
        self.assertIn("/nowhere: 50 cannot open scenario", err)
        for more in (("--agents", "x"), ("--seconds", "soon"), ("--far",)):
            self.assertEqual(command("solve", *BAY_FILES, *more)[:2], (2, ""))

    def test_version(self):
        status, out, err = command("--version")
        self.assertEqual((status, out, err), (0, f"mapf {mapf.__version__}\n", ""))
        self.assertEqual(mapf.__version__, mapf.version())
