"""Any optimum: what it costs is what the first one costs, and the checker calls it valid."""
import random
import types
import unittest

import mapf
from mapf._input import Input
from mapf.calls import solve_by
from mapf.options import Options
from support import BAY, CROSSING, HAS_LIBRARY, backends, command, small_instances, with_library, with_program
from test_solve import BAY_FILES, BAY_TEXT, ENDLESS, LEAST

INSTANCES = 60


class AnyOptimum(unittest.TestCase):
    @with_program
    def test_small_instances_by_both_rules(self):
        program, library = mapf.program.Program(), mapf.library.Library() if HAS_LIBRARY else None
        draw, kinds = random.Random(70), set()
        for number, (grid, scen, agents) in enumerate(small_instances(INSTANCES, 70)):
            bound = draw.choice((5, 9, 12))
            for rule in (False, True):
                with self.subTest(number, rule=rule):
                    first = solve_by(program, grid, scen, agents, bound, None, rule)
                    found = solve_by(program, grid, scen, agents, bound, None, rule, any_optimum=True)
                    self.same(first, found, grid, scen, rule)
                    if library:
                        files = Input("map", grid, None), Input("scenario", scen, None)
                        asked = Options(agents, bound, no_following=rule, any_optimum=True)
                        self.same(first, mapf.read_text(library.solve_here(*files, asked)[1]), grid, scen, rule)
                    kinds.add(type(first))
        self.assertEqual(kinds, {mapf.Plan, mapf.NoPlan})

    def same(self, first, found, grid, scen, rule):
        """Both are plans of one cost, and the second is valid; or both are the same answer without one."""
        if isinstance(first, mapf.Plan):
            verdict = mapf.check(grid, scen, found, None, rule)
            self.assertEqual((verdict.line, found.cost), (f"valid {first.cost}", first.cost))
        else:
            self.assertEqual(found, first)

    @unittest.skipUnless(backends(), "neither library nor program is built")
    def test_a_crossing_by_each_backend(self):
        for backend in backends():
            with self.subTest(backend.name):
                answer = solve_by(backend, *CROSSING, None, 9, None, False, seconds=600, any_optimum=True)
                self.assertEqual((answer.cost, mapf.check(*CROSSING, answer).line), (5, "valid 5"))
                told = []
                answer = solve_by(
                    backend, *ENDLESS, 2, 1_000_000, 20, False, any_optimum=True,
                    progress=lambda *words: told.append(words))
                self.assertEqual((type(answer), answer.nodes), (mapf.GaveUp, 20))
                self.assertGreaterEqual(answer.lower_bound, LEAST)
                self.assertTrue(told)

    @unittest.skipUnless(backends(), "neither library nor program is built")
    def test_the_command_and_the_call(self):
        self.assertEqual(command("solve", *BAY_FILES, "--any-optimum"), (0, BAY_TEXT, ""))
        self.assertEqual(command("solve", *BAY_FILES, "--any-optimum", "--bound", 3), (1, "none 3\n", ""))
        self.assertEqual(mapf.solve(*BAY_FILES, any_optimum=True).text(), BAY_TEXT)

    @with_library
    def test_an_older_library(self):
        older = mapf.library.Library()
        older._functions = types.SimpleNamespace(mapf_solve=None, mapf_check=None, mapf_version=None)
        with self.assertRaises(mapf.NotBuilt) as refused:
            solve_by(older, *BAY, 2, 100, None, False, any_optimum=True)
        self.assertIn("has no mapf_solve_any", str(refused.exception))
