"""Solving and judging by each backend: worked instances, whose answers were worked out by hand."""
import os
import tempfile
import unittest

import mapf
from mapf.calls import check_by, solve_by
from support import BAY, CROSSING, EXAMPLES, LINE, RING, backends, map_of, scen_of, with_library, with_program, written

ONE_CELL_WIDE = map_of("..."), scen_of(3, 1, (0, 0, 2, 0), (2, 0, 0, 0))
SOLVED = (
    (LINE, 1, 2, None, False, "plan 1 2\n0,0 1,0 2,0\n"),
    (LINE, 1, 1, None, False, "none 1\n"),
    ((map_of(".. .."), scen_of(2, 2, (0, 0, 1, 1))), 1, 2, None, False, "plan 1 2\n0,0 1,0 1,1\n"),
    ((map_of("..."), scen_of(3, 1, (1, 0, 1, 0))), 1, 0, None, False, "plan 1 0\n1,0\n"),
    (BAY, 2, 4, None, False, "plan 2 4\n1,0 1,1 1,0\n0,0 1,0 2,0\n"),
    (BAY, 2, 1000000, None, False, "plan 2 4\n1,0 1,1 1,0\n0,0 1,0 2,0\n"),
    (BAY, 2, 7, None, True, "plan 2 7\n1,0 1,1 1,1 1,1 1,0\n0,0 0,0 1,0 2,0\n"),
    (BAY, 2, 4, 5, False, "gave up 5 4\n"),
    (BAY, 2, 4, 6, False, "plan 2 4\n1,0 1,1 1,0\n0,0 1,0 2,0\n"),
    (ONE_CELL_WIDE, 2, 6, None, False, "none 6\n"),
    (RING, 4, 4, None, False, "plan 4 4\n0,0 1,0\n1,0 1,1\n1,1 0,1\n0,1 0,0\n"),
    (RING, 4, 4, None, True, "none 4\n"),
    (CROSSING, 2, 9, None, False, "plan 2 5\n1,0 1,0 1,1 1,2\n0,1 1,1 2,1\n"),
    ((map_of(".@."), scen_of(3, 1, (0, 0, 2, 0))), 1, 1000000, None, False, "none 1000000\n"),
)
JUDGED = (
    ("plan 2 4\n1,0 1,1 1,0\n0,0 1,0 2,0\n", None, False, "valid 4"),
    ("plan 2 4\n1,0 1,1 1,0\n0,0 1,0 2,0\n", None, True, "66 following conflict agents 1 0 cell 1,0 time 1"),
    ("plan 2 4\n1,0 1,1 1,0\n0,0 1,0 2,0\n", 1, False, "61 agent count 2"),
    ("plan 2 2\n1,0\n0,0 1,0 2,0\n", None, False, "66 vertex conflict agents 0 1 cell 1,0 time 1"),
    ("plan 2 5\n1,0 1,1 1,0\n0,0 1,0 2,0 2,0\n", None, False, "65 ends late agent 1"),
    ("plan 2 5\n1,0 1,1 1,0\n0,0 1,0 2,0\n", None, False, "67 wrong cost stated 5 found 4"),
    ("plan 2 3\n0,0 1,0\n0,0 1,0 2,0\n", None, False, "62 wrong start agent 0"),
    ("plan 2 3\n1,0 0,1 1,0\n0,0 1,0 2,0\n", None, False, "63 bad step agent 0 time 1"),
    ("plan 2 3\n1,0 1,1\n0,0 1,0 2,0\n", None, False, "64 wrong end agent 0"),
    ("plan 2 4\n1,0 0,0 1,0\n0,0 1,0 2,0\n", None, False, "66 swapping conflict agents 0 1 from 1,0 to 0,0 time 1"),
    ("none 4\n", None, False, "no plan given"),
    ("gave up 5 4\n", 2, False, "no plan given"),
)
TWO_ROWS = scen_of(3, 2, (0, 0, 0, 1), (1, 0, 1, 1), (2, 1, 0, 1))
TREES = map_of("..T .G.")
SWAMP = map_of(".S.")
REFUSED = (
    (b"", LINE[1], 1, 2, None, mapf.MapFault, 1, "the end of the file"),
    (LINE[0].replace(b"height 1", b"height 0"), LINE[1], 1, 2, None, mapf.MapFault, 2, "'height 0'"),
    (LINE[0].replace(b"width 3", b"width three"), LINE[1], 1, 2, None, mapf.MapFault, 3, "'width three'"),
    (LINE[0].replace(b"\nmap", b"\nMAP"), LINE[1], 1, 2, None, mapf.MapFault, 4, "'MAP'"),
    (LINE[0].replace(b"height 1", b"height 2"), LINE[1], 1, 2, None, mapf.MapFault, 5, "the end of the file"),
    (LINE[0].replace(b"...", b".."), LINE[1], 1, 2, None, mapf.MapFault, 6, "2 bytes"),
    (SWAMP, LINE[1], 1, 2, None, mapf.MapFault, 7, "the byte 83, 'S'"),
    (LINE[0] + b"...\n", LINE[1], 1, 2, None, mapf.MapFault, 8, "'...'"),
    (LINE[0].replace(b"height 1", b"height 2049"), LINE[1], 1, 2, None, mapf.MapFault, 9, "'height 2049'"),
    (LINE[0], b"", 1, 2, None, mapf.ScenarioFault, 11, "the end of the file"),
    (LINE[0], b"version 1\n0 m.map 3 1 0 0 2 0\n", 1, 2, None, mapf.ScenarioFault, 12, "8 words"),
    (LINE[0], b"version 1\n0 m.map 3 1 12a 0 2 0 2\n", 1, 2, None, mapf.ScenarioFault, 13, "'12a'"),
    (LINE[0], b"version 1\n0x m y.map 3 1 0 0 2 0 2\n", 1, 2, None, mapf.ScenarioFault, 13, "'0x'"),
    (*LINE, 0, 2, None, mapf.InstanceFault, 21, "0"),
    (*LINE, 1001, 2, None, mapf.InstanceFault, 21, "1001"),
    (*LINE, -1, 2, None, mapf.InstanceFault, 21, "-1"),
    (*LINE, 2**64, 2, None, mapf.InstanceFault, 21, str(2**64)),
    (*LINE, 2, 2, None, mapf.InstanceFault, 22, "1 rows for 2 agents"),
    (LINE[0], scen_of(4, 1, (0, 0, 2, 0)), 1, 2, None, mapf.InstanceFault, 23, "4 x 1 for a map of 3 x 1"),
    (TREES, scen_of(3, 2, (2, 0, 0, 0)), 1, 2, None, mapf.InstanceFault, 24, "2,0, which is blocked by `T`"),
    (TREES, scen_of(3, 2, (0, 0, 0, 2)), 1, 2, None, mapf.InstanceFault, 25, "0,2, which is outside"),
    (TREES, scen_of(3, 2, (0, 0, 0, 1), (0, 0, 1, 1)), 2, 2, None, mapf.InstanceFault, 26, "0,0 in both"),
    (TREES, TWO_ROWS, 3, 9, None, mapf.InstanceFault, 27, "0,1 in both"),
    (*LINE, 1, 1000001, None, mapf.ArgumentFault, 41, "1000001"),
    (*LINE, 1, -1, None, mapf.ArgumentFault, 41, "-1"),
    (*LINE, 1, 2, 0, mapf.ArgumentFault, 44, "0"),
    (*LINE, 1, 2, 1000001, mapf.ArgumentFault, 44, "1000001"),
)


@unittest.skipUnless(backends(), "neither library nor program is built")
class Calls(unittest.TestCase):
    def each(self, name, **case):
        for backend in backends():
            with self.subTest(name, backend=backend.name, **case):
                yield backend

    def test_solved(self):
        for number, ((grid, scen), agents, bound, nodes, rule, text) in enumerate(SOLVED):
            for backend in self.each("solved", number=number):
                self.assertEqual(solve_by(backend, grid, scen, agents, bound, nodes, rule), mapf.read_text(text))
                self.assertEqual(solve_by(backend, grid, scen, agents, bound, nodes, rule).text(), text)

    def test_judged(self):
        for text, agents, rule, line in JUDGED:
            for backend in self.each("judged", line=line):
                self.assertEqual(check_by(backend, *BAY, text.encode(), agents, rule).line, line)

    def test_refused(self):
        for grid, scen, agents, bound, nodes, kind, number, found in REFUSED:
            for backend in self.each("refused", number=number):
                with self.assertRaises(kind) as refused:
                    solve_by(backend, grid, scen, agents, bound, nodes, False)
                self.assertEqual((type(refused.exception), refused.exception.number), (kind, number))
                self.assertEqual(refused.exception.found, found)
                self.assertTrue(refused.exception.wanted)
                self.assertIsNone(refused.exception.path)

    def test_refused_plans(self):
        cases = (("plan 2 04\n1,0\n0,0\n", 31, "31 head line", "'plan 2 04'"),
                 ("plan 2 4\n1,0 1,1 1,0\n0,0 1,0 2,0", 32, "32 bad line 3", "'0,0 1,0 2,0' without LF"),
                 ("plan 2 4\n1,0 1,1 1,0\n0,0 3,0 2,0\n", 33, "33 outside at line 3 place 1", "3,0"))
        for text, number, line, found in cases:
            for backend in self.each("refused plan", number=number):
                with self.assertRaises(mapf.PlanFault) as refused:
                    check_by(backend, *BAY, text.encode(), 2, False)
                self.assertEqual((refused.exception.number, refused.exception.text, refused.exception.found), (number, line, found))

    def test_the_order_of_faults(self):
        for backend in self.each("order"):
            with self.assertRaises(mapf.ArgumentFault) as refused:
                solve_by(backend, b"", b"", 0, 1000001, 0, False)
            self.assertEqual(refused.exception.number, 41)
            with self.assertRaises(mapf.MapFault):
                solve_by(backend, b"", b"", 0, 5, None, False)

    def test_a_plan_is_judged_as_its_text(self):
        for backend in self.each("plan"):
            answer = solve_by(backend, *BAY, 2, 100, None, False)
            self.assertEqual(check_by(backend, *BAY, answer, None, False).line, "valid 4")

    def test_lists_of_positions_are_judged(self):
        lists = [[(1, 0), (1, 1), (1, 0)], [(0, 0), (1, 0), [2, 0]]]
        for backend in self.each("lists"):
            for plan, agents, line in ((lists, None, "valid 4"), (tuple(lists[:1]), 2, "61 agent count 1"),
                                       ([lists[0], lists[1][:2]], None, "64 wrong end agent 1"),
                                       ([lists[0], lists[1] + [(2, 0)]], None, "65 ends late agent 1")):
                self.assertEqual(check_by(backend, *BAY, plan, agents, False).line, line)

    def test_answers_without_a_plan_are_judged(self):
        for backend in self.each("no plan"):
            for answer in (mapf.NoPlan(9), mapf.GaveUp(5, 4), mapf.OutOfTime(2000000, 4)):
                self.assertEqual(check_by(backend, *BAY, answer, None, False).line, "no plan given")

    def test_lists_that_are_no_positions(self):
        first = "no position of agent 0 at time 0"
        cases = (([[(1, 0)], [(0, 0), (1, 0, 2)]], "no position of agent 1 at time 1", "'(1, 0, 2)'"),
                 ([[(1, 0.5)]], first, "'(1, 0.5)'"), ([[1]], first, "'1'"), ([7], first, "'7'"), ([[]], first, "'[]'"))
        for lists, text, found in cases:
            for backend in self.each("no positions", text=text):
                with self.assertRaises(mapf.PlanFault) as refused:
                    check_by(backend, *BAY, lists, None, False)
                self.assertEqual((refused.exception.text, refused.exception.found), (text, found))
        for lists, number in (([], 31), ([[(-1, 0)]], 32), ([[(3, 0)]], 33)):
            for backend in self.each("no plan", lists=str(lists)):
                with self.assertRaises(mapf.PlanFault) as refused:
                    check_by(backend, *BAY, lists, None, False)
                self.assertEqual(refused.exception.number, number)

    @with_library
    @with_program
    def test_faults_are_the_same_by_both(self):
        for grid, scen, agents, bound, nodes, kind, _, _ in REFUSED:
            messages = []
            for backend in backends():
                with self.assertRaises(kind) as refused:
                    solve_by(backend, grid, scen, agents, bound, nodes, False)
                messages.append(str(refused.exception))
            self.assertEqual(messages[0], messages[1])


@unittest.skipUnless(backends(), "neither library nor program is built")
class Files(unittest.TestCase):
    def test_the_public_calls(self):
        grid, scen = (os.path.join(EXAMPLES, "bay" + end) for end in (".map", ".scen"))
        answer = mapf.solve(grid, scen, 2, bound=100)
        self.assertEqual((answer.cost, answer.makespan, answer.at(0, 1)), (4, 2, (1, 1)))
        self.assertEqual(mapf.solve(grid, scen, 2, bound=3), mapf.NoPlan(3))
        self.assertTrue(mapf.check(grid, scen, os.path.join(EXAMPLES, "plans", "bay-2.plan")).valid)
        self.assertEqual(mapf.check(grid, scen, answer, no_following=True).kind, "following conflict")
        self.assertRegex(mapf.version(), r"^\S*[0-9]+\.[0-9]+\.[0-9]+\S*$")

    def test_plans_of_other_planners(self):
        plans, bay = os.path.join(EXAMPLES, "plans"), [os.path.join(EXAMPLES, "bay" + end) for end in (".map", ".scen")]
        for name, file in (("eecbs", "eecbs/bay-2.eecbs"), ("plan", "bay-2.plan"), ("moves", "moves/bay-2.moves")):
            with self.subTest(name):
                self.assertEqual(mapf.read_plan(os.path.join(plans, file), name, *bay).cost, 4)
        path = os.path.join(plans, "eecbs/bay-2.eecbs")
        with self.assertRaises(mapf.ConversionFault) as refused:
            mapf.read_plan(path, "lacam")
        self.assertEqual((refused.exception.path, refused.exception.line), (path, 1))
        with self.assertRaises(mapf.ArgumentFault) as refused:
            mapf.read_plan(path, "cbs")
        self.assertEqual(refused.exception.found, "'cbs'")
        self.assertIn("plan, eecbs, ", refused.exception.wanted)
        with self.assertRaises(mapf.ConversionFault):
            mapf.read_plan(b"none 4\n")

    def test_paths_in_faults(self):
        with tempfile.TemporaryDirectory() as folder:
            grid, scen = written(folder, "some map", SWAMP), written(folder, "s\u00e9.scen", LINE[1])
            with self.assertRaises(mapf.MapFault) as refused:
                mapf.solve(grid, scen, 1)
            self.assertEqual((refused.exception.path, refused.exception.text), (grid, "7 bad cell at line 5 column 2 byte 83"))
            self.assertIn(grid, str(refused.exception))
            with self.assertRaises(mapf.InstanceFault) as refused:
                mapf.solve(LINE[0], scen, 2)
            self.assertEqual(refused.exception.path, scen)

    def test_files_that_cannot_be_read(self):
        with tempfile.TemporaryDirectory() as folder:
            absent = os.path.join(folder, "absent")
            for call, number, text in ((lambda: mapf.solve(absent, b"", 1), 50, "50 cannot open map"),
                                       (lambda: mapf.solve(b"", absent, 1), 50, "50 cannot open scenario"),
                                       (lambda: mapf.solve(folder, absent, 1), 51, "51 read failed map"),
                                       (lambda: mapf.check(*BAY, absent), 50, "50 cannot open plan")):
                with self.subTest(text), self.assertRaises(mapf.FileFault) as refused:
                    call()
                self.assertEqual((refused.exception.number, refused.exception.text), (number, text))
                self.assertEqual(refused.exception.path, folder if number == 51 else absent)
            with self.assertRaises(mapf.FileFault) as refused:
                mapf.solve(b"\n" * 67108865, b"", 1)
            self.assertEqual(refused.exception.number, 53)

    def test_numbers_that_are_none(self):
        for call in (lambda: mapf.solve(*LINE, "1"), lambda: mapf.solve(*LINE, 1, bound=2.5), lambda: mapf.solve(*LINE, 1, nodes="9")):
            with self.assertRaises(TypeError):
                call()

    def test_nothing_is_built(self):
        kept = {name: os.environ.get(name) for name in ("MAPF_LIBRARY", "MAPF_PROGRAM", "MAPF_BACKEND")}
        self.addCleanup(lambda: [os.environ.__setitem__(n, v) if v is not None else os.environ.pop(n, None) for n, v in kept.items()])
        os.environ.update(MAPF_LIBRARY="/nowhere", MAPF_PROGRAM="/nowhere", MAPF_BACKEND="")
        for asked in ("", "library", "program"):
            os.environ["MAPF_BACKEND"] = asked
            with self.subTest(asked), self.assertRaises(mapf.NotBuilt):
                mapf.solve(*LINE, 1)
        os.environ["MAPF_BACKEND"] = "both"
        with self.assertRaises(mapf.ArgumentFault) as refused:
            mapf.solve(*LINE, 1)
        self.assertEqual(str(refused.exception), "MAPF_BACKEND: found 'both', wanted `library` or `program`")
