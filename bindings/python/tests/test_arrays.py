"""Instances of a grid and positions: solved, judged, written as files, and refused by name."""
import os
import random
import tempfile
import unittest

import mapf
from support import BAY, backends, command, small_instances, written

BAY_GRID, BAY_ENDS = ["...", "@.@"], {"starts": [(1, 0), (0, 0)], "goals": [(1, 0), (2, 0)]}
BAY_TEXT = "plan 2 4\n1,0 1,1 1,0\n0,0 1,0 2,0\n"
# Open cells with a wall in each fourth column, in which each eighth is open: 1,000 agents go down by one, and none meets another.
SIDE = 64
COLUMNS = [x for x in range(SIDE) if x % 4 != 3][:32]
THOUSAND = [(x, 2 * y) for x in COLUMNS for y in range(32)][:1000]


def parts(grid, scen, agents):
    """The grid, the starts and the goals of the files of an instance."""
    rows = [line.decode() for line in grid.split(b"\n")[4:-1]]
    ends = [[int(word) for word in line.split(b"\t")[4:8]] for line in scen.split(b"\n")[1:agents + 1]]
    return {"grid": rows, "starts": [end[:2] for end in ends], "goals": [end[2:] for end in ends]}


def numpy_or_skip(test):
    """The module numpy, where it is installed."""
    try:
        import numpy
    except ImportError:
        test.skipTest("no numpy")
    return numpy


@unittest.skipUnless(backends(), "neither library nor program is built")
class Arrays(unittest.TestCase):
    def test_a_grid_of_each_kind(self):
        for grid in (BAY_GRID, ("G..", "O.T"), [[0, 0, 0], [1, 0, 1]], [[False] * 3, (True, False, True)], [list("..."), list("@.@")],
                     memoryview(bytes([0, 0, 0, 1, 0, 1])).cast("B", (2, 3))):
            with self.subTest(grid=grid):
                answer = mapf.solve(grid=grid, **BAY_ENDS)
                self.assertEqual(answer.text(), BAY_TEXT)
                self.assertEqual(mapf.check(plan=answer, grid=grid, **BAY_ENDS).line, "valid 4")

    def test_arrays_of_numpy(self):
        numpy = numpy_or_skip(self)
        ends = {name: numpy.array(places) for name, places in BAY_ENDS.items()}
        for kind in (bool, "uint8", int, float):
            answer = mapf.solve(grid=numpy.array([[0, 0, 0], [1, 0, 1]], dtype=kind), **ends)
            self.assertEqual(answer.text(), BAY_TEXT)
            self.assertEqual(answer.array().tolist(), [[[1, 0], [0, 0]], [[1, 1], [1, 0]], [[1, 0], [2, 0]]])
        with self.assertRaises(mapf.InstanceFault) as refused:
            mapf.solve(grid=numpy.zeros((2, 3, 4)), **ends)
        self.assertEqual(refused.exception.text, "no cell 0 of row 0 of the grid")

    def test_the_other_words(self):
        self.assertEqual(mapf.solve(grid=BAY_GRID, **BAY_ENDS, bound=3), mapf.NoPlan(3))
        self.assertEqual(mapf.solve(grid=BAY_GRID, **BAY_ENDS, agents=1).text(), "plan 1 0\n1,0\n")
        self.assertEqual(mapf.solve(grid=BAY_GRID, **BAY_ENDS, no_following=True).cost, 7)
        self.assertEqual(mapf.check(plan=[[(1, 0)], [(0, 0), (1, 0), (2, 0)]], grid=BAY_GRID, **BAY_ENDS).number, 66)

    def test_the_same_as_by_files(self):
        for grid, scen, agents in small_instances(30, 90):
            by_arrays = mapf.solve(**parts(grid, scen, agents), bound=30, nodes=300)
            self.assertEqual(by_arrays, mapf.solve(grid, scen, agents, 30, 300))

    def test_a_thousand_agents_by_files_and_commands(self):
        grid = [[x % 4 == 3 and y % 8 != 7 for x in range(SIDE)] for y in range(SIDE)]
        agents = random.Random(90).sample(THOUSAND, 1000)
        instance = mapf.Instance(grid, agents, [(x, y + 1) for x, y in agents])
        with tempfile.TemporaryDirectory() as folder:
            paths = [os.path.join(folder, name) for name in ("a.map", "a.scen")]
            instance.write(*paths)
            status, out, err = command("solve", *paths)
            self.assertEqual((status, out.split("\n", 1)[0], err), (0, "plan 1000 1000", ""))
            plan = written(folder, "a.plan", out)
            self.assertEqual(command("check", "--map", paths[0], "--scen", paths[1], "--out", "csv", plan)[0], 0)
            self.assertEqual(mapf.check(plan=plan, grid=grid, starts=instance.starts, goals=instance.goals).line, "valid 1000")

    def test_refused_by_the_program(self):
        for ends, number, found in (({"starts": [(0, 1)], "goals": [(0, 0)]}, 24, "0,1, which is blocked by `@`"),
                                    ({"starts": [(0, 0)], "goals": [(2, 1)]}, 25, "2,1, which is blocked by `@`"),
                                    ({"starts": [(0, 0), (0, 0)], "goals": [(0, 0), (1, 0)]}, 26, "0,0 in both")):
            with self.assertRaises(mapf.InstanceFault) as refused:
                mapf.solve(grid=BAY_GRID, **ends)
            self.assertEqual((refused.exception.number, refused.exception.found), (number, found))


class Shapes(unittest.TestCase):
    CASES = (
        ({"grid": []}, "no grid", "0 rows"), ({"grid": [""]}, "no row 0 of the grid", "0 cells"),
        ({"grid": ["..."] * 2049}, "no grid", "2049 rows"), ({"grid": ["." * 2049]}, "no row 0 of the grid", "2049 cells"),
        ({"grid": ["...", ".."]}, "no row 1 of the grid", "2 cells"), ({"grid": "..."}, "no grid", "'...'"),
        ({"grid": ["...", ".#."]}, "no cell 1 of row 1 of the grid", "'#'"), ({"grid": [[0, 2]]}, "no cell 1 of row 0 of the grid", "'2'"),
        ({"grid": [[0, None]]}, "no cell 1 of row 0 of the grid", "'None'"), ({"grid": [7]}, "no row 0 of the grid", "'7'"),
        ({"grid": [[[0], [0]]]}, "no cell 0 of row 0 of the grid", "'[0]'"), ({"starts": 5}, "no starts", "'5'"),
        ({"starts": []}, "no number of agents", "0 starts"), ({"goals": []}, "no goal for each start", "0 goals"),
        ({"starts": [(0, 0)] * 1001}, "no number of agents", "1001 starts"),
        ({"starts": [(0, 0), (1, 0, 2)]}, "no start of agent 1", "'(1, 0, 2)'"), ({"goals": [(0, 0), (1.5, 0)]}, "no goal of agent 1", "'(1.5, 0)'"),
        ({"goals": [(0, 0), (3, 0)]}, "no goal of agent 1", "3,0"), ({"goals": [(-1, 0)]}, "no goal of agent 0", "-1,0"),
        ({"starts": [(0, 2)]}, "no start of agent 0", "0,2"), ({"starts": ["10"]}, "no start of agent 0", "'10'"),
    )

    def test_each_is_refused_by_its_name(self):
        for change, text, found in self.CASES:
            with self.subTest(text, found=found), self.assertRaises(mapf.InstanceFault) as refused:
                mapf.Instance(**{"grid": BAY_GRID, **BAY_ENDS, **change})
            fault = refused.exception
            self.assertEqual((fault.text, fault.found, fault.number, fault.path), (text, found, None, None))
            self.assertTrue(fault.wanted)

    def test_either_files_or_arrays(self):
        for words, found in (({}, "nothing"), ({"map": BAY[0]}, "map"), ({"grid": BAY_GRID}, "grid"),
                             ({"map": BAY[0], "scen": BAY[1], "grid": BAY_GRID}, "map, scen, grid"),
                             ({"map": BAY[0], "goals": []}, "map, goals")):
            with self.subTest(found), self.assertRaises(mapf.ArgumentFault) as refused:
                mapf.solve(**words)
            self.assertEqual((refused.exception.text, refused.exception.found), ("no instance", found))
        with self.assertRaises(mapf.ArgumentFault) as refused:
            mapf.check(*BAY)
        self.assertEqual(refused.exception.text, "no plan")


class Write(unittest.TestCase):
    def setUp(self):
        folder = tempfile.TemporaryDirectory()
        self.addCleanup(folder.cleanup)
        self.folder = folder.name

    def write(self, *names):
        """Writes the instance of the bay under these names."""
        mapf.Instance(BAY_GRID, **BAY_ENDS).write(*(os.path.join(self.folder, name) for name in names))

    def test_the_files(self):
        self.write("a b.map", "a.scen")
        texts = {}
        for name in os.listdir(self.folder):
            with open(os.path.join(self.folder, name), encoding="ascii") as file:
                texts[name] = file.read()
        rows = "0\ta b.map\t3\t2\t1\t0\t1\t0\t0\n0\ta b.map\t3\t2\t0\t0\t2\t0\t0\n"
        self.assertEqual(texts, {"a b.map": BAY[0].decode(), "a.scen": "version 1\n" + rows})

    def test_nothing_is_overwritten_or_left_behind(self):
        mine = written(self.folder, "mine", "mine")
        for names in (("mine", "b"), ("a", "mine"), ("a", "a"), ("a", "."), ("a\nb", "b")):
            with self.subTest(names), self.assertRaises(mapf.Fault):
                self.write(*names)
            self.assertEqual(os.listdir(self.folder), ["mine"])
        with self.assertRaises(OSError):
            self.write("a", "nowhere/b")
        self.assertEqual(os.listdir(self.folder), ["mine"])
        with open(mine, encoding="ascii") as file:
            self.assertEqual(file.read(), "mine")
