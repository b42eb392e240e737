"""The converters: there and back, spoiled files, and files that are padded, swapped or counted from 1."""
import os
import unittest

import mapf
from mapf.calls import check_by, solve_by
from mapf.converters import SHAPES, WRITTEN, read_plan, write_plan
from support import BAY, CROSSING, EXAMPLES, backends, map_of, scen_of, small_instances

PLAN = mapf.Plan((((1, 0), (1, 1), (1, 0)), ((0, 0), (1, 0), (2, 0))))
UNEVEN = mapf.Plan((((1, 0), (1, 0), (1, 1), (1, 2)), ((0, 1), (1, 1), (2, 1))))
TEXTS = {
    "eecbs": "Agent 0: (0,1)->(1,1)->(0,1)->\nAgent 1: (0,0)->(0,1)->(0,2)->\n",
    "lns": "Agent 0:(0,1)->(1,1)->(0,1)->\nAgent 1:(0,0)->(0,1)->(0,2)->\n",
    "lacam": "agents=2\nsolved=1\nsoc=4\nmakespan=2\nsolution=\n0:(1,0),(0,0),\n1:(1,1),(1,0),\n2:(1,0),(2,0),\n",
    "mapf-visualizer": "0:(1,0),(0,0),\n1:(1,1),(1,0),\n2:(1,0),(2,0),\n",
    "libmultirobotplanning": "statistics:\n  cost: 4\n  makespan: 2\nschedule:\n"
    "  agent0:\n    - x: 1\n      y: 0\n      t: 0\n    - x: 1\n      y: 1\n      t: 1\n    - x: 1\n      y: 0\n      t: 2\n"
    "  agent1:\n    - x: 0\n      y: 0\n      t: 0\n    - x: 1\n      y: 0\n      t: 1\n    - x: 2\n      y: 0\n      t: 2\n",
    "moves": "du\nrr\n",
}
# A change of the text above, and the line at which it is refused.
SPOILED = {
    "eecbs": (
        (("Agent 0", "Agent 1"), 1), (("Agent 1", "Agent 2"), 2), (("Agent 0: ", "Agent 0:"), 1), (("Agent 0", "agent 0"), 1),
        (("(0,1)->\nAgent", "(0,1)\nAgent"), 1), (("(0,2)->\n", "(0,2)"), 2), (("(0,1)->\n", "(0,1)->\n\n"), 2),
        (("(0,0)", "(0, 0)"), 2), (("(0,0)", "(0,-1)"), 2), (("(0,0)", "(0,0,0)"), 2), (("(0,0)", "(00,0)"), 2),
        (("(0,2)->", "(0,3)->"), 2), (("(1,1)->", "(2,1)->"), 1), (("(0,0)", "[0,0]"), 2), (("(0,0)->(0,1)->(0,2)->", ""), 2),
        (("(0,0)", "(1000000000,0)"), 2), (("->", ","), 1), ((TEXTS["eecbs"], ""), 1), (("(0,1)->\n", "(0,1)-> \n"), 1),
    ),
    "lns": (
        (("Agent 0", "Agent 1"), 1), (("Agent 1", "Agent 0"), 2), (("Agent 0:", "Agent 0: "), 1),
        (("Agent 1:", "Agent 1"), 2), (("(0,0)->", "(0,0)"), 2), (("(0,0)->", "(0,0) ->"), 2), (("(0,0)", "(0,0"), 2),
        (("(0,0)", "(0.0,0)"), 2), (("(0,2)", "(0,3)"), 2), (("(1,1)", "(2,1)"), 1), (("(0,0)->(0,1)->(0,2)->", ""), 2),
        (("\nAgent 1", "\n\nAgent 1"), 2), (("(0,2)->\n", "(0,2)->\nx"), 3), ((TEXTS["lns"], ""), 1),
    ),
    "lacam": (
        (("solution=\n", ""), 5), (("agents=2", "agents=3"), 1), (("makespan=2", "makespan=3"), 4), (("solved=1", "solved=2"), 2),
        (("1:(1,1)", "2:(1,1)"), 7), (("1:(1,1),(1,0),\n", ""), 7), (("(1,1),(1,0),", "(1,1),"), 7), (("(1,0),\n2", "(1,0)\n2"), 7),
        (("(2,0),\n", "(2,0)"), 8), (("(1,0),\n2", "(1,0),\n\n2"), 8), (("(2,0)", "(3,0)"), 8), (("(1,1)", "(1,2)"), 7),
        (("soc=4", "soc 4"), 3), (("soc=4", "agents=2"), 3), (("(2,0)", "(2;0)"), 8), (("0:", "00:"), 6), (("(2,0),", "(2,0), "), 8),
        ((TEXTS["lacam"], ""), 1), ((TEXTS["lacam"], "solution=\n"), 2), ((TEXTS["lacam"], "solution=\n0:\n"), 2), (("(2,0)", "(-2,0)"), 8),
        (("soc=4", "soc=four"), 3), (("soc=4", "soc=1000000001"), 3), (("(1,1)", "(1,1,Y_PLUS)"), 7),
    ),
    "mapf-visualizer": (
        (("0:", "1:"), 1), (("1:", "0:"), 2), (("1:", "solution=\n1:"), 2), (("(1,1),", "(1,1,X_BACK),"), 2),
        (("(1,1),", "(1,1,Z_PLUS),"), 2), (("(1,1),", "(1,1,),"), 2), (("(1,1),", "(1,1)"), 2), (("(1,1),", ""), 2),
        (("(1,1)", "(1,2)"), 2), (("(2,0)", "(3,0)"), 3), (("(2,0)", "(2,0"), 3), (("2:(1,0),(2,0),", "2:"), 3),
        (("2:", "\n2:"), 3), ((TEXTS["mapf-visualizer"], ""), 1),
    ),
    "libmultirobotplanning": (
        (("schedule:", "plan:"), 4), (("agent0", "agent1"), 15), (("agent1", "agent2"), 15), (("      t: 1\n", "      t: 2\n"), 11),
        (("      t: 2\n  agent1", "  agent1"), 14), (("    - x: 0", "    - y: 0"), 17), (("    - x: 0", "      - x: 0"), 16),
        (("    - x: 0", "\t- x: 0"), 16), (("    - x: 0", "    - x: -1"), 16), (("    - x: 2", "    - x: 3"), 22), (("y: 1", "y: 2"), 10),
        (("    - x: 1\n      y: 0\n      t: 0\n", "    - {x: 1, y: 0, t: 0}\n"), 6), (("x: 0", "x: 0.0"), 16), (("x: 0", "x:  0"), 16),
        (("  agent1:\n", "  agent1:\n  agent2:\n"), 15), ((TEXTS["libmultirobotplanning"], ""), 1),
        ((TEXTS["libmultirobotplanning"], "schedule:\n"), 2), (("statistics", "# statistics"), 1), (("schedule:\n", "schedule:\n\n"), 5),
        (("cost: 4", "cost: four"), 2), (("makespan: 2", "cost: 4"), 3), (("cost: 4", "cost:"), 2), (("schedule:\n", "schedule:\nschedule:\n"), 5),
        (("      y: 0", "    y: 0"), 7), (("  agent1:", "  agent01:"), 15), (("  agent1:", " agent1:"), 15),
    ),
    "moves": (
        (("d", "D"), 1), (("rr", "rx"), 2), (("rr\n", "r r"), 2), (("rr\n", "rr\nu\n"), 3), (("rr", "lr"), 2), (("rr", "rrr"), 2),
        (("du", "dd"), 1), (("du", "d u"), 1), (("du", "1u"), 1), ((TEXTS["moves"], ""), 1), (("du", "d\ru"), 1), (("du", "d,u"), 1),
        (("rr", "\u2192r"), 2), (("du", "uu"), 1),
    ),
}


class ThereAndBack(unittest.TestCase):
    def test_each_text_by_hand(self):
        for name, text in TEXTS.items():
            with self.subTest(name):
                self.assertEqual(read_plan(name, text.encode(), None, *BAY), PLAN)
                self.assertEqual(write_plan(name, PLAN), text)

    def test_lines_that_end_with_cr_lf(self):
        for name, text in TEXTS.items():
            with self.subTest(name):
                self.assertEqual(read_plan(name, text.replace("\n", "\r\n").encode(), None, *BAY), PLAN)

    def test_paths_of_several_lengths(self):
        for name in WRITTEN:
            with self.subTest(name):
                self.assertEqual(read_plan(name, write_plan(name, UNEVEN).encode(), None, *CROSSING), UNEVEN)

    def test_other_shapes_of_a_file(self):
        self.assertEqual(read_plan("lacam", TEXTS["lacam"].partition("makespan=2\n")[2].encode()), PLAN)
        longer = "solver=planner\nstarts=(1,0),(0,0),\ncomp_time_1=0\n" + TEXTS["lacam"]
        self.assertEqual(read_plan("lacam", longer.encode()), PLAN)
        shorter = TEXTS["libmultirobotplanning"].partition("makespan: 2\n")[2]
        self.assertEqual(read_plan("libmultirobotplanning", shorter.encode()), PLAN)

    def test_an_agent_that_never_moves(self):
        still = mapf.Plan((((0, 0),), ((1, 0), (2, 0))))
        instance = map_of("..."), scen_of(3, 1, (0, 0, 0, 0), (1, 0, 2, 0))
        for name in WRITTEN:
            with self.subTest(name):
                self.assertEqual(read_plan(name, write_plan(name, still).encode(), None, *instance), still)

    @unittest.skipUnless(backends(), "neither library nor program is built")
    def test_plans_of_the_program(self):
        backend, plans = backends()[-1], 0
        for grid, scen, agents in small_instances(100, 58):
            answer = solve_by(backend, grid, scen, agents, 1000000, 300, False)
            if isinstance(answer, mapf.Plan):
                plans += 1
                for name in WRITTEN:
                    with self.subTest(name, plan=answer.text()):
                        self.assertEqual(read_plan(name, write_plan(name, answer).encode(), None, grid, scen), answer)
        self.assertGreater(plans, 50)

    def test_the_examples(self):
        plans = {"bay-2": PLAN, "crossing-2": UNEVEN}
        folders = {name: os.path.join(EXAMPLES, "plans", name) for name in SHAPES}
        for name, folder in folders.items():
            self.assertTrue(os.listdir(folder))
            for file in os.listdir(folder):
                with self.subTest(name, file=file):
                    stem = os.path.splitext(file)[0]
                    instance = [contents(os.path.join(EXAMPLES, stem[:-2] + end)) for end in (".map", ".scen")]
                    plan = read_plan(name, contents(os.path.join(folder, file)), None, *instance)
                    if (name, stem) == ("eecbs", "crossing-2"):
                        self.assertEqual(plan.text(), "plan 2 4\n1,0 1,1 1,2\n0,1 1,1 2,1\n")
                    else:
                        self.assertEqual(plan, plans[stem])


class Spoiled(unittest.TestCase):
    def test_each_is_refused_by_its_line(self):
        for name, cases in SPOILED.items():
            self.assertGreaterEqual(len(cases), 10)
            for (old, new), line in cases:
                with self.subTest(name, old=old, new=new):
                    text = TEXTS[name].replace(old, new, 1)
                    self.assertNotEqual(text, TEXTS[name])
                    with self.assertRaises(mapf.ConversionFault) as refused:
                        read_plan(name, text.encode(), "some file", *BAY)
                    fault = refused.exception
                    self.assertEqual((fault.line, fault.format_name, fault.path, fault.number), (line, name, "some file", None))
                    self.assertTrue(fault.found and fault.wanted)

    def test_moves_want_a_scenario(self):
        with self.assertRaises(mapf.ConversionFault):
            read_plan("moves", b"du\nrr\n")
        with self.assertRaises(mapf.ConversionFault):
            read_plan("moves", b"du\nrr\n", None, None, b"version 1\n0 map 3 2 1 0 1 0 0\n0 map 3 2 x 0 2 0 0\n")

    def test_more_than_1000_agents(self):
        lines = [f"Agent {agent}: ({agent},0)->\n" for agent in range(1001)]
        self.assertEqual(len(read_plan("eecbs", "".join(lines[:1000]).encode()).paths), 1000)
        with self.assertRaises(mapf.ConversionFault) as refused:
            read_plan("eecbs", "".join(lines).encode())
        self.assertEqual((refused.exception.line, refused.exception.found), (1001, "1001 agents"))

    def test_steps_that_are_no_moves(self):
        for path in (((0, 0), (1, 1)), ((0, 0), (2, 0))):
            with self.assertRaises(mapf.ConversionFault):
                write_plan("moves", mapf.Plan((path,)))

    def test_answers_without_a_plan(self):
        for text in (b"none 4\n", b"gave up 5 4\n"):
            with self.assertRaises(mapf.ConversionFault):
                read_plan("plan", text)


class OtherConventions(unittest.TestCase):
    def judged(self, name, text, instance):
        """The verdicts on what a text converts to."""
        plan = read_plan(name, text.encode(), None, *instance)
        return {check_by(backend, *instance, plan, None, False).line for backend in backends()}

    def test_padding_is_cut_and_the_cost_counted(self):
        padded = {
            "eecbs": "Agent 0: (0,1)->(0,1)->(1,1)->(2,1)->(2,1)->\nAgent 1: (1,0)->(1,1)->(1,2)->(1,2)->(1,2)->\n",
            "lacam": "solution=\n0:(1,0),(0,1),\n1:(1,0),(1,1),\n2:(1,1),(2,1),\n3:(1,2),(2,1),\n4:(1,2),(2,1),\n",
            "moves": "wddww\nrrwww\n",
            "libmultirobotplanning": write_plan("libmultirobotplanning", mapf.Plan(
                tuple(path + (path[-1],) * 2 for path in UNEVEN.paths))),
        }
        for name, text in padded.items():
            with self.subTest(name):
                plan = read_plan(name, text.encode(), None, *CROSSING)
                self.assertEqual((plan, plan.cost), (UNEVEN, 5))

    def test_an_agent_that_comes_back_is_not_padding(self):
        plan = read_plan("moves", b"du\nrr\n", None, *BAY)
        self.assertEqual(plan.paths[0], ((1, 0), (1, 1), (1, 0)))

    def test_swapped_positions_outside_are_refused(self):
        for name, text, line in (("eecbs", "Agent 0: (1,0)->(1,1)->(1,0)->\nAgent 1: (0,0)->(1,0)->(2,0)->\n", 2),
                                 ("lacam", "solution=\n0:(0,1),(0,0),\n1:(1,1),(0,1),\n2:(0,1),(0,2),\n", 4)):
            with self.subTest(name), self.assertRaises(mapf.ConversionFault) as refused:
                read_plan(name, text.encode(), None, *BAY)
            self.assertEqual(refused.exception.line, line)

    @unittest.skipUnless(backends(), "neither library nor program is built")
    def test_swapped_positions_on_a_square_map_are_judged(self):
        swapped = mapf.Plan(tuple(tuple((y, x) for x, y in path) for path in UNEVEN.paths))
        for name in ("eecbs", "lacam", "libmultirobotplanning"):
            with self.subTest(name):
                self.assertEqual(self.judged(name, write_plan(name, swapped), CROSSING), {"62 wrong start agent 0"})

    @unittest.skipUnless(backends(), "neither library nor program is built")
    def test_positions_that_count_from_1(self):
        counted = mapf.Plan(tuple(tuple((x + 1, y + 1) for x, y in path) for path in UNEVEN.paths))
        wide = map_of("..... ..... ..... ....."), scen_of(5, 4, (1, 0, 1, 2), (0, 1, 2, 1))
        for name in ("eecbs", "lacam", "libmultirobotplanning"):
            with self.subTest(name):
                with self.assertRaises(mapf.ConversionFault):
                    read_plan(name, write_plan(name, counted).encode(), None, *CROSSING)
                self.assertEqual(self.judged(name, write_plan(name, counted), wide), {"62 wrong start agent 0"})
        with self.assertRaises(mapf.ConversionFault) as refused:
            read_plan("eecbs", b"Agent 1: (0,1)->\nAgent 2: (0,0)->\n")
        self.assertEqual(refused.exception.line, 1)


def contents(path):
    """A file's bytes."""
    with open(path, "rb") as file:
        return file.read()
