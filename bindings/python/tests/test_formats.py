"""Real outputs of planners: the formats that are only read, and how files end."""
import csv
import io
import json
import os
import tempfile
import unittest

import mapf
from mapf.calls import solve_by
from mapf.converters import SHAPES, read_plan, write_plan
from support import BAY, EXAMPLES, LINE, backends, command, map_of, scen_of, small_instances, written
from test_converters import PLAN, TEXTS

PLANS = os.path.join(EXAMPLES, "plans")
BAY_FILES = ("--map", os.path.join(EXAMPLES, "bay.map"), "--scen", os.path.join(EXAMPLES, "bay.scen"))
COLUMNS = "map_name,scen_type,type_id,agents,lower_cost,lower_date,solution_cost,solution_date,solution_plan"
READ = {
    "eecbs-stdout": "Agent 0 (0 -->2): 1->4->1->\nAgent 1 (2 -->2): 0->1->2->\n",
    "tracker": COLUMNS + '\nbay,even,1,2,4,2026-01-02,4,2026-01-02,"du\nrr"\n',
    "robot-runners": '{\n"actionModel": "MAPF",\n"teamSize": 2,\n"start": [\n[0, 1, "S"],\n[0, 0, "E"]\n],\n'
    '"sumOfCost": 4,\n"actualPaths": [\n"D,U",\n"R,R"\n]\n}\n',
}
REDUMPED = """schedule:
  agent0:
  - t: 0
    x: 1
    y: 0
  - t: 1
    x: 1
    y: 1
  - t: 2
    x: 1
    y: 0
  agent1:
  - t: 0
    x: 0
    y: 0
  - t: 1
    x: 1
    y: 0
  - t: 2
    x: 2
    y: 0
statistics:
  cost: 4
  makespan: 2
"""
# A change of the text above, and the line at which it is refused.
SPOILED = {
    "eecbs-stdout": (
        (("Agent 0", "Agent 1"), 1), (("Agent 1", "Agent 0"), 2), (("(0 -->2)", "(0-->2)"), 1),
        (("(0 -->2)", "(-1 -->2)"), 1), (("(0 -->2): ", "(0 -->2):"), 1), (("(0 -->2): ", ": "), 1),
        (("(2 -->2)", "(2 -->1000000000)"), 2), (("4->", "6->"), 1), (("4->", "(1,1)->"), 1), (("4->", "04->"), 1),
        (("4->", "-4->"), 1), (("4->", "4 ->"), 1), (("2->\n", "2\n"), 2), (("0->1->2->", ""), 2),
        (("\nAgent 1", "\n\nAgent 1"), 2), (("\nAgent 1", "\nEECBS:Succeed,4\nAgent 1"), 2), (("\nAgent 1", "\nx\n\nAgent 1"), 2),
        (("2->\n", "2->\nAgent 3 (0 -->0): 3->\n"), 3), (("2->\n", "2->\nEnd\nAgent 2 (0 -->0): 3->\n"), 3),
        ((READ["eecbs-stdout"], ""), 1), ((READ["eecbs-stdout"], "EECBS:Succeed,4\n"), 2),
    ),
    "tracker": (
        (("solution_plan", "plan"), 1), (("agents", "count"), 1), (("lower_cost", "agents"), 1), (("bay,", ""), 2),
        (("bay,", "bay,bay,"), 2), ((",2,4,2026", ",3,4,2026"), 2), ((",2,4,2026", ",two,4,2026"), 2),
        ((",4,2026-01-02,\"", ",4.5,2026-01-02,\""), 2), ((",4,2026-01-02,\"", ",-4,2026-01-02,\""), 2),
        (("du", "dU"), 2), (("du", "dd"), 2), (("rr", "rx"), 3), (("rr", "rrr"), 3), (('rr"', "rr"), 3),
        (('rr"\n', 'rr"\n' + "bay,even,1,2,4,,4,,\n"), 4), (("du", "du\n"), 2), (('rr"', 'rr"x'), 3),
        (('rr"', 'r"r"'), 3), ((READ["tracker"], ""), 1), ((READ["tracker"], COLUMNS + "\n"), 2),
        ((READ["tracker"], COLUMNS + '\n"b\nay",even,1,2,4,,4,,"du\nrx"\n'), 4),
    ),
    "robot-runners": (
        (('"MAPF"', '"MAPF_T"'), 2), (('"MAPF"', "1"), 2), (('"actionModel"', '"model"'), 1),
        (('"teamSize": 2', '"teamSize": 3'), 3), (('"teamSize": 2', '"teamSize": "2"'), 3),
        (('[0, 1, "S"]', '[0, 1, "S", 2]'), 5), (('[0, 1, "S"]', "[0]"), 5), (('[0, 1, "S"]', "1"), 5),
        (('[0, 1, "S"]', '["0", 1, "S"]'), 5), (('[0, 1, "S"]', '[0, 3, "S"]'), 5), (('[0, 0, "E"]', '[2, 0, "E"]'), 6),
        (('"S"],\n', '"S"]\n'), 6), (('[0, 1, "S"],\n', ""), 4), (('"sumOfCost": 4', '"sumOfCost": 4.5'), 8),
        (('"sumOfCost": 4', '"sumOfCost": -4'), 8), (('"D,U"', '"D,D"'), 10), (('"R,R"', '"R,F"'), 11),
        (('"R,R"', '"R,r"'), 11), (('"R,R"', '"RR"'), 11), (('"R,R"', '["R", "R"]'), 11), (('"R,R"', '"R,R,"'), 11),
        (('"start": [', '"begin": ['), 1), (('"actualPaths": [\n"D,U",\n"R,R"\n]', '"actualPaths": "D,U"'), 9),
        (('"actualPaths"', '"paths"'), 1), (("]\n}\n", "]\n"), 12), ((READ["robot-runners"], ""), 1),
        ((READ["robot-runners"], "[]"), 1), ((READ["robot-runners"], "[" * 100000), 1),
    ),
    "libmultirobotplanning": (
        (("  - t: 0", "  - t: 1"), 3), (("  - t: 1", "  - t: 0"), 6), (("    x: 1", "      x: 1"), 4),
        (("    x: 1", "  - x: 1"), 4), (("    x: 1\n", ""), 5), (("    y: 0\n", ""), 5),
        (("    y: 1\n", "    y: 2\n"), 8), (("    x: 2", "    x: 3"), 20), (("  agent1:", "  agent0:"), 12),
        (("  agent1:", "  agent2:"), 12), (("  - t: 0\n    x: 0\n    y: 0\n", "  - {t: 0, x: 0, y: 0}\n"), 13),
        (("    x: 0", "    x: 0.0"), 14), (("statistics:", "statistics: {}"), 22), (("statistics:", "schedule:"), 22),
        (("cost: 4", "cost: x"), 23), (("    x: 0", "    z: 0"), 14), (("schedule:", "cost: 4\nschedule:"), 24),
        (("schedule:", "cost: 4.5\nschedule:"), 1), (("schedule:", "schedule:\ncost: 4"), 3), (("schedule:", "cost: {}\nschedule:"), 1),
    ),
}


class Read(unittest.TestCase):
    def test_each_text_by_hand(self):
        for name, text in (*READ.items(), ("libmultirobotplanning", REDUMPED)):
            for ends in ("\n", "\r\n"):
                with self.subTest(name, ends=ends):
                    plan = read_plan(name, text.replace("\n", ends).encode(), None, *BAY)
                    self.assertEqual((plan, plan.cost, plan.text()), (PLAN, 4, PLAN.text()))

    def test_each_example_by_the_command(self):
        texts = {"bay": PLAN.text(), "crossing": "plan 2 5\n1,0 1,0 1,1 1,2\n0,1 1,1 2,1\n"}
        for name in SHAPES:
            files = sorted(os.listdir(os.path.join(PLANS, name)))
            self.assertEqual({file.partition("-")[0] for file in files}, set(texts))
            for file in files:
                stem = file.partition("-")[0]
                if (name, stem) == ("eecbs", "crossing"):
                    continue
                with self.subTest(name, file=file):
                    instance = (f"--map={EXAMPLES}/{stem}.map", f"--scen={EXAMPLES}/{stem}.scen")
                    answer = command("convert", "--from", name, *instance, os.path.join(PLANS, name, file))
                    self.assertEqual(answer, (0, texts[stem], ""))

    def test_each_spoiled_text_is_refused_by_its_line(self):
        for name, cases in SPOILED.items():
            self.assertGreaterEqual(len(cases), 10)
            for (old, new), line in cases:
                with self.subTest(name, old=old, new=new[:100]), tempfile.TemporaryDirectory() as folder:
                    text = READ.get(name, REDUMPED)
                    self.assertIn(old, text)
                    path = written(folder, "plan", text.replace(old, new, 1))
                    status, out, err = command("convert", "--from", name, *BAY_FILES, path)
                    self.assertEqual((status, out), (3, ""))
                    self.assertRegex(err, rf"\Amapf: {path}: no {name} at line {line}: found .+, wanted .+\n\Z")

    def test_another_action_model_is_refused_by_its_name(self):
        with self.assertRaises(mapf.ConversionFault) as refused:
            read_plan("robot-runners", READ["robot-runners"].replace('"MAPF"', '"MAPF_T"').encode())
        self.assertIn("MAPF_T", refused.exception.found)

    def test_what_is_needed_of_the_instance(self):
        no_map, no_scenario = ((None, BAY[1]), "no map"), ((BAY[0], None), "no scenario")
        for name, (instance, found) in (("eecbs-stdout", no_map), ("tracker", no_scenario), ("moves", no_scenario)):
            with self.subTest(name), self.assertRaises(mapf.ConversionFault) as refused:
                read_plan(name, {**READ, **TEXTS}[name].encode(), None, *instance)
            self.assertIn(found, refused.exception.found)
        self.assertEqual(read_plan("robot-runners", READ["robot-runners"].encode()), PLAN)

    def test_a_cost_outside_of_the_schedule(self):
        schedule = REDUMPED.partition("statistics:")[0]
        for text in ("cost: 4\n" + schedule, schedule + "cost: 4\n", "cost: 4\nruntime: 0.25\n" + schedule + "status: 1\n"):
            for ends in ("\n", "\r\n"):
                plan = read_plan("libmultirobotplanning", text.replace("\n", ends).encode(), None, *BAY)
                self.assertEqual((plan, plan.stated), (PLAN, 4))

    def test_what_pyyaml_dumps(self):
        try:
            import yaml
        except ImportError:
            self.skipTest("no PyYAML")
        paths = {f"agent{agent}": [{"t": t, "x": x, "y": y} for t, (x, y) in enumerate(path)] for agent, path in enumerate(PLAN.paths * 6)}
        for more in ({"cost": 24}, {"statistics": {"cost": 24, "makespan": 2}}):
            for sort in (True, False):
                text = yaml.safe_dump({"schedule": paths, **more}, sort_keys=sort)
                plan = read_plan("libmultirobotplanning", text.encode())
                self.assertEqual((plan.paths, plan.stated), (PLAN.paths * 6, 24))

    def test_what_planners_print_beside_their_paths(self):
        before, behind = "EECBS: 4 agents\n\nsolution=\n", "\nEECBS:Succeed,4,0.001\n  Agents: 2\n\n"
        text = before + READ["eecbs-stdout"] + behind
        for name in ("eecbs-stdout", "auto"):
            plan = read_plan(name, text.encode(), None, *BAY)
            self.assertEqual((plan, plan.stated), (PLAN, 4))

    def test_agents_in_the_order_of_their_names(self):
        agents = sorted(range(12), key=str)
        text = "schedule:\n" + "".join(f"  agent{agent}:\n  - t: 0\n    x: {agent}\n    y: 0\n" for agent in agents)
        paths = read_plan("libmultirobotplanning", text.encode()).paths
        self.assertEqual(paths, tuple(((agent, 0),) for agent in range(12)))

    def test_a_position_whose_keys_are_in_any_order(self):
        text = "statistics:\n  runtime: 0.1\nschedule:\n  agent0:\n  - y: 0\n    t: 0\n    x: 1\n"
        self.assertEqual(read_plan("libmultirobotplanning", text.encode()).paths, (((1, 0),),))

    def test_orientations_are_cut_off(self):
        turning = "0:(0,0,Y_MINUS),\n1:(0,0,X_PLUS),\n2:(1,0,X_PLUS)\n"
        self.assertEqual(read_plan("mapf-visualizer", turning.encode()).paths, (((0, 0), (0, 0), (1, 0)),))

    def test_paths_that_the_planner_only_planned(self):
        planned = READ["robot-runners"].replace("actualPaths", "plannerPaths")
        self.assertEqual(read_plan("robot-runners", planned.encode()), PLAN)
        both = READ["robot-runners"].replace('"actualPaths"', '"plannerPaths": ["W", "W"],\n"actualPaths"')
        self.assertEqual(read_plan("robot-runners", both.encode()), PLAN)

    def test_one_line_of_json(self):
        text = json.dumps(json.loads(READ["robot-runners"]), separators=(",", ":"))
        self.assertEqual(read_plan("robot-runners", text.encode()), PLAN)

    def test_a_plan_longer_than_a_field_of_csv(self):
        text = COLUMNS + "\nline,even,1,1,,,,," + "w" * 200_000 + "rr\n"
        self.assertEqual(read_plan("tracker", text.encode(), None, *LINE).cost, 200_002)


def letters(path):
    """The moves of a path."""
    names = {(0, 0): "w", (0, -1): "u", (0, 1): "d", (-1, 0): "l", (1, 0): "r"}
    return "".join(names[x - from_x, y - from_y] for (from_x, from_y), (x, y) in zip(path, path[1:]))


def outputs(plan, width):
    """A plan as the planners write it whose formats are only read."""
    cells = (f"Agent {agent} (0 -->{len(path) - 1}): " + "".join(f"{y * width + x}->" for x, y in path)
             for agent, path in enumerate(plan.paths))
    moves = [letters(path) for path in plan.paths]
    table = io.StringIO()
    rows = ("agents", "solution_cost", "solution_plan"), (len(moves), plan.cost, "\n".join(moves))
    csv.writer(table).writerows(rows)
    league = {
        "actionModel": "MAPF", "teamSize": len(moves), "start": [[y, x, "E"] for (x, y), *_ in plan.paths],
        "sumOfCost": plan.cost, "makespan": plan.makespan, "plannerPaths": [",".join(names.upper()) for names in moves]}
    texts = "\n".join(cells), table.getvalue(), json.dumps(league, indent=4)
    return dict(zip(("eecbs-stdout", "tracker", "robot-runners"), texts))


class Plans(unittest.TestCase):
    @unittest.skipUnless(backends(), "neither library nor program is built")
    def test_plans_of_the_program(self):
        backend, plans = backends()[-1], 0
        for grid, scen, agents in small_instances(100, 73):
            answer = solve_by(backend, grid, scen, agents, 1000000, 300, False)
            if not isinstance(answer, mapf.Plan) or answer.makespan == 0:
                continue
            plans += 1
            for name, text in outputs(answer, len(grid.split(b"\n")[4])).items():
                with self.subTest(name, plan=answer.text()):
                    plan = read_plan(name, text.encode(), None, grid, scen)
                    self.assertEqual((plan, plan.stated), (answer, answer.cost))
        self.assertGreater(plans, 50)


class Ends(unittest.TestCase):
    def test_a_last_line_without_lf_and_blank_last_lines(self):
        for name, text in (*TEXTS.items(), *READ.items(), ("libmultirobotplanning", REDUMPED)):
            for end in ("", "\r\n", "\n\n", "\n\n\n\n", "\n \n\t\n", "\n\r\n\r\n", "\n "):
                with self.subTest(name, end=end):
                    self.assertEqual(read_plan(name, (text[:-1] + end).encode(), None, *BAY), PLAN)

    def test_empty_last_lines_of_moves(self):
        instance = map_of("... ..."), scen_of(3, 2, (0, 0, 1, 0), (0, 1, 0, 1), (2, 1, 2, 1))
        still, first = (((0, 0), (1, 0)), ((0, 1),), ((2, 1),)), (((0, 0), (1, 0)),)
        for paths, texts in ((first, ("r", "r\n", "r\n\n")), (still, ("r\n\n\n", "r\n\n\n\n", "r\nw\nw", "r\n\nw\n"))):
            for text in texts:
                with self.subTest(text):
                    self.assertEqual(read_plan("moves", text.encode(), None, *instance).paths, paths)
        self.assertEqual(write_plan("moves", mapf.Plan(still)), "r\nw\nw\n")

    def test_a_last_agent_of_the_tracker_that_never_moves(self):
        instance = map_of("... ..."), scen_of(3, 2, (0, 0, 1, 0), (0, 1, 0, 1), (2, 1, 2, 1))
        for agents, plan in ((1, "r\n"), (1, "r"), (2, "r\n"), (2, "r\nw"), (2, "r\n\n")):
            with self.subTest(plan, agents=agents):
                found = read_plan("tracker", f'agents,solution_plan\n{agents},"{plan}"\n'.encode(), None, *instance)
                self.assertEqual(found.paths, (((0, 0), (1, 0)), ((0, 1),))[:agents])
