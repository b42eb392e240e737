"""Plans, their text, and verdicts, without a backend."""
import types
import unittest
import unittest.mock

import mapf
from mapf.plan_text import agents_stated
from mapf.verdict import read_verdict

BAY = mapf.Plan((((1, 0), (1, 1), (1, 0)), ((0, 0), (1, 0), (2, 0))))
BAY_TEXT = "plan 2 4\n1,0 1,1 1,0\n0,0 1,0 2,0\n"


class Plans(unittest.TestCase):
    def test_cost_and_makespan(self):
        plan = mapf.Plan((((1, 0), (1, 0), (1, 1), (1, 2)), ((0, 1), (1, 1), (2, 1))))
        self.assertEqual((plan.cost, plan.makespan), (5, 3))

    def test_at_stays_on_the_goal(self):
        self.assertEqual([BAY.at(1, time) for time in (0, 1, 2, 3, 1000)], [(0, 0), (1, 0), (2, 0), (2, 0), (2, 0)])

    def test_at_counts_from_0(self):
        for agent, time in ((0, -1), (-1, 0), (2, 0)):
            with self.assertRaises(IndexError):
                BAY.at(agent, time)

    def test_text_and_back(self):
        self.assertEqual(BAY.text(), BAY_TEXT)
        self.assertEqual(mapf.read_text(BAY_TEXT), BAY)
        self.assertEqual(mapf.read_text(BAY_TEXT.encode()), BAY)

    def test_rows(self):
        rows = [(0, 0, 1, 0), (0, 1, 1, 1), (0, 2, 1, 0), (1, 0, 0, 0), (1, 1, 1, 0), (1, 2, 2, 0)]
        self.assertEqual(BAY.rows(), rows)
        self.assertEqual(BAY.rows()[1]._asdict(), {"agent": 0, "time": 1, "x": 1, "y": 1})

    def test_an_array_is_padded_by_the_last_position(self):
        plan = mapf.Plan((((5, 0),), ((0, 1), (1, 1), (1, 2))))
        with unittest.mock.patch.dict("sys.modules", numpy=None):
            self.assertEqual(plan.array(), [[[5, 0], [0, 1]], [[5, 0], [1, 1]], [[5, 0], [1, 2]]])

    def test_an_array_of_numpy_where_it_is(self):
        numpy = types.ModuleType("numpy")
        numpy.array = lambda lists: ("array", lists)
        with unittest.mock.patch.dict("sys.modules", numpy=numpy):
            self.assertEqual(mapf.Plan((((5, 0),),)).array(), ("array", [[[5, 0]]]))

    def test_a_plan_alone_is_true(self):
        answers = (BAY, mapf.NoPlan(9), mapf.GaveUp(1, 4), mapf.OutOfTime(0, 0))
        self.assertEqual([bool(answer) for answer in answers], [True, False, False, False])

    def test_the_other_answers(self):
        for answer in (mapf.NoPlan(0), mapf.NoPlan(1000000), mapf.GaveUp(1000, 652)):
            self.assertEqual(mapf.read_text(answer.text()), answer)
        self.assertEqual(mapf.read_text("none 6\n"), mapf.NoPlan(6))
        self.assertEqual(mapf.read_text("gave up 5 4\n"), mapf.GaveUp(5, 4))

    def test_spoiled_heads(self):
        for text in ("", "plan 2 4", "plan 1 02\n0,0\n", "plan 0 0\n", "plan 1001 0\n", "none 1000001\n", "none 01\n",
                     "gave up 0 4\n", "plan 1 1000000001\n0,0\n", "Plan 1 0\n0,0\n", "plan 1 0 \n0,0\n", "plan 1 \u0661\n0,0\n",
                     "plan " + "9" * 5000 + " 0\n", "none " + "1" * 5000 + "\n"):
            with self.subTest(text), self.assertRaises(mapf.PlanFault) as refused:
                mapf.read_text(text)
            self.assertEqual((refused.exception.number, refused.exception.text), (31, "31 head line"))

    def test_spoiled_lines(self):
        cases = (("plan 1 2\n0,0 1,0 2,0", 2), ("plan 1 0\n", 2), ("plan 2 0\n0,0\n", 3), ("plan 1 0\n0,0\n\n", 3),
                 ("plan 1 0\n0,0 \n", 2), ("plan 1 0\n 0,0\n", 2), ("plan 1 1\n0,0  1,0\n", 2), ("plan 1 0\n00,0\n", 2),
                 ("plan 1 0\n0,0\r\n", 2), ("plan 1 0\n0,-1\n", 2), ("plan 1 0\n\n", 2), ("none 6\n\n", 2), ("plan 1 0\n0,0\nx", 3))
        for text, line in cases:
            with self.subTest(text), self.assertRaises(mapf.PlanFault) as refused:
                mapf.read_text(text, "some.plan")
            self.assertEqual((refused.exception.number, refused.exception.text), (32, f"32 bad line {line}"))
            self.assertEqual(refused.exception.path, "some.plan")

    def test_another_cost(self):
        with self.assertRaises(mapf.PlanFault) as refused:
            mapf.read_text("plan 1 5\n0,0 1,0 2,0\n")
        self.assertEqual((refused.exception.number, refused.exception.found, refused.exception.wanted), (67, "5", "2"))

    def test_agents_stated(self):
        texts = (b"plan 2 4\n", b"plan 1000 0\n", b"plan 1001 0\n", b"plan 02 4\n", b"none 4\n", b"", b"\xff\n")
        self.assertEqual([agents_stated(text) for text in texts], [2, 1000, None, None, None, None, None])


class Verdicts(unittest.TestCase):
    def fields(self, line):
        verdict = read_verdict(line)
        self.assertEqual(verdict.line, line)
        return verdict.number, verdict.kind, verdict.agents, verdict.cell, verdict.to, verdict.time, verdict.stated, verdict.found

    def test_each_line(self):
        cases = {
            "valid 4": (None, "valid", (), None, None, None, 4, 4),
            "no plan given": (None, "no plan given", (), None, None, None, None, None),
            "61 agent count 2": (61, "agent count", (), None, None, None, None, 2),
            "62 wrong start agent 0": (62, "wrong start", (0,), None, None, None, None, None),
            "63 bad step agent 0 time 1": (63, "bad step", (0,), None, None, 1, None, None),
            "64 wrong end agent 7": (64, "wrong end", (7,), None, None, None, None, None),
            "65 ends late agent 1": (65, "ends late", (1,), None, None, None, None, None),
            "66 vertex conflict agents 0 1 cell 1,0 time 1": (66, "vertex conflict", (0, 1), (1, 0), None, 1, None, None),
            "66 swapping conflict agents 0 1 from 1,0 to 0,0 time 1": (66, "swapping conflict", (0, 1), (1, 0), (0, 0), 1, None, None),
            "66 following conflict agents 1 0 cell 1,0 time 1": (66, "following conflict", (1, 0), (1, 0), None, 1, None, None),
            "67 wrong cost stated 5 found 4": (67, "wrong cost", (), None, None, None, 5, 4),
        }
        for line, fields in cases.items():
            with self.subTest(line):
                self.assertEqual(self.fields(line), fields)

    def test_valid_alone_is_valid(self):
        self.assertTrue(read_verdict("valid 4").valid)
        self.assertFalse(read_verdict("no plan given").valid)

    def test_no_verdict(self):
        for line in ("", "valid", "valid 4 ", "31 head line"):
            with self.subTest(line), self.assertRaises(mapf.BackendFailure):
                read_verdict(line)
