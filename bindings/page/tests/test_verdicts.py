"""The page judges: each fault with its time and its place, and files that it refuses."""
import math

from pages import PAGE, PageTest, program_check
from support import BAY, CROSSING, map_of, scen_of

OPEN = map_of("... ... ..."), scen_of(3, 3, (0, 0, 2, 0), (0, 2, 2, 2))
PAIR = map_of(".."), scen_of(2, 1, (0, 0, 1, 0), (1, 0, 0, 0))
CROSSED, SWAPPED = "plan 2 4\n1,0 1,1 1,2\n0,1 1,1 2,1\n", "plan 2 2\n0,0 1,0\n1,0 0,0\n"
FOLLOWED = "plan 2 4\n1,0 1,1 1,0\n0,0 1,0 2,0\n"
STRAIGHT = "0,0 1,0 2,0\n0,2 1,2 2,2\n"
# The instance, the plan, whether no one may follow; the line, and the time and the place that the fault is shown at.
FAULTS = (
    (OPEN, "plan 2 4\n0,0 1,0 2,0\n0,1 1,1 2,1\n", False, "62 wrong start agent 1", 0, (0, 1)),
    (OPEN, "plan 2 3\n0,0 2,0\n0,2 1,2 2,2\n", False, "63 bad step agent 0 time 1", 0.5, (1, 0)),
    (OPEN, "plan 2 3\n0,0 1,0 2,0\n0,2 1,2\n", False, "64 wrong end agent 1", 1, (1, 2)),
    (OPEN, "plan 2 5\n0,0 1,0 2,0 2,0\n0,2 1,2 2,2\n", False, "65 ends late agent 0", 3, (2, 0)),
    (CROSSING, CROSSED, False, "66 vertex conflict agents 0 1 cell 1,1 time 1", 1, (1, 1)),
    (PAIR, SWAPPED, False, "66 swapping conflict agents 0 1 from 0,0 to 1,0 time 1", 0.5, (0.5, 0)),
    (BAY, FOLLOWED, True, "66 following conflict agents 1 0 cell 1,0 time 1", 0.5, (1, 0)),
)
REFUSED = (
    ("map", b"type hexagons\nheight 3\nwidth 3\nmap\n...\n...\n...\n", "1 type line"),
    ("map", OPEN[0].replace(b"height 3", b"height 0"), "2 height line"),
    ("map", OPEN[0].replace(b"height 3", b"height 4"), "5 missing row at line 8"),
    ("map", OPEN[0].replace(b"...\n...\n...", b"...\n..\n..."), "6 row length at line 6"),
    ("map", OPEN[0].replace(b"...\n...\n...", b"...\n.\xe9.\n..."), "7 bad cell at line 6 column 2 byte 233"),
    ("map", OPEN[0].replace(b"height 3", b"height 2049"), "9 too large at line 2"),
    ("map", b"", "1 type line"),
    ("scen", b"version 2\n", "11 version line"),
    ("scen", OPEN[1].replace(b"\t0\n", b"\n", 1), "12 field count at line 2"),
    ("scen", OPEN[1].replace(b"map.map\t3", b"map.map\tthree", 1), "13 bad number at line 2 field 3"),
    ("scen", scen_of(3, 3, (0, 0, 2, 0)), "22 too few rows: 1"),
    ("scen", scen_of(4, 3, (0, 0, 2, 0), (0, 2, 2, 2)), "23 wrong size in row 0"),
    ("scen", scen_of(3, 3, (0, 0, 2, 0), (0, 0, 2, 2)), "26 shared start in rows 0 and 1"),
    ("plan", b"", "31 head line"),
    ("plan", b"plan 2 4\n0,0 1,0 2,0\n0,2  1,2 2,2\n", "32 bad line 3"),
    ("plan", b"plan 2 4\n0,0 1,0 2,0\n0,2 1,2 2,\xe9\n", "32 bad line 3"),
    ("plan", b"plan 2 4\n0,0 1,0 2,0\n0,2 1,2 3,2\n", "33 outside at line 3 place 2"),
)


class Verdicts(PageTest):
    @classmethod
    def setUpClass(cls):
        super().setUpClass()
        cls.browser.open(PAGE)

    def judge(self, instance, plan, rule=False):
        """Gives the page the files and the rule; the program has to say the same."""
        self.browser.value(f"$('rule').checked = {'true' if rule else 'false'}")
        self.load(map=instance[0], scen=instance[1], plan=plan)
        self.enter("count", 2)
        title, line = self.shown()
        self.assertEqual(line, program_check(*instance, plan.encode(), 2, rule)[1])
        return title, line

    def test_each_fault_has_its_time_and_place(self):
        for instance, plan, rule, line, time, (x, y) in FAULTS:
            with self.subTest(line):
                title, shown = self.judge(instance, plan, rule)
                self.assertEqual((shown, title), (line, "A conflict" if line.startswith("66") else "Not valid"))
                self.browser.value("stay(state.plan.end), Object.assign(camera, { x: -500, y: 900, scale: 3 })")
                self.browser.key("c")
                self.assertEqual(self.browser.value("[state.time, state.playing]"), [time, False])
                self.assertTrue(self.browser.value(f"isSeen(...onScreen({x}, {y}), 20)"))
                self.browser.value("camera.scale = 100, redraw()")
                ring = 0.56 * math.sqrt(0.5)
                self.assertEqual(self.pixel(x + ring, y + ring), self.browser.value("colours.bad"))

    def test_the_pin_and_the_button_go_to_the_fault(self):
        self.judge(CROSSING, CROSSED)
        for button in ("#pin", "#go"):
            self.browser.key("Home")
            self.browser.click(button)
            self.assertEqual(self.browser.value("state.time"), 1)

    def test_faults_without_a_place(self):
        for plan, line in (("none 5\n", "no plan given"), ("plan 2 5\n" + STRAIGHT, "67 wrong cost stated 5 found 4")):
            with self.subTest(line):
                self.assertEqual(self.judge(OPEN, plan), ("Not valid", line))
                hidden = self.browser.value("[state.fault, $('go').hidden, $('pin').hidden]")
                self.assertEqual(hidden, [None, True, True])

    def test_another_number_of_agents_is_no_fault(self):
        self.assertEqual(self.judge(OPEN, "plan 1 2\n0,0 1,0 2,0\n"), ("Another number of agents", "61 agent count 1"))
        self.assertEqual(self.browser.value("$('verdict').className"), "card idle")
        self.assertEqual(self.note(), "The plan has 1: enter 1 above, or solve anew.")
        self.enter("count", 1)
        self.assertEqual(self.shown(), ("Valid, cost 2", "valid 2"))

    def test_the_mark_of_a_conflict_hides_no_agent(self):
        """All nine cells of a map have an agent but one; the first goes over the second's, in the middle."""
        cells = [(0, 1), (1, 1), (0, 0), (1, 0), (2, 0), (2, 1), (0, 2), (1, 2)]
        scen = scen_of(3, 3, (0, 1, 2, 2), *(cell + cell for cell in cells[1:]))
        plan = "plan 8 3\n0,1 1,1 2,1 2,2\n" + "".join(f"{x},{y}\n" for x, y in cells[1:])
        self.load(map=OPEN[0], scen=scen, plan=plan)
        self.enter("count", 8)
        self.assertEqual(self.shown()[1], "66 vertex conflict agents 0 1 cell 1,1 time 1")
        self.browser.key("c")
        self.browser.value("fit()")
        for agent, (x, y) in list(enumerate(cells))[2:]:
            for side, down in ((0.22, 0), (-0.22, 0), (0, 0.22), (0, -0.22), (0, 0.33), (0, -0.33)):
                self.assertEqual(self.pixel(x + side, y + down), self.hue(agent), (agent, side, down))
        self.assertEqual([self.pixel(0.77, 1.17), self.pixel(1.23, 1.17)], [self.hue(0), self.hue(1)])

    def test_a_valid_plan(self):
        self.assertEqual(self.judge(OPEN, "plan 2 4\n" + STRAIGHT), ("Valid, cost 4", "valid 4"))
        self.browser.key("Home")
        self.assertEqual([self.pixel(0.3, 0), self.pixel(1, 1)], [self.hue(), self.browser.value("colours.floor")])

    def test_broken_files_are_refused_by_the_programs_line(self):
        for kind, contents, line in REFUSED:
            with self.subTest(line):
                files = {"map": OPEN[0], "scen": OPEN[1], "plan": b"plan 2 4\n" + STRAIGHT.encode(), kind: contents}
                self.load(**files)
                self.enter("count", 2)
                self.assertEqual(self.shown(), ("Refused", line))
                name = self.browser.value(f"$('name-{kind}').textContent")
                self.assertEqual(self.note(), f"{name}: this is the first fault of that file.")
                self.assertEqual(program_check(files["map"], files["scen"], files["plan"], 2), (3, line))
        self.load(map=OPEN[0], scen=OPEN[1], plan="plan 2 4\n" + STRAIGHT)
        for count in (0, 1001, 2**64 + 2):
            self.enter("count", count)
            self.assertEqual(self.shown(), ("Refused", "21 agent count"))
            self.assertEqual(self.note(), "Ask for 1 to 1,000 agents.")

    def test_the_text_is_judged_as_it_is_typed(self):
        self.load(map=OPEN[0], scen=OPEN[1], plan="plan 2 4\n" + STRAIGHT)
        self.browser.value("document.querySelector('details').open = true, $('text').focus()")
        self.browser.value("$('text').setSelectionRange(7, 8)")
        self.browser.send("Input.insertText", text="5")
        self.browser.until("$('name-plan').textContent === 'edited.plan'")
        self.assertEqual(self.shown(), ("Not valid", "67 wrong cost stated 5 found 4"))
        self.browser.send("Input.insertText", text="\u00e9")
        self.assertEqual(self.shown(), ("Refused", "31 head line"))
