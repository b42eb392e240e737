"""Plans of other planners are dropped in, and refused by their lines."""
import os

from pages import PAGE, PageTest, program_solve
from support import BAY, EXAMPLES, command, written
from test_solving import GRID

PLANS = os.path.join(EXAMPLES, "plans")
FORMATS = {"eecbs": "EECBS or LNS", "lns": "EECBS or LNS", "lacam": "LaCAM", "mapf-visualizer": "MAPF-visualizer"}
LACAM = "agents=2\nsolver=lacam\nsolved=1\nsoc=4\nmakespan=2\nsolution=\n0:(1,0),(0,0),\n1:(1,1),(1,0),\n2:(1,0),(2,0),\n"
REFUSED = (
    ("Agent 0: (0,1)->(1,1)->\nAgent 2: (0,0)->\n", "line 2: no Agent 1: (row,column)->.."),
    ("Agent 0: (0,1)->(1,1)\n", "line 1: no Agent 0: (row,column)->.."),
    ("Agent 0: \n", "line 1: no Agent 0: (row,column)->.."),
    (LACAM.replace("1:(1,1)", "2:(1,1)"), "line 8: no 1:(x,y),(x,y), of 2 agents"),
    (LACAM.replace("(2,0),", ""), "line 9: no 2:(x,y),(x,y), of 2 agents"),
    (LACAM.replace("agents=2", "agents=3"), "line 6: no agents=2 before it"),
    (LACAM.replace("makespan=2", "makespan=9"), "line 6: no makespan=2 before it"),
    (LACAM[:LACAM.index("0:(")], "line 7: no 0:(x,y),(x,y),"),
)


class Formats(PageTest):
    @classmethod
    def setUpClass(cls):
        super().setUpClass()
        cls.browser.open(PAGE)

    def drop(self, name, text):
        """Chooses a plan's file; the verdict's title and line."""
        self.browser.value("$('title').textContent = ''")
        self.browser.choose("#file-plan", written(self.folder, name, text))
        self.browser.until("$('title').textContent !== ''")
        return self.shown()

    def plan(self):
        return self.browser.value("textOf(state.files.plan.bytes)")

    def test_each_format(self):
        self.load(map=GRID[0], scen=GRID[1])
        text = program_solve(*GRID, 10)[1]
        path = written(self.folder, "ten.plan", text)
        for name, by in FORMATS.items():
            with self.subTest(name):
                status, converted, _ = command("convert", "--from", "plan", "--to", name, path)
                self.assertEqual(status, 0)
                self.assertEqual(self.drop("ten." + name, converted), ("Valid, cost 208", "valid 208"))
                self.assertTrue(self.note().startswith(f"Read as {by} writes it. "), self.note())
                self.assertEqual((self.plan(), self.browser.value("$('name-plan').textContent")), (text, "ten.plan"))

    def test_the_examples(self):
        self.load(map=BAY[0], scen=BAY[1])
        with open(os.path.join(PLANS, "bay-2.plan"), encoding="ascii") as file:
            wanted = file.read()
        for name in FORMATS:
            for file in sorted(os.listdir(os.path.join(PLANS, name))):
                with self.subTest(file), open(os.path.join(PLANS, name, file), encoding="ascii") as given:
                    if file.startswith("bay"):
                        self.assertEqual(self.drop(file, given.read()), ("Valid, cost 4", "valid 4"))
                        self.assertEqual(self.plan(), wanted)

    def test_what_they_state_is_judged(self):
        self.load(map=BAY[0], scen=BAY[1])
        self.assertEqual(self.drop("a", LACAM), ("Valid, cost 4", "valid 4"))
        wrong = self.drop("b", LACAM.replace("soc=4", "soc=5"))
        self.assertEqual(wrong, ("Not valid", "67 wrong cost stated 5 found 4"))
        self.assertEqual(self.drop("c", "agents=2\nsolved=0\nsoc=0\nsolution=\n"), ("Not valid", "no plan given"))
        self.assertEqual(self.browser.value("[state.plan, $('save').disabled]"), [None, True])

    def test_what_does_not_fit_is_refused_by_its_line(self):
        self.load(map=BAY[0], scen=BAY[1])
        for number, (text, line) in enumerate(REFUSED):
            with self.subTest(line):
                self.assertEqual(self.drop(f"{number}.txt", text), ("Refused", line))
                self.assertEqual(self.note(), f"{number}.txt: this is the first fault of that file.")
                self.assertEqual(self.browser.value("[state.plan, state.fault, $('verdict').className]"),
                                 [None, None, "card bad"])
        self.assertEqual(self.drop("other", "no plan at all\n"), ("Refused", "31 head line"))
