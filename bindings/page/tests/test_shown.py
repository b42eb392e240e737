"""Pages of `mapf show`: the program's verdict, small and as large as can be."""
import os

from pages import PageTest
from support import BAY, CROSSING, command, map_of, scen_of, written

SIDE, AGENTS, STEPS = 2048, 1000, 300
# The pictures in a second while the plan plays from time 200 on.
RATE = """new Promise((done) => { const began = performance.now(); let frames = 0;
  const seen = () => ++frames < 20 ? requestAnimationFrame(seen) : done(20000 / (performance.now() - began));
  stay(200), setPlaying(true), requestAnimationFrame(seen); })"""


class Shown(PageTest):
    def page(self, instance, plan, *words):
        """Makes a page, and opens it."""
        contents = {"a.map": instance[0], "a.scen": instance[1], "a.plan": plan}
        files = [written(self.folder, name, text) for name, text in contents.items()]
        self.assertEqual(command("show", *files, *words)[0], 0)
        self.browser.open(os.path.join(self.folder, "a.html"))

    def test_a_conflict(self):
        self.page(CROSSING, "plan 2 4\n1,0 1,1 1,2\n0,1 1,1 2,1\n")
        self.assertEqual(self.shown(), ("A conflict", "66 vertex conflict agents 0 1 cell 1,1 time 1"))
        self.assertEqual(self.browser.value("[$('count').value, $('solve').disabled, state.plan.end]"), ["2", True, 2])
        self.assertEqual(self.browser.value("$('why').innerText"), "This page can't solve: it was made with one plan.")
        self.assertIn("Not proved", self.browser.value("document.querySelector('footer').innerText"))
        self.browser.key("c")
        self.assertEqual(self.browser.value("state.time"), 1)
        self.browser.key(" ")
        self.browser.until("state.time > 1.2")

    def test_the_rule(self):
        self.page(BAY, "plan 2 4\n1,0 1,1 1,0\n0,0 1,0 2,0\n", "--no-following")
        self.assertEqual(self.shown()[1], "66 following conflict agents 1 0 cell 1,0 time 1")
        self.assertTrue(self.browser.value("$('rule').checked"))

    def test_no_verdict_on_what_is_changed(self):
        self.page(BAY, "plan 2 4\n1,0 1,1 1,0\n0,0 1,0 2,0\n")
        self.assertEqual(self.shown(), ("Valid, cost 4", "valid 4"))
        self.browser.value("document.querySelector('details').open = true, $('text').focus()")
        self.browser.send("Input.insertText", text="x")
        self.assertEqual(self.shown(), ("No verdict", ""))

    def test_the_largest_map_and_a_thousand_agents(self):
        """Each agent goes along a row of its own; the last waits once."""
        ends = [(0, 2 * i, STEPS, 2 * i) for i in range(AGENTS)]
        lines = [" ".join(f"{x},{y}" for x in range(STEPS + 1)) for _, y, _, _ in ends]
        lines[-1] = lines[-1].replace("100,1998", "100,1998 100,1998")
        cost = AGENTS * STEPS + 1
        plan = "\n".join([f"plan {AGENTS} {cost}", *lines, ""])
        self.page((map_of(" ".join(["." * SIDE] * SIDE)), scen_of(SIDE, SIDE, *ends)), plan)
        self.assertEqual(self.shown(), (f"Valid, cost {cost}", f"valid {cost}"))
        self.assertEqual(self.browser.value("$('agents').children.length"), AGENTS)
        self.browser.value("stay(150.5)")
        self.assertEqual(self.pixel(149.5, 2 * AGENTS - 2), self.hue(AGENTS - 1))
        self.browser.click("#delays")
        self.assertEqual(self.browser.value("$('delay').innerText"), "Steps of waiting: 1, on a cell 1 at most")
        self.browser.click("#delays")
        self.browser.value("flip('trails'), Object.assign(camera, { x: 150, y: 300, scale: 12 })")
        rates = [self.browser.value(RATE) for _ in range(3)]
        self.assertGreater(max(rates), 15, rates)
        self.assertNotEqual(self.pixel(100, 600), self.browser.value("colours.floor"))
