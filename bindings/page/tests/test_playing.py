"""The page plays, scrubs, zooms, and takes what is dropped."""
from browser import Browser
from pages import PAGE, PageTest
from support import BAY

UNDER = """(() => { const box = view.getBoundingClientRect(), [x, y] = onScreen(0, 0);
  return [(900 - box.left - x) / camera.scale, (300 - box.top - y) / camera.scale]; })()"""
THIRD = """(() => { const [x, y] = onScreen(...place(state.plan, 3, 0)), box = view.getBoundingClientRect();
  return [x + box.left, y + box.top]; })()"""
DROP = """(() => {{ const data = new DataTransfer();
  for (const [name, text] of {files}) data.items.add(new File([text], name));
  for (const kind of ["dragover", "drop"]) {{
    dispatchEvent(new DragEvent(kind, {{ dataTransfer: data, cancelable: true }}));
    (window.seen ??= []).push($("drop").hidden); }} }})()"""


class Playing(PageTest):
    @classmethod
    def setUpClass(cls):
        super().setUpClass()
        cls.browser.open(PAGE)

    def setUp(self):
        self.browser.value("stay(0), $('speed').selectedIndex = 2, fit()")

    def camera(self):
        return self.browser.value("[camera.x, camera.y, camera.scale]")

    def test_plays_and_pauses(self):
        self.browser.value("$('speed').selectedIndex = 0")
        self.browser.key(" ")
        self.browser.until("state.playing && state.time > 1")
        self.browser.click("#play")
        playing, time = self.browser.value("[state.playing, state.time]")
        self.painted()
        self.assertEqual((playing, self.browser.value("state.time")), (False, time))
        self.assertIn("/ 31", self.browser.value("$('clock').textContent"))

    def test_plays_to_the_end_and_anew(self):
        self.browser.value("stay(state.plan.end - 0.5), $('speed').selectedIndex = 5")
        self.browser.key(" ")
        self.browser.until("!state.playing")
        self.assertEqual(self.browser.value("state.time"), 31)
        self.browser.value("$('speed').selectedIndex = 0")
        self.browser.key(" ")
        self.browser.until("state.playing && state.time > 0 && state.time < 30")

    def test_steps(self):
        times = []
        for key in ("ArrowRight", "ArrowRight", "ArrowLeft", "End", "ArrowRight", "Home", "ArrowLeft"):
            self.browser.key(key)
            times.append(self.browser.value("state.time"))
        self.assertEqual(times, [1, 2, 1, 31, 31, 0, 0])

    def test_scrubs(self):
        self.browser.click("#time")
        self.assertTrue(14 < self.browser.value("state.time") < 17)
        here = self.browser.value("place(state.plan, 0, state.time)")
        self.assertEqual(self.pixel(here[0] - 0.3, here[1]), self.hue())

    def test_agents_are_between_cells_between_steps(self):
        plan = "{ paths: [Int32Array.of(2, 5, 3, 5)], lasts: [1] }"
        places = self.browser.value(f"[0, 0.5, 1, 99].map((time) => place({plan}, 0, time))")
        self.assertEqual(places, [[2, 5], [2.5, 5], [3, 5], [3, 5]])

    def test_zooms_by_keys_and_moves(self):
        x, y, scale = self.camera()
        for key in "++-":
            self.browser.key(key)
        self.assertAlmostEqual(self.camera()[2], scale * 1.25)
        self.browser.key("ArrowRight", shift=True)
        self.assertAlmostEqual(self.camera()[0], x + 60 / (scale * 1.25))
        self.browser.key("0")
        self.assertEqual(self.camera(), [x, y, scale])

    def test_the_wheel_keeps_the_cell_under_the_pointer(self):
        self.browser.mouse("Moved", 900, 300)
        before, scale = self.browser.value(UNDER), self.camera()[2]
        self.browser.mouse("Wheel", 900, 300, deltaX=0, deltaY=-240)
        self.browser.until(f"camera.scale > {scale} * 1.3")
        for old, new in zip(before, self.browser.value(UNDER)):
            self.assertAlmostEqual(old, new, places=6)

    def test_drags(self):
        x, _, scale = self.camera()
        self.browser.mouse("Pressed", 700, 500)
        self.browser.mouse("Moved", 760, 500, buttons=1)
        self.browser.mouse("Released", 760, 500)
        self.assertAlmostEqual(self.camera()[0], x - 60 / scale)
        self.assertIsNone(self.browser.value("state.chosen"))

    def test_pinches(self):
        scale = self.camera()[2]
        for kind, apart in (("touchStart", 100), ("touchMove", 150), ("touchMove", 200), ("touchEnd", None)):
            points = [{"x": 900 + side * apart, "y": 400, "id": side} for side in (0, 1)] if apart else []
            self.browser.send("Input.dispatchTouchEvent", type=kind, touchPoints=points)
        self.browser.until(f"Math.abs(camera.scale / {scale} - 2) < 0.05")

    def test_a_click_chooses_an_agent(self):
        x, y = self.browser.value(THIRD)
        self.browser.mouse("Pressed", x, y)
        self.browser.mouse("Released", x, y)
        pressed = self.browser.value("$('agents').children[3].getAttribute('aria-pressed')")
        self.assertEqual((self.browser.value("state.chosen"), pressed), (3, "true"))
        self.browser.click("#agents button:nth-child(4)")
        self.assertIsNone(self.browser.value("state.chosen"))

    def test_trails_and_goals(self):
        self.browser.value("stay(31)")
        start, goal = self.browser.value("[state.rows[0].slice(0, 2), state.rows[1].slice(2)]")
        floor, trail = self.browser.value("colours.floor"), self.pixel(*start)
        self.browser.key("t")
        self.assertEqual(trail, floor)
        self.assertNotEqual(self.pixel(*start), floor)
        self.browser.key("t")
        self.browser.value("stay(0)")
        self.assertNotEqual(self.pixel(*goal), floor)
        self.browser.key("g")
        self.assertEqual(self.pixel(*goal), floor)
        self.browser.key("g")

    def test_waiting_and_detours(self):
        """Agent 0 leaves its goal for the bay: a step away is 2. In the other plan it waits there before: one more."""
        floor = self.browser.value("colours.floor")
        self.browser.click("#delays")
        for plan, said in (("plan 2 4\n1,0 1,1 1,0\n0,0 1,0 2,0\n", "2, on a cell 2 at most"),
                           ("plan 2 6\n1,0 1,0 1,1 1,0\n0,0 0,0 1,0 2,0\n", "4, on a cell 3 at most")):
            self.load(map=BAY[0], scen=BAY[1], plan=plan)
            self.assertEqual(self.browser.value("$('delay').innerText"), "Steps of waiting and detours: " + said)
        self.browser.value("stay(1)")
        waited, delayed, other = (self.pixel(x + 0.45, 0.45) for x in range(3))
        self.assertEqual(len({delayed, waited, floor}), 3)
        self.assertEqual(other, floor)
        self.browser.key("d")
        self.assertEqual([self.pixel(1.45, 0.45), self.browser.value("$('delay').innerText")], [floor, ""])
        self.browser.open(PAGE)

    def test_files_are_dropped(self):
        plan = "plan 2 4\n1,0 1,1 1,0\n0,0 1,0 2,0\n"
        files = [["bay.map", BAY[0].decode()], ["bay.scen", BAY[1].decode()], ["bay.plan", plan]]
        self.browser.value(DROP.format(files=files))
        self.browser.until("$('name-plan').textContent === 'bay.plan'")
        self.assertEqual(self.shown(), ("Valid, cost 4", "valid 4"))
        self.assertEqual(self.browser.value("seen"), [False, True])
        self.browser.open(PAGE)


class Dark(PageTest):
    def test_light_and_dark(self):
        light = self.browser
        light.open(PAGE)
        dark = Browser(dark=True)
        self.addCleanup(dark.close)
        dark.open(PAGE)
        shades = [one.value("getComputedStyle(document.body).backgroundColor + colours.floor") for one in (light, dark)]
        self.assertEqual(shades, ["rgb(246, 245, 241)rgb(255, 255, 255)", "rgb(20, 22, 26)rgb(32, 36, 43)"])
