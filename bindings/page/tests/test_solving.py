"""The page solves: the program's bytes, a stop, a limit, and no request at all."""
import os
import socket
import struct

from pages import PAGE, PageTest, program_solve
from support import EXAMPLES, map_of, scen_of

GRID = tuple(open(os.path.join(EXAMPLES, "grid-32-32" + suffix), "rb").read() for suffix in (".map", ".scen"))
# Two agents that would have to pass one another: no search of it ends.
ENDLESS = map_of("..."), scen_of(3, 1, (0, 0, 2, 0), (2, 0, 0, 0))
# Six ways out of a page, and one out of a worker; it answers what the worker met.
WAYS_OUT = """(() => {{ const at = "http://127.0.0.1:{port}/";
  window.blocked = new Set();
  addEventListener("securitypolicyviolation", (event) => blocked.add(event.effectiveDirective));
  fetch(at).catch(() => 0); navigator.sendBeacon(at); new Image().src = at;
  for (const [tag, name] of [["script", "src"], ["link", "href"], ["video", "src"]])
    document.head.append(Object.assign(document.createElement(tag), {{ rel: "stylesheet", [name]: at }}));
  const code = `fetch("${{at}}").catch((error) => postMessage(error.name))`;
  const worker = new Worker(URL.createObjectURL(new Blob([code])));
  return new Promise((done) => {{ worker.onmessage = (event) => done(event.data); }}); }})()"""
BLOCKED = ["connect-src", "img-src", "media-src", "script-src-elem", "style-src-elem"]


class Solving(PageTest):
    def setUp(self):
        self.browser.open(PAGE)

    def ask(self, agents, nodes="", rule=False):
        """Asks for a solve."""
        self.browser.value(f"$('rule').checked = {str(rule).lower()}")
        self.browser.value(f"$('nodes').value = '{nodes}', $('count').value = {agents}")
        self.browser.key("s")

    def plan(self):
        """The plan's text."""
        return self.browser.value("textOf(state.files.plan.bytes)")

    def test_opens_with_a_plan_that_costs_least(self):
        self.assertEqual(self.shown(), ("Valid, cost 208", "valid 208"))
        self.assertEqual((0, self.plan()), program_solve(*GRID, 10))
        footer = self.browser.value("document.querySelector('footer').innerText")
        for part in ("Not proved", "LLVM", "linker", "heap", "script", "drawing", "browser"):
            self.assertIn(part, footer)

    def test_solves_to_the_programs_bytes(self):
        for agents, rule in ((10, False), (10, True), (3, False)):
            with self.subTest(agents=agents, rule=rule):
                self.ask(agents, rule=rule)
                text = program_solve(*GRID, agents, rule=rule)[1]
                cost = text.split(None, 3)[2]
                self.assertEqual(self.shown(), (f"Valid, cost {cost}", f"valid {cost}"))
                self.assertEqual(self.plan(), text)

    def test_any_optimum(self):
        self.browser.click("#any")
        for rule in (False, True):
            with self.subTest(rule=rule):
                self.ask(10, rule=rule)
                cost = program_solve(*GRID, 10, rule=rule)[1].split(None, 3)[2]
                self.assertEqual(self.shown(), (f"Valid, cost {cost}", f"valid {cost}"))
                self.assertEqual((0, self.plan()), program_solve(*GRID, 10, rule=rule, any_optimum=True))
                for part in ("$('note')", "document.querySelector('footer')"):
                    self.assertIn("an optimum, whichever of several", self.browser.value(part + ".innerText").lower())
        self.browser.click("#any")
        self.assertNotIn("whichever", self.browser.value("document.querySelector('footer').innerText"))

    def test_saves_the_plan(self):
        self.browser.click("#save")
        self.assertEqual(self.saved("solved.plan").decode(), self.plan())

    def test_saves_the_picture(self):
        self.browser.click("#picture")
        picture, size = self.saved("solved.png"), self.browser.value("[view.width, view.height]")
        self.assertEqual((picture[:8], list(struct.unpack(">II", picture[16:24]))), (b"\x89PNG\r\n\x1a\n", size))

    def test_stops_a_long_solve(self):
        self.load(map=ENDLESS[0], scen=ENDLESS[1])
        self.ask(2)
        self.browser.until("state.solving && $('line').textContent !== ''")
        shown = self.browser.value("[$('title').textContent, $('solve').textContent, state.plan, $('who').hidden]")
        self.assertEqual(shown, ["Solving", "Stop", None, True])
        self.browser.click("#solve")
        self.assertEqual(self.shown(), ("Stopped", ""))
        self.assertEqual(self.browser.value("$('solve').textContent"), "Solve")
        self.ask(1)
        self.assertEqual(self.shown(), ("Valid, cost 2", "valid 2"))

    def test_another_number_of_agents_ends_a_search(self):
        self.load(map=ENDLESS[0], scen=ENDLESS[1])
        self.ask(2)
        self.browser.until("state.solving")
        self.enter("count", 1)
        self.assertEqual(self.shown(), ("Stopped", ""))

    def test_gives_up_and_shows_no_old_plan(self):
        self.load(map=ENDLESS[0], scen=ENDLESS[1], plan="plan 1 2\n0,0 1,0 2,0\n")
        self.ask(2, nodes=5)
        status, text = program_solve(*ENDLESS, 2, nodes=5)
        self.assertEqual((status, *self.shown()), (6, "Gave up", text.strip()))
        self.assertEqual(self.browser.value("[state.plan, $('text').value, $('save').disabled]"), [None, "", True])


class WaysOut(PageTest):
    def test_no_request_leaves_it(self):
        self.browser.open(PAGE)
        asked = [told["params"] for told in self.browser.events if told["method"] == "Network.requestWillBeSent"]
        self.assertEqual({one["request"]["url"].split(":")[0] for one in asked} - {"blob"}, {"file"})
        with socket.create_server(("127.0.0.1", 0)) as server:
            self.assertEqual(self.browser.value(WAYS_OUT.format(port=server.getsockname()[1])), "TypeError")
            self.browser.until(f"blocked.size === {len(BLOCKED)}")
            self.assertEqual(self.browser.value("[...blocked].sort()"), BLOCKED)
            server.settimeout(0)
            self.assertRaises(BlockingIOError, server.accept)

    def tearDown(self):
        """The policy's complaints are what is wanted here."""


class OldBrowser(PageTest):
    def test_without_64_bit_memory_it_says_so_and_shows_the_picture(self):
        self.browser.send("Page.addScriptToEvaluateOnNewDocument", source="WebAssembly.validate = () => false")
        self.browser.open(PAGE)
        self.assertEqual(self.shown(), ("This browser can't run the checker", ""))
        self.assertIn("64-bit memory", self.browser.value("$('note').textContent"))
        self.load(map=map_of("..."), scen=scen_of(3, 1, (0, 0, 2, 0)), plan="plan 1 2\n0,0 1,0 2,0\n")
        self.assertIn("64-bit memory", self.browser.value("$('why').innerText"))
        disabled = self.browser.value("[$('solve').disabled, $('play').disabled]")
        self.assertEqual((disabled, self.pixel(0.3, 0)), ([True, False], self.hue()))
