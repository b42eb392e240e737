"""`python3 -m mapf show -o FILE.svg`: what the pictures show, by their XML and in a browser; and a full disk."""
import contextlib
import itertools
import os
import re
import shutil
import subprocess
import sys
import tempfile
import unittest
from xml.etree import ElementTree

import mapf
from support import BAY, CROSSING, PACKAGE, ROOT, backends, command, map_of, scen_of, small_instances, written

sys.path.append(os.path.join(ROOT, "bindings", "page", "tests"))
import browser

BAY_TEXT = "plan 2 4\n1,0 1,1 1,0\n0,0 1,0 2,0\n"
CROSSING_TEXT = "plan 2 4\n1,0 1,1 1,2\n0,1 1,1 2,1\n"
SVG = "{http://www.w3.org/2000/svg}"
HAS_SMALL_DISKS = subprocess.run(["unshare", "-m", "true"], stderr=subprocess.DEVNULL).returncode == 0 if shutil.which("unshare") else False
# Asks the browser where the agents are at a step.
AT = """new Promise((done) => {{
  document.documentElement.pauseAnimations();
  document.documentElement.setCurrentTime({seconds});
  requestAnimationFrame(() => requestAnimationFrame(() => done([...document.querySelectorAll("g")].map((one) => {{
    const {{ e, f }} = one.transform.animVal[0].matrix;
    return [Math.round(1000 * e) / 1000, Math.round(1000 * f) / 1000];
  }}))));
}})"""


def place(words):
    """A position of two words."""
    return tuple(float(word) for word in words)


def at_time(group, time):
    """Where an agent's group is at a time between 0 and 1."""
    moves = group.find(SVG + "animateTransform")
    if moves is None:
        return place(re.fullmatch(r"translate\((\S+) (\S+)\)", group.get("transform")).groups())
    places = [place(words.split(" ")) for words in moves.get("values").split(";")]
    times = [float(word) for word in moves.get("keyTimes").split(";")]
    for (begin, end), (first, last) in zip(zip(times, times[1:]), zip(places, places[1:])):
        if begin <= time <= end:
            part = (time - begin) / (end - begin)
            return tuple(a + (b - a) * part for a, b in zip(first, last))
    raise AssertionError(f"no place at {time}")


class Pictures(unittest.TestCase):
    def setUp(self):
        folder = tempfile.TemporaryDirectory()
        self.addCleanup(folder.cleanup)
        self.folder = folder.name
        self.picture = os.path.join(self.folder, "plan.svg")

    def files(self, instance, plan):
        """The words for these files."""
        contents = {"a.map": instance[0], "a.scen": instance[1], "a.plan": plan}
        return [written(self.folder, name, text) for name, text in contents.items()]

    def shows(self, instance, plan, *words):
        """The picture that is written."""
        status, out, err = command("show", *self.files(instance, plan), "-o", self.picture, *words)
        self.assertEqual((status, err), (0, ""))
        root = ElementTree.parse(self.picture).getroot()
        self.assertEqual({one.tag for one in root.iter()} & {SVG + "script", SVG + "foreignObject"}, set())
        self.assertIn(out.rstrip("\n").split(": ", 1)[1], root.findall(SVG + "text")[-1].text)
        return root


def thousand():
    """An instance and a plan of 1,000 agents that walk in columns, each beside the next, with another number of waits each."""
    side, goals = 64, [(column * 2, row) for column in range(32) for row in range(32)][:1000]
    starts = [(x + 1, y) for x, y in goals]
    paths = [((x + 1, y),) * (1 + agent % 7) + ((x, y),) for agent, (x, y) in enumerate(goals)]
    plan = mapf.Plan(tuple(paths))
    rows = [start + goal for start, goal in zip(starts, goals)]
    return (map_of(" ".join(["." * side] * side)), scen_of(side, side, *rows)), plan


@unittest.skipUnless(backends(), "neither library nor program is built")
class Moving(Pictures):
    def places(self, root, total):
        """For each time the places of the agents."""
        groups = root.findall(SVG + "g")
        return [[at_time(group, time / total) for group in groups] for time in range(total + 1)]

    def test_small_plans(self):
        for grid, scen, agents in small_instances(20, 90):
            plan = mapf.solve(grid, scen, agents, nodes=300)
            if isinstance(plan, mapf.Plan):
                total = plan.makespan + 1
                for time, places in enumerate(self.places(self.shows((grid, scen), plan.text()), total)):
                    wanted = [plan.at(agent, time) for agent in range(agents)]
                    for found, cell in zip(places, wanted):
                        self.assertAlmostEqual(found[0], cell[0], places=4)
                        self.assertAlmostEqual(found[1], cell[1], places=4)

    def test_a_thousand_agents(self):
        instance, plan = thousand()
        root = self.shows(instance, plan.text())
        self.assertEqual(len(root.findall(SVG + "g")), 1000)
        self.assertLess(os.path.getsize(self.picture), 1_000_000)
        for time, places in enumerate(self.places(root, plan.makespan + 1)):
            self.assertEqual([(round(x, 3), round(y, 3)) for x, y in places], [plan.at(agent, time) for agent in range(1000)])

    def test_goals_map_and_names(self):
        root = self.shows(BAY, BAY_TEXT)
        goals = [(one.get("x"), one.get("y")) for one in root.findall(SVG + "rect") if one.get("fill-opacity")]
        self.assertEqual(goals, [("1.13", "0.13"), ("2.13", "0.13")])
        self.assertEqual(root.find(SVG + "path").get("d"), "M0 1H1v1H0zM2 1H3v1H2z")
        self.assertEqual([one.find(SVG + "title").text for one in root.findall(SVG + "g")], ["agent 0", "agent 1"])

    def test_the_first_fault(self):
        cases = ((CROSSING, CROSSING_TEXT, 66, (1.5, 1.5)), (BAY, "plan 2 4\n1,0 0,0 1,0\n0,0 1,0 2,0\n", 66, (1, 0.5)),
                 (BAY, "plan 2 3\n0,0 1,0\n0,0 1,0 2,0\n", 62, (0.5, 0.5)), (BAY, "plan 2 3\n1,0 0,1 1,0\n0,0 1,0 2,0\n", 63, (0.5, 1.5)),
                 (BAY, "plan 2 3\n1,0 1,1\n0,0 1,0 2,0\n", 64, (1.5, 1.5)), (BAY, "plan 2 5\n1,0 1,1 1,0\n0,0 1,0 2,0 2,0\n", 65, (2.5, 0.5)),
                 (BAY, "plan 2 5\n1,0 1,1 1,0\n0,0 1,0 2,0\n", 67, None), (BAY, BAY_TEXT, None, None))
        for instance, plan, number, where in cases:
            with self.subTest(number):
                root = self.shows(instance, plan)
                self.assertEqual(root.findall(SVG + "text")[-1].text.split()[0], str(number or "valid"))
                rings = [(float(one.get("cx")), float(one.get("cy"))) for one in root.findall(SVG + "circle")]
                self.assertEqual(rings, [where] if where else [])

    @unittest.skipUnless(browser.PROGRAM, "no Chromium")
    def test_in_a_browser(self):
        instance, plan = thousand()
        self.shows(instance, plan.text())
        with contextlib.closing(browser.Browser()) as page:
            page.send("Page.navigate", url=f"file://{self.picture}")
            page.until("document.readyState === 'complete' && document.querySelectorAll('g').length === 1000")
            for step in range(plan.makespan + 1):
                places = page.value(AT.format(seconds=0.4 * step))
                self.assertEqual(places, [list(plan.at(agent, step)) for agent in range(1000)])


@unittest.skipUnless(backends(), "neither library nor program is built")
class Still(Pictures):
    def test_each_step(self):
        plan = mapf.read_text(BAY_TEXT)
        for step in range(3):
            root = self.shows(BAY, BAY_TEXT, "--step", step)
            self.assertEqual([at_time(group, 0) for group in root.findall(SVG + "g")], [plan.at(agent, step) for agent in (0, 1)])
            self.assertEqual([one.tag for one in root.iter() if "animate" in one.tag], [])
            self.assertEqual(root.findall(SVG + "text")[-1].text, f"valid 4 (step {step} of 2)")

    def test_no_such_step(self):
        for step in (-1, 3):
            status, out, err = command("show", *self.files(BAY, BAY_TEXT), "-o", self.picture, f"--step={step}")
            self.assertEqual((status, out, err), (3, "", f"mapf: no such step: found {step}, wanted 0 to 2\n"))
        self.assertFalse(os.path.exists(self.picture))

    def test_pictures_alone_have_steps_and_waits(self):
        for words in (("--step", 1), ("--waits",), ("-o", "plan.html", "--waits"), ("-o", self.picture, "--waits", "--step", 1)):
            self.assertEqual(command("show", *self.files(BAY, BAY_TEXT), *words)[:2], (2, ""))


@unittest.skipUnless(backends(), "neither library nor program is built")
class Waits(Pictures):
    def test_waits_of_cells(self):
        text = "plan 2 7\n1,0 1,1 1,1 1,1 1,0\n0,0 0,0 1,0 2,0\n"
        root = self.shows(BAY, text, "--waits")
        cells = {one.find(SVG + "title").text for one in root.findall(SVG + "rect") if one.find(SVG + "title") is not None}
        self.assertEqual(cells, {"0,0: 1 waits", "1,1: 2 waits"})
        self.assertEqual(root.findall(SVG + "text")[-1].text, "valid 7: 3 waits, 2 at least, 2 of detours")
        detour = [one.find(SVG + "title").text for one in root.findall(SVG + "polyline")]
        self.assertEqual(detour, ["agent 0: 0 steps at least, 2 waits, 2 of a detour"])

    def test_least_steps_are_those_of_one_agent_alone(self):
        for grid, scen, agents in itertools.islice(small_instances(40, 91), 40):
            plan = mapf.solve(grid, scen, agents, nodes=300)
            if isinstance(plan, mapf.Plan):
                rows = scen.split(b"\n")
                alone = [mapf.solve(grid, b"\n".join([rows[0], row, b""]), 1).cost for row in rows[1:agents + 1]]
                words = self.shows((grid, scen), plan.text(), "--waits").findall(SVG + "text")[-1].text
                waits, least, detours = (int(word) for word in re.search(r": (\d+) waits, (\d+) at least, (\d+) of detours", words).groups())
                self.assertEqual((least, waits + least + detours), (sum(alone), plan.cost))

    def test_detours_are_counted_on_maps_of_some_size(self):
        for side, words in ((362, "valid 1: 0 waits, 1 at least, 0 of detours"), (363, "valid 1: 0 waits")):
            instance = map_of(" ".join(["." * side] * side)), scen_of(side, side, (0, 0, 0, 1))
            root = self.shows(instance, "plan 1 1\n0,0 0,1\n", "--waits")
            self.assertEqual(root.findall(SVG + "text")[-1].text, words)

    def test_a_plan_with_a_fault_has_no_detours(self):
        root = self.shows(CROSSING, CROSSING_TEXT, "--waits")
        self.assertEqual(root.findall(SVG + "text")[-1].text, "66 vertex conflict agents 0 1 cell 1,1 time 1: 0 waits")

    def test_a_thousand_agents(self):
        instance, plan = thousand()
        words = self.shows(instance, plan.text(), "--waits").findall(SVG + "text")[-1].text
        self.assertEqual(words, f"valid {plan.cost}: {plan.cost - 1000} waits, 1000 at least, 0 of detours")


@unittest.skipUnless(backends(), "neither library nor program is built")
class Written(Pictures):
    def test_what_is_there_is_not_overwritten(self):
        words = self.files(BAY, BAY_TEXT)
        for contents in ("<svg>mine</svg>\n", "<!doctype html>\n"):
            written(self.folder, "plan.svg", contents)
            status, out, err = command("show", *words, "-o", self.picture)
            self.assertEqual((status, out), (3, ""))
            self.assertIn("no page or picture of mapf show", err)
            with open(self.picture, encoding="ascii") as file:
                self.assertEqual(file.read(), contents)
        os.remove(self.picture)
        for _ in range(2):
            self.assertEqual(command("show", *words, "-o", self.picture)[0], 0)

    def test_without_a_plan_there_is_no_picture(self):
        status, out, err = command("show", *self.files(BAY, "none 3\n"), "-o", self.picture)
        plan = os.path.join(self.folder, "a.plan")
        self.assertEqual((status, out, err), (3, "", f"mapf: {plan}: no picture: found no plan given, wanted a plan\n"))

    def test_names_that_are_no_utf_8(self):
        name = os.path.join(os.fsencode(self.folder), b"\xe9<&.plan")
        words = self.files(BAY, BAY_TEXT)
        os.rename(words[2], name)
        self.assertEqual(command("show", *words[:2], os.fsdecode(name), "-o", self.picture)[0], 0)
        self.assertEqual(ElementTree.parse(self.picture).getroot().find(SVG + "title").text, "?<&.plan")

    @unittest.skipUnless(HAS_SMALL_DISKS, "no unshare -m")
    def test_a_full_disk_is_left_as_it_was(self):
        instance, plan = thousand()
        words = self.files(instance, plan.text())
        disk = os.path.join(self.folder, "disk")
        os.mkdir(disk)
        script = 'mount -t tmpfs -o size=32k none "$1" && cd "$1" && echo mine >mine && shift && "$@"; status=$?; ls; exit "$status"'
        for name in ("plan.html", "plan.svg"):
            show = [sys.executable, "-m", "mapf", "show", *words, "-o", name]
            done = subprocess.run(
                ["unshare", "-m", "sh", "-c", script, "sh", disk, *show], env={**os.environ, "PYTHONPATH": PACKAGE},
                stdout=subprocess.PIPE, stderr=subprocess.PIPE)
            self.assertEqual((done.returncode, done.stdout.decode()), (5, "mine\n"))
            self.assertIn("No space left on device", done.stderr.decode())
