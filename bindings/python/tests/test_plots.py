"""`python3 -m mapf series --plot`: what the picture shows is measured by its own axes."""
import math
import os
import re
from xml.etree import ElementTree

from series_support import HEAD, Folder
from support import command, written

SVG = "{http://www.w3.org/2000/svg}"
ASK = "10,1000000,,,following,no,1.0.0,"
# For each scenario its runs: agents, status, seconds.
FAST = {"a": ((5, "solved", 0.01), (10, "solved", 0.2)),
        "b": ((5, "solved", 0.03), (10, "solved", 4), (15, "out_of_time", 10)),
        "c": ((5, "solved", 0.02), (10, "solved", 0.5), (15, "solved", 9))}
SLOW = {"a": ((5, "solved", 1), (10, "gave_up", 2)), "b": ((5, "solved", 2), (10, "solved", 3)),
        "c": ((5, "out_of_time", 10),)}


class Plots(Folder):
    def series(self, name, scenarios, maps=("wide.map",)):
        rows = [f"{ASK}{one},{one}-{scenario}.scen,{agents},{status},,,,{seconds}\n"
                for one in maps for scenario, runs in scenarios.items() for agents, status, seconds in runs]
        return written(self.folder, name, HEAD + "\n" + "".join(rows))

    def drawn(self, *csvs):
        """The picture, and its panels."""
        path = os.path.join(self.folder, "rates.svg")
        self.assertEqual(command("series", "--csv", *csvs, "--plot", path), (0, "", ""))
        picture = ElementTree.parse(path).getroot()
        return picture, [group for group in picture.findall(SVG + "g") if group.get("transform")]

    def texts(self, element):
        return [text.text for text in element.iter(SVG + "text")]

    def upright(self, panel):
        """Where the numbers of the upright axis stand."""
        named = [text for text in panel.iter(SVG + "text") if text.get("text-anchor") == "end"]
        return {float(text.text): float(text.get("y")) - 4 for text in named}

    def curves(self, panel):
        """Each curve's places."""
        lines = [line.get("points") for line in panel.iter(SVG + "polyline")]
        return [[tuple(float(number) for number in place.split(",")) for place in line.split()] for line in lines]

    def test_rates(self):
        picture, (rates, _) = self.drawn(self.series("fast.csv", FAST), self.series("slow.csv", SLOW))
        for words in ("wide.map, 3 scenarios", "agents", "solved (%)", "5", "10", "15"):
            self.assertIn(words, self.texts(rates))
        for words in ("fast, limit 10 s", "slow, limit 10 s"):
            self.assertIn(words, self.texts(picture))
        axis = self.upright(rates)
        self.assertEqual(sorted(axis), [0, 20, 40, 60, 80, 100])
        found = [[round((y - axis[0]) / (axis[100] - axis[0]) * 100) for _, y in curve] for curve in self.curves(rates)]
        self.assertEqual(found, [[100, 100, 50], [67, 33]])
        titles = [title.text for title in rates.iter(SVG + "title")]
        counts = ["5 agents: 3 of 3 solved", "10 agents: 3 of 3 solved", "15 agents: 1 of 2 solved"]
        self.assertEqual(titles[:3], counts)
        self.assertEqual([words for words in self.texts(rates) if words.startswith("of ")], ["of 2"])

    def test_times(self):
        _, (_, times) = self.drawn(self.series("fast.csv", FAST), self.series("slow.csv", SLOW))
        axis = self.upright(times)
        self.assertEqual(sorted(axis), [0.01, 0.1, 1, 10])
        found = [[10 ** ((y - axis[1]) / (axis[10] - axis[1])) for _, y in curve] for curve in self.curves(times)]
        self.assertEqual([len(curve) for curve in found], [2, 1])
        for taken, median in zip(found[0] + found[1], (0.02, 0.5, 2)):
            self.assertAlmostEqual(math.log10(taken), math.log10(median), delta=0.01)
        dots = [path.get("d").split("h0")[:-1] for path in times.iter(SVG + "path") if "h0" in path.get("d")]
        self.assertEqual([len(of_solver) for of_solver in dots], [7, 3])
        highest = min(float(dot.split()[1]) for dot in dots[0])
        self.assertAlmostEqual((highest - axis[1]) / (axis[10] - axis[1]), math.log10(9), delta=0.01)
        self.assertIn("seconds, and their median", self.texts(times))

    def test_curves_differ_without_colours(self):
        paths = [self.series(f"solver-{number}.csv", FAST) for number in range(9)]
        _, (rates, _) = self.drawn(*paths)
        styles = set()
        for group in rates.findall(SVG + "g"):
            shapes = {mark.get("d") for mark in group.iter(SVG + "path")}
            self.assertEqual(len(shapes), 1)
            styles.add((group.find(SVG + "polyline").get("stroke-dasharray"), *shapes))
        self.assertEqual(len(styles), 9)

    def test_a_panel_of_each_kind_for_each_map(self):
        maps = [f"map-{number}.map" for number in range(5)]
        scenarios = {f"s{number}": [(5 * count, "solved", count) for count in range(1, 21)] for number in range(25)}
        picture, panels = self.drawn(*(self.series(f"{name}.csv", scenarios, maps) for name in ("one", "two", "three")))
        self.assertEqual(len(panels), 10)
        self.assertEqual([self.texts(panel)[0] for panel in panels[::2]], [f"{name}, 25 scenarios" for name in maps])
        self.assertLessEqual(len(self.contents("rates.svg")), 200_000)
        width, height = (float(picture.get(name)) for name in ("width", "height"))
        for panel, curve in ((panel, curve) for panel in panels for curve in self.curves(panel)):
            left, top = (float(number) for number in re.findall(r"[0-9.]+", panel.get("transform")))
            self.assertTrue(all(0 < left + x < width and 0 < top + y < height for x, y in curve))

    def test_names_of_any_letters(self):
        names = ['a<b>&"c.csv', "über\x01.csv", os.fsdecode(b"\xff.csv")]
        picture, _ = self.drawn(*(self.series(name, FAST) for name in names))
        self.assertEqual(self.texts(picture)[:3], ['a<b>&"c, limit 10 s', "über?, limit 10 s", "?, limit 10 s"])

    def test_nothing_else_is_overwritten(self):
        rows, path = self.series("rows.csv", FAST), os.path.join(self.folder, "rates.svg")
        self.drawn(rows)
        before = self.contents("rates.svg")
        self.drawn(rows)
        self.assertEqual(self.contents("rates.svg"), before)
        for text in ("<svg>mine</svg>\n", ""):
            written(self.folder, "rates.svg", text)
            status, _, err = command("series", "--csv", rows, "--plot", path)
            self.assertEqual((status, self.contents("rates.svg")), (3, text.encode()))
            self.assertIn("another file is there", err)
        for other in ("/dev/null", self.folder):
            status, _, err = command("series", "--csv", rows, "--plot", other)
            self.assertEqual((status, "no picture" in err), (3, True))

    def test_without_rows_there_is_no_picture(self):
        for text, said in ((HEAD + "\n", "no row at line 2"), ("mine\n", "no head at line 1")):
            path = written(self.folder, "rows.csv", text)
            status, _, err = command("series", "--csv", path, "--plot", self.folder + "/rates.svg")
            self.assertEqual((status, said in err), (3, True))
            self.assertFalse(os.path.exists(self.folder + "/rates.svg"))
