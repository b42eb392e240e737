"""`python3 -m mapf series`: on two small maps by the program, and by a stand-in for it where time matters."""
import os
import shutil
import signal
import subprocess
import time

from series_support import HEAD, Folder, WithStandIn, rows_of
from support import RING, command, map_of, process, scen_of, with_program, written

NARROW = map_of("..."), scen_of(3, 1, (0, 0, 2, 0), (2, 0, 0, 0), name="narrow.map")


@with_program
class TwoMaps(Folder):
    ROWS = [["narrow.map", "narrow.scen", "1", "solved", "2", ""], ["narrow.map", "narrow.scen", "2", "none", "", "7"],
            ["ring.map", "ring.scen", "1", "solved", "1", ""], ["ring.map", "ring.scen", "2", "solved", "2", ""],
            ["ring.map", "ring.scen", "3", "solved", "3", ""], ["ring.map", "ring.scen", "4", "solved", "4", ""]]

    def setUp(self):
        super().setUp()
        written(self.folder, "maps/narrow.map", NARROW[0])
        written(self.folder, "maps/more/ring.map", RING[0])
        written(self.folder, "scens/narrow.scen", NARROW[1])
        written(self.folder, "scens/more/ring.scen", RING[1].replace(b"map.map", b"maps/ring.map"))

    def asked(self, *more):
        return self.words("--from", 1, "--step", 1, "--bound", 6, "--seconds", 600, *more)

    def sorted(self):
        return sorted(row[:6] for row in rows_of(self.csv))

    def test_a_series(self):
        self.assertEqual(command(*self.asked("--jobs", 2)), (0, "", ""))
        self.assertEqual(self.sorted(), self.ROWS)

    def test_resumed_behind_each_byte(self):
        command(*self.asked())
        with open(self.csv, "rb") as file:
            whole = file.read()
        for length in range(0, len(whole), 29):
            with self.subTest(length):
                written(self.folder, "rows.csv", whole[:length])
                self.assertEqual(command(*self.asked("--resume")), (0, "", ""))
                self.assertEqual(self.sorted(), self.ROWS)
                with open(self.csv, "rb") as file:
                    self.assertTrue(file.read().startswith(whole[: whole[:length].rfind(b"\n") + 1]))

    def test_a_file_that_is_there(self):
        written(self.folder, "rows.csv", "mine\n")
        for more, text in (((), "--resume"), (("--resume",), "no head at line 1")):
            status, out, err = command(*self.asked(*more))
            self.assertEqual((status, out), (3, ""))
            self.assertIn(text, err)
            with open(self.csv) as file:
                self.assertEqual(file.read(), "mine\n")

    def test_listed_run_and_joined(self):
        for more, count in (((), 6), (("scenarios",), 2)):
            with self.subTest(count):
                status, out, err = command(*self.asked("--list", *more))
                self.assertEqual((status, len(out.splitlines()), err), (0, count, ""))
                self.assertFalse(os.path.exists(self.csv))
                for line in reversed(out.splitlines()):
                    subprocess.run(["sh", "-c", line], cwd="/", check=True)
                self.assertEqual(command("series", "--csv", self.csv, "--join", self.csv + ".parts"), (0, "", ""))
                self.assertEqual([row[:6] for row in rows_of(self.csv)], self.ROWS)
                os.remove(self.csv)
                shutil.rmtree(self.csv + ".parts")

    def test_no_following(self):
        command(*self.asked("--no-following", "--from", 4, "--bound", 4))
        self.assertEqual(self.sorted(), [["ring.map", "ring.scen", "4", "none", "", "5"]])

    def test_any_optimum(self):
        self.assertEqual(command(*self.asked("--any-optimum", "--jobs", 2)), (0, "", ""))
        self.assertEqual(self.sorted(), self.ROWS)

    def test_rates(self):
        command(*self.asked("--jobs", 2))
        written(self.folder, "scens/other.scen", scen_of(3, 1, (0, 0, 2, 0), (1, 0, 1, 0), name="narrow.map"))
        command(*self.asked("--resume", "--to", 2))
        status, out, _ = command("series", "--csv", self.csv, "--rates")
        self.assertEqual((status, out.splitlines()[2:]), (0, [
            "| narrow.map | 2 | 100 % | 0 % | 0 % | 0 % |", "| ring.map | 1 | 100 % | 100 % | 100 % | 100 % |"]))

    def test_what_the_program_refuses(self):
        written(self.folder, "scens/narrow.scen", scen_of(3, 1, (0, 0, 2, 0), (0, 0, 1, 0), name="narrow.map"))
        status, _, err = command(*self.asked())
        self.assertEqual((status, err.splitlines()), (1, [
            "mapf: narrow.scen, 2 agents: status 3, mapf: 26 shared start in rows 0 and 1",
            f"mapf: {self.csv}: 1 of 6 rows failed or were refused; --resume runs them again"]))
        self.assertEqual(self.sorted()[1], ["narrow.map", "narrow.scen", "2", "refused", "", ""])

    def test_scenarios_that_do_not_fit_are_left_out(self):
        lost = scen_of(3, 1, (0, 0, 2, 0), name="lost.map")
        paths = [written(self.folder, f"scens/{name}.scen", lost) for name in ("a-lost", "b-lost")]
        empty = written(self.folder, "scens/empty.scen", "version 1\n")
        maps = os.path.join(self.folder, "maps")
        said = [f"mapf: {paths[0]}: no map for a scenario: found the name `lost.map` in line 2, wanted the name of a map in {maps}; "
                "2 scenarios left out",
                f"mapf: {empty}: no scenario: found no row in line 2, wanted a row of nine fields; 1 scenario left out"]
        status, out, err = command(*self.asked("--list"))
        self.assertEqual((status, len(out.splitlines()), err.splitlines()), (1, 6, said))
        for more in ((), ("--resume",)):
            status, out, err = command(*self.asked(*more))
            self.assertEqual((status, out, err.splitlines()), (1, "", said))
            self.assertEqual(self.sorted(), self.ROWS)
        status, _, err = command(*self.asked("--scens", *paths, "--csv", self.csv + ".new"))
        self.assertEqual((status, err), (3, said[0].split(";")[0] + "\n"))
        self.assertFalse(os.path.exists(self.csv + ".new"))

    def test_two_scenarios_of_one_name(self):
        written(self.folder, "scens/again/ring.scen", RING[1])
        status, out, err = command(*self.asked())
        self.assertEqual((status, out, os.path.exists(self.csv)), (3, "", False))
        self.assertIn("two scenarios of one name", err)

    def test_what_is_not_there_is_named(self):
        for option, name, kind in (
                ("--maps", "mops", "folder"), ("--maps", "maps/no.map", "file"), ("--scens", "skens", "folder"),
                ("--scens", "scens/no.scen", "file"), ("--csv", "results/rows.csv", "folder")):
            path = os.path.join(self.folder, name)
            named = os.path.dirname(path) if option == "--csv" else path
            said = f"mapf: {named}: no such {kind}: found nothing there, wanted a {kind}\n"
            self.assertEqual(command(*self.asked(option, path)), (5, "", said))
            self.assertFalse(os.path.exists(self.csv))


class StandIn(WithStandIn):
    def test_the_first_that_is_out_of_time_is_the_last(self):
        rows = self.out_of_time()
        self.assertEqual(rows, self.expected("15", "out_of_time", "", "", ""))
        self.assertEqual(sorted(agents for agents, _ in self.began()), [5, 5, 5, 10, 10, 10, 15, 15, 15])
        self.gone()

    def out_of_time(self):
        """The rows, with a limit on time that leaves enough of it for all runs of up to 10 agents."""
        for seconds in (3, 12, 50):
            if self.runs():
                os.remove(os.path.join(self.folder, "began"))
                os.remove(self.csv)
            self.assertEqual(command(*self.words("--seconds", seconds, "--jobs", 3)), (0, "", ""))
            rows = sorted(rows_of(self.csv), key=lambda row: (row[1], int(row[2])))
            if [row[3] for row in rows].count("solved") == 6:
                break
        return rows

    def test_rows_behind_the_first_unsolved_are_not_joined(self):
        _, out, _ = command(*self.words("--nodes", 9, "--list"))
        self.assertEqual(len(out.splitlines()), 12)
        for line in out.splitlines():
            subprocess.run(["sh", "-c", line], check=True)
        self.assertEqual(command("series", "--csv", self.csv, "--join", self.csv + ".parts"), (0, "", ""))
        self.assertEqual(rows_of(self.csv), self.expected("15", "gave_up", "", "140", "9"))

    def test_a_limit_on_nodes(self):
        command(*self.words("--nodes", 1000))
        self.assertEqual(rows_of(self.csv), self.expected("15", "gave_up", "", "140", "1000"))

    def test_the_last_number_of_agents(self):
        command(*self.words("--to", 9))
        self.assertEqual({row[2] for row in rows_of(self.csv)}, {"5"})

    def test_what_the_program_tells_of_its_search(self):
        says = 'echo "mapf: 0 nodes, no plan costs less than 90" >&2; echo "mapf: 77 nodes, no plan costs less than 99" >&2'
        self.program(says, "--progress")
        self.assertEqual([row[2:] for row in self.out_of_time()[:3]], [
            ["5", "solved", "50", "", "77"], ["10", "solved", "100", "", "77"], ["15", "out_of_time", "", "99", "77"]])

    def test_a_program_that_fails(self):
        self.program("kill -9 $$")
        status, _, err = command(*self.words())
        self.assertEqual((status, {row[3] for row in rows_of(self.csv)}), (1, {"failed"}))
        self.assertIn("a.scen, 5 agents: status -9", err)

    def test_ctrl_c_leaves_whole_rows_and_resume_goes_on(self):
        for number in (signal.SIGINT, signal.SIGTERM):
            with self.subTest(number):
                self.program("")
                self.interrupt(number)
                self.program("nodes=7")
                rows = rows_of(self.csv)
                self.assertEqual([row[3] for row in rows], ["solved"] * len(rows))
                self.gone()
                before = len(self.began())
                command(*self.words("--resume", "--seconds", 500))
                self.assertEqual(sorted(rows_of(self.csv)), sorted(self.expected("15", "gave_up", "", "140", "7")))
                self.assertEqual(len(self.began()) - before, 9 - len(rows))
                os.remove(self.csv)
                os.remove(os.path.join(self.folder, "began"))

    def interrupt(self, number):
        """Begins a series, and stops it once three runs don't end."""
        running = process(*self.words("--jobs", 3, "--seconds", 500), stderr=subprocess.PIPE)
        end = time.monotonic() + 300
        while time.monotonic() < end and not (os.path.exists(self.folder + "/began") and [a for a, _ in self.began()].count(15) == 3):
            time.sleep(0.02)
        running.send_signal(number)
        _, err = running.communicate(timeout=300)
        self.assertEqual(running.returncode, 130)
        self.assertIn(b"stopped; ", err)

    def gone(self):
        """No run goes on."""
        for _, number in self.began():
            with self.assertRaises(ProcessLookupError):
                os.kill(number, 0)

    def test_joins(self):
        row = "10,1000000,,,following,no,7.8.9,wide.map,a.scen,5,solved,50,,,0.100\n"
        one, two = (written(self.folder, name, HEAD + "\n" + text) for name, text in (("1.csv", row), ("2.csv", row.replace("a.scen", "b.scen"))))
        self.assertEqual(command("series", "--csv", self.csv, "--join", two, one)[0], 0)
        with open(self.csv) as file:
            self.assertEqual(file.read(), HEAD + "\n" + row + row.replace("a.scen", "b.scen"))
        for name, text, said in (("twice", HEAD + "\n" + row, "a run is there twice"), ("cut", HEAD + "\n" + row[:-1], "no row at line 2"),
                                 ("other", HEAD + "\n" + row + "a,b\n", "no row at line 3"), ("none", row, "no head at line 1"),
                                 ("word", HEAD + "\n" + row.replace("solved", "done"), "no row at line 2"), ("empty", "", "no head at line 1"),
                                 ("rowless", HEAD + "\n", "no row at line 2")):
            path = written(self.folder, name, text)
            status, _, err = command("series", "--csv", self.csv, "--join", one, path)
            self.assertEqual((status, said in err, path in err), (3, True, True))
