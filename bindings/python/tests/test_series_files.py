"""The files of `python3 -m mapf series`: what was asked, who may write, and what isn't overwritten."""
import csv
import functools
import os
import resource
import signal
import subprocess
import time
from contextlib import suppress

from series_support import FIRST_HEAD, HEAD, Folder, WithStandIn, rows_of
from support import EXAMPLES, command, process, scen_of, with_program, written

ASK = "10,1000000,,,following,no,7.8.9,"
LIMITS = ("--seconds", 20.5, "--bound", 700, "--nodes", 9, "--memory", 500, "--no-following", "--any-optimum")
ROW = "wide.map,a.scen,5,solved,50,,,0.100\n"


class Asked(WithStandIn):
    def test_rows_begin_with_what_was_asked(self):
        self.assertEqual(command(*self.words(*LIMITS)), (0, "", ""))
        with open(self.csv, newline="") as file:
            rows = list(csv.reader(file))
        self.assertEqual(",".join(rows[0]), HEAD)
        asked = "20.5", "700", "9", "500", "no_following", "yes", "7.8.9"
        self.assertEqual({tuple(row[:7]) for row in rows[1:]}, {asked})
        self.assertEqual(len(rows), 10)

    def test_listed_commands_ask_the_same(self):
        limits = (*LIMITS, "--to", 5)
        _, out, _ = command(*self.words(*limits, "--list"))
        for line in out.splitlines():
            subprocess.run(["sh", "-c", line], check=True)
        self.assertEqual(command("series", "--csv", self.csv, "--join", self.csv + ".parts"), (0, "", ""))
        runs = self.runs()
        self.assertEqual(command(*self.words(*limits, "--resume")), (0, "", ""))
        self.assertEqual((len(rows_of(self.csv)), self.runs() - runs), (3, 0))

    def test_another_ask_is_refused_by_name(self):
        command(*self.words("--to", 5))
        before = self.contents()
        cases = (
            (("--seconds", 11), "`seconds_limit` 10", "`seconds_limit` 11"),
            (("--bound", 5), "`bound` 1000000", "`bound` 5"),
            (("--nodes", 3), "`nodes_limit` empty", "`nodes_limit` 3"),
            (("--memory", 99), "`memory_limit` empty", "`memory_limit` 99"),
            (("--no-following",), "`rule` following", "`rule` no_following"),
            (("--any-optimum",), "`any_optimum` no", "`any_optimum` yes"))
        for more, found, wanted in cases:
            self.refused(before, f"another ask: found {found}, wanted {wanted}", *more)
        self.program("", version="8.0.0")
        self.refused(before, "another ask: found `version` 7.8.9, wanted `version` 8.0.0")

    def refused(self, before, said, *more):
        """Nothing is run, and the file stays."""
        runs = self.runs()
        status, out, err = command(*self.words("--to", 5, "--resume", *more))
        self.assertEqual((status, out), (3, ""))
        self.assertIn(f"{self.csv}: {said}", err)
        self.assertEqual(self.contents(), before)
        self.assertEqual(self.runs(), runs)

    def test_what_is_no_series_stays(self):
        head = HEAD + "\n"
        other = ASK.replace("10", "9", 1) + ROW.replace("a.", "b.")
        cases = (
            (b"mine", "no head at line 1"),
            (b"mine\nand more", "no head at line 1"),
            (b"\xff\xfe\x00\n", "no head at line 1"),
            (FIRST_HEAD + "\n" + ROW, "another ask: found no column `seconds_limit`"),
            (FIRST_HEAD + "\n", "another ask: found no column `seconds_limit`"),
            (head.replace("bound,", "border,", 1), "no head at line 1"),
            (head + "a,b\nand more", "no row at line 2"),
            (head + ASK + ROW + ASK + ROW, "a run is there twice, at line 3"),
            (head + ASK + ROW + other, "another ask: found `seconds_limit` 9"))
        for text, said in cases:
            with self.subTest(text):
                path = written(self.folder, "rows.csv", text)
                before = self.contents()
                self.refused(before, said)
                part = written(self.folder, "part", head + ASK + ROW)
                status, _, err = command("series", "--csv", path, "--join", part)
                self.assertEqual((status, said in err, self.contents()), (3, True, before))

    def test_a_file_that_a_spreadsheet_saved(self):
        self.program("nodes=7")
        command(*self.words("--jobs", 3))
        lines = self.contents().decode().splitlines()
        _, rates, _ = command("series", "--csv", self.csv, "--rates")
        seconds = ("0.02", "1", "0.5", "0", "12.25", "0.1", "3", "4", "0.001")
        saved = [line[: line.rindex(",") + 1] + one for line, one in zip(lines[1:], seconds)]
        written(self.folder, "rows.csv", "\r\n".join(["\ufeff" + lines[0], *saved, ""]))
        self.assertEqual(command("series", "--csv", self.csv, "--rates"), (0, rates, ""))
        self.assertIn("| 100 % | 100 % | 0 % |", rates)
        runs = len(self.began())
        self.assertEqual(command(*self.words("--resume")), (0, "", ""))
        self.assertEqual(sorted(rows_of(self.csv)), sorted(self.expected("15", "gave_up", "", "140", "7")))
        self.assertEqual(len(self.began()), runs)

    def test_a_file_of_the_first_form(self):
        other = ROW.replace("a.", "b.").replace("solved,50", "out_of_time,")
        path = written(self.folder, "old.csv", FIRST_HEAD + "\n" + ROW + other)
        status, out, _ = command("series", "--csv", path, "--rates")
        self.assertEqual((status, out.splitlines()[2:]), (0, ["| wide.map | 2 | 50 % |"]))
        self.assertEqual(command("series", "--csv", self.csv, "--join", path)[0], 0)
        self.assertEqual(self.contents(), self.contents("old.csv"))


class Files(WithStandIn):
    def test_no_devices(self):
        fifo = os.path.join(self.folder, "fifo")
        os.mkfifo(fifo)
        part = written(self.folder, "part", HEAD + "\n" + ASK + ROW)
        for path in (fifo, "/dev/null", self.folder):
            for more in ((), ("--resume",), ("--join", part), ("--rates",), ("--plot", self.folder + "/rates.svg")):
                with self.subTest(path=path, more=more):
                    running = process(*self.words(*more, "--csv", path), stdout=subprocess.PIPE, stderr=subprocess.PIPE)
                    out, err = running.communicate(timeout=300)
                    self.assertEqual((running.returncode, out), (3, b""))
                    self.assertIn(f"{path}: no file of rows: found a folder, a device or a fifo".encode(), err)

    def test_one_writer_at_a_time(self):
        running = process(*self.words("--jobs", 3, "--seconds", 500), stderr=subprocess.PIPE)
        self.addCleanup(running.stderr.close)
        self.until(lambda: os.path.exists(self.csv) and len(self.contents().splitlines()) == 7)
        for more in (("--resume", "--seconds", 500), ("--join", written(self.folder, "part", HEAD + "\n" + ASK + ROW))):
            before = self.contents()
            status, _, err = command(*self.words(*more))
            self.assertEqual((status, self.contents()), (3, before))
            self.assertIn("another process writes the file", err)
        running.terminate()
        self.assertEqual(running.wait(timeout=300), 130)
        self.program("nodes=7")
        self.assertEqual(command(*self.words("--resume", "--seconds", 500)), (0, "", ""))
        self.assertEqual(sorted(rows_of(self.csv)), sorted(self.expected("15", "gave_up", "", "140", "7")))

    def test_killed_and_resumed(self):
        running = process(*self.words("--jobs", 3, "--seconds", 500), stderr=subprocess.DEVNULL)
        self.until(lambda: os.path.exists(self.csv) and len(self.contents().splitlines()) == 7)
        running.kill()
        running.wait(timeout=300)
        for _, number in self.began():
            with suppress(ProcessLookupError):
                os.kill(number, signal.SIGKILL)
        with open(self.csv, "ab") as file:
            file.write(b"500,1000000,,,fol")
        self.program("nodes=7")
        self.assertEqual(command(*self.words("--resume", "--seconds", 500)), (0, "", ""))
        self.assertEqual(sorted(rows_of(self.csv)), sorted(self.expected("15", "gave_up", "", "140", "7")))

    def test_many_begin_at_once(self):
        self.program("nodes=7")
        running = [process(*self.words("--resume"), stderr=subprocess.PIPE) for _ in range(5)]
        said = [one.communicate(timeout=300)[1] for one in running]
        statuses = {one.returncode for one in running}
        self.assertLessEqual(statuses, {0, 3}, said)
        self.assertIn(0, statuses)
        self.assertEqual(sorted(rows_of(self.csv)), sorted(self.expected("15", "gave_up", "", "140", "7")))

    def until(self, condition):
        end = time.monotonic() + 300
        while not condition():
            self.assertLess(time.monotonic(), end)
            time.sleep(0.02)

    def test_without_room_rows_stay_whole(self):
        self.program("nodes=7")
        limit = functools.partial(resource.setrlimit, resource.RLIMIT_FSIZE, (400, 400))
        full = process(*self.words(), stderr=subprocess.PIPE, preexec_fn=limit)
        _, err = full.communicate(timeout=300)
        self.assertEqual(full.returncode, 5)
        self.assertRegex(err, b"No space left|File too large")
        rows = rows_of(self.csv)
        self.assertTrue(0 < len(rows) < 9)
        self.assertEqual(command(*self.words("--resume")), (0, "", ""))
        self.assertEqual(rows_of(self.csv), self.expected("15", "gave_up", "", "140", "7"))

    def test_what_failed_or_was_refused_is_run_again(self):
        refuses = '[ $agents = 5 ] || exec sh -c "echo mapf: 22 too few rows: 8 >&2; exit 3"'
        for says, status in (("kill -9 $$", "failed"), (refuses, "refused")):
            with self.subTest(status):
                self.program(says)
                code, _, err = command(*self.words())
                self.assertEqual((code, {row[3] for row in rows_of(self.csv)} - {"solved"}), (1, {status}))
                self.assertIn("--resume runs them again", err)
                self.program("nodes=7")
                scen = os.path.join(self.folder, "scens", "b.scen")
                self.assertEqual(command(*self.words("--resume", "--scens", scen))[0], 1)
                self.assertEqual([row[3] for row in rows_of(self.csv)].count(status), 2)
                self.assertEqual(command(*self.words("--resume")), (0, "", ""))
                self.assertEqual(sorted(rows_of(self.csv)), sorted(self.expected("15", "gave_up", "", "140", "7")))
                os.remove(self.csv)

    def test_failed_rows_are_joined_with_status_1(self):
        part = written(self.folder, "part", HEAD + "\n" + ASK + ROW.replace("solved,50", "failed,"))
        status, _, err = command("series", "--csv", self.csv, "--join", part)
        self.assertEqual((status, rows_of(self.csv)[0][3]), (1, "failed"))
        self.assertIn("1 of 1 rows failed or were refused", err)

    def test_a_name_of_two_lines(self):
        written(self.folder, "scens/two\nlines.scen", scen_of(20, 1, (0, 0, 1, 0), name="wide.map"))
        status, _, err = command(*self.words())
        self.assertEqual((status, os.path.exists(self.csv)), (3, False))
        self.assertIn("a scenario's name of two lines", err)

    def test_parts_of_two_asks(self):
        one, two = (written(self.folder, name, HEAD + "\n" + text) for name, text in (
            ("1.csv", ASK + ROW), ("2.csv", ASK.replace("1000000", "99") + ROW.replace("a.", "b."))))
        status, _, err = command("series", "--csv", self.csv, "--join", one, two)
        self.assertEqual((status, os.path.exists(self.csv)), (3, False))
        self.assertIn(f"{two}: another ask: found `bound` 99, wanted `bound` 1000000", err)


class Options(WithStandIn):
    def test_wrong_options_are_refused_before_the_first_run(self):
        cases = (
            ("--bound", -5), ("--bound", 1_000_001), ("--bound", "many"), ("--nodes", 0), ("--seconds", 0),
            ("--seconds", "nan"), ("--memory", 0), ("--from", 0), ("--from", 1001), ("--to", 4), ("--step", 0),
            ("--jobs", 0), ("--csv", "a", "b"))
        for more in cases:
            with self.subTest(more):
                status, out, err = command(*self.words(*more))
                self.assertEqual((status, out), (2, ""))
                self.assertIn(more[0], err.splitlines()[-1])
                self.assertEqual((os.path.exists(self.csv), self.runs()), (False, 0))

    def test_a_scenario_with_fewer_rows_counts_for_what_it_has(self):
        written(self.folder, "scens/d.scen", scen_of(20, 1, *((x, 0, x, 0) for x in range(7)), name="wide.map"))
        self.assertEqual(command(*self.words("--nodes", 7)), (0, "", ""))
        status, out, _ = command("series", "--csv", self.csv, "--rates")
        self.assertEqual((status, out.splitlines()[2:]), (0, ["| wide.map | 4 | 100 % | 100 % of 3 | 0 % of 3 |"]))

    def test_the_limit_on_memory_is_the_one_that_was_asked_for(self):
        self.program(f'ulimit -v >>"{self.folder}/limits"')
        self.assertEqual(command(*self.words("--to", 5, "--memory", 500)), (0, "", ""))
        self.assertEqual(self.contents("limits").split(), [b"512000"] * 3)


@with_program
class Memory(Folder):
    def test_a_limit_on_memory(self):
        scen = os.path.join(EXAMPLES, "grid-32-32.scen")
        words = ("series", "--maps", EXAMPLES, "--scens", scen, "--from", 40, "--to", 40, "--seconds", 600, "--nodes", 1000000)
        self.assertEqual(command(*words, "--memory", 32, "--csv", self.csv), (0, "", ""))
        (row,) = rows_of(self.csv)
        self.assertEqual(row[:5], ["grid-32-32.map", "grid-32-32.scen", "40", "out_of_memory", ""])
