"""The commands that `python3 -m mapf series --list` prints, run by others: a job array of Slurm, and GNU parallel."""
import os
import shlex
import shutil
import subprocess
import sys
import unittest

from series_support import WithStandIn, rows_of
from support import EXAMPLES, command, written

SCRIPT = os.path.join(EXAMPLES, "series.slurm")


class Arrays(WithStandIn):
    def listed(self, *more):
        """The path of the commands."""
        status, out, err = command(*self.words("--nodes", 7, "--list", *more))
        self.assertEqual((status, err), (0, ""))
        return written(self.folder, "commands", out)

    def joined(self):
        self.assertEqual(command("series", "--csv", self.csv, "--join", self.csv + ".parts"), (0, "", ""))
        self.assertEqual(rows_of(self.csv), self.expected("15", "gave_up", "", "140", "7"))

    def task(self, number, commands):
        """The status of a task of the array; the variable is all that the scheduler says."""
        environment = {**os.environ, "SLURM_ARRAY_TASK_ID": str(number)}
        return subprocess.run([SCRIPT, commands], env=environment, stderr=subprocess.DEVNULL).returncode

    def test_each_line_names_the_interpreter_that_listed_it(self):
        with open(self.listed()) as file:
            words = [shlex.split(line) for line in file]
        self.assertEqual(len(words), 12)
        for line in words:
            self.assertEqual(line[line.index("-m") - 1], sys.executable)

    def test_the_tasks_of_an_array_run_each_command_once(self):
        commands = self.listed()
        with open(SCRIPT) as file:
            self.assertIn("#SBATCH --array=1-100\n", file.read())
        self.assertEqual({self.task(number, commands) for number in range(1, 101)}, {0})
        self.assertEqual(self.runs(), 12)
        self.joined()

    def test_more_commands_than_tasks(self):
        commands = written(self.folder, "many", "".join(f"echo {number} >>{self.folder}/ran\n" for number in range(1, 251)))
        for number in (50, 51, 100):
            self.assertEqual(self.task(number, commands), 0)
        numbers = [int(number) for number in self.contents("ran").split()]
        self.assertEqual(numbers, [50, 150, 250, 51, 151, 100, 200])

    def test_a_task_that_failed_is_run_again(self):
        commands = self.listed("scenarios")
        self.program("kill -9 $$")
        self.assertEqual([self.task(number, commands) for number in (1, 2, 3, 4)], [1, 1, 1, 0])
        self.program("")
        self.assertEqual([self.task(number, commands) for number in (1, 2, 3)], [0, 0, 0])
        self.joined()

    @unittest.skipUnless(shutil.which("parallel"), "no GNU parallel")
    def test_gnu_parallel(self):
        with open(self.listed()) as commands:
            subprocess.run(["parallel", "--jobs", "2"], stdin=commands, check=True)
        self.joined()
