"""Files, and folders to work in, whose names are no UTF-8: by each command, as a process of its own."""
import os
import shutil
import subprocess
import tempfile
import unittest

import mapf.program
from support import BAY, EXAMPLES, backends, process, with_program

BAY_TEXT = b"plan 2 4\n1,0 1,1 1,0\n0,0 1,0 2,0\n"
NAME = b"b\xe9y"


@unittest.skipUnless(backends(), "neither library nor program is built")
class Names(unittest.TestCase):
    def setUp(self):
        folder = tempfile.TemporaryDirectory()
        self.addCleanup(folder.cleanup)
        self.folder = os.path.join(os.fsencode(folder.name), b"f\xe9")
        os.mkdir(self.folder)
        for end in (b".map", b".scen"):
            shutil.copy(os.path.join(os.fsencode(EXAMPLES), b"bay" + end), os.path.join(self.folder, NAME + end))
        shutil.copy(os.path.join(EXAMPLES, "plans", "bay-2.plan"), os.path.join(self.folder, NAME + b"-2.plan"))

    def ran(self, *words):
        """The status and both outputs of a command in this folder, by names that stand alone and by whole paths."""
        found = []
        for before in (b"", self.folder + b"/"):
            files = [before + word if isinstance(word, bytes) else word for word in words]
            running = process(*(os.fsdecode(file) for file in files), cwd=self.folder, stdout=-1, stderr=-1)
            out, err = running.communicate()
            found.append((running.returncode, out.replace(self.folder + b"/", b""), err.replace(self.folder + b"/", b"")))
        self.assertEqual(found[0], found[1])
        return found[0]

    def test_each_command(self):
        grid, scen, plan = NAME + b".map", NAME + b".scen", NAME + b"-2.plan"
        self.assertEqual(self.ran("solve", grid, scen), (0, BAY_TEXT, b""))
        self.assertEqual(self.ran("convert", plan), (0, BAY_TEXT, b""))
        self.assertEqual(self.ran("check", "--map", grid, "--scen", scen, "--plan", plan), (0, b"valid 4\n", b""))
        for page in (NAME + b".html", NAME + b".svg"):
            self.assertEqual(self.ran("show", grid, scen, plan, "-o", page), (0, page + b": valid 4\n", b""))

    def test_names_in_rows_and_messages(self):
        status, out, err = self.ran("check", "--out", "csv", "--map", NAME + b".map", "--scen", NAME + b".scen", NAME + b"-2.plan")
        row = NAME + b"-2.plan," + NAME + b".map," + NAME + b".scen,2,0,valid 4,"
        self.assertEqual((status, err, out.split(b"\n")[1][:len(row)]), (0, b"", row))
        status, out, err = self.ran("solve", NAME + b".map", NAME + b".map")
        self.assertEqual((status, out), (3, b""))
        self.assertTrue(err.startswith(b"mapf: " + NAME + b".map: 11 "), err)

    @with_program
    def test_a_series(self):
        with open(os.path.join(self.folder, NAME + b".scen"), "r+b") as file:
            named = file.read().replace(b"bay.map", NAME + b".map")
            file.seek(0)
            file.write(named)
            file.truncate()
        rows = os.path.join(self.folder, b"rows.csv")
        words = ["series", "--maps", self.folder, "--scens", self.folder, "--csv", rows, "--from", "2", "--to", "2", "--seconds", "60"]
        running = process(*map(os.fsdecode, words), stdout=-1, stderr=-1)
        self.assertEqual((*running.communicate(), running.returncode), (b"", b"", 0))
        with open(rows, "rb") as file:
            self.assertIn(NAME + b".map," + NAME + b".scen,2,solved,4,", file.read())

    @with_program
    def test_a_program_whose_path_is_no_utf_8(self):
        path = os.path.join(self.folder, b"mapf")
        shutil.copy(mapf.program.program_path(), path)
        with self.assertRaises(mapf.NotBuilt) as refused:
            mapf.program.Program(os.fsdecode(path))
        self.assertIn("isn't UTF-8", str(refused.exception))
        self.assertEqual(subprocess.run([path, "--version"], stderr=subprocess.DEVNULL).returncode, 2)

    def test_an_instance_that_is_written(self):
        paths = [os.fsdecode(os.path.join(self.folder, name)) for name in (b"\xff.map", b"\xff.scen")]
        mapf.Instance(["...", "@.@"], [(1, 0), (0, 0)], [(1, 0), (2, 0)]).write(*paths)
        self.assertEqual(mapf.solve(*paths).text().encode(), BAY_TEXT)
        with open(paths[1], "rb") as file:
            self.assertIn(b"\t\xff.map\t", file.read())
        with open(paths[0], "rb") as file:
            self.assertEqual(file.read(), BAY[0])
