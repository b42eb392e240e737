"""bindings/release: the same bytes from two checkouts of a commit, and none from what is no commit's."""
import os
import shutil
import subprocess
import tempfile
import unittest

from pages import PAGE
from support import EXAMPLES, ROOT, with_library, with_program
from test_install import copied, lacking

MODULE = os.path.join(os.path.dirname(PAGE), "mapf.wasm")
GIT = ("git", "-c", "user.name=tests", "-c", "user.email=tests@localhost", "-c", "commit.gpgsign=false")
COPIED = ("bindings/release", "bindings/page/build", ".gitignore")


@with_library
@with_program
@unittest.skipIf(lacking(), lacking())
@unittest.skipUnless(os.path.isfile(MODULE), "no page: bindings/page/build makes it")
@unittest.skipUnless(shutil.which("git"), "no git")
class Release(unittest.TestCase):
    @classmethod
    def setUpClass(cls):
        folder = tempfile.TemporaryDirectory()
        cls.addClassCleanup(folder.cleanup)
        cls.first, cls.second = (os.path.join(folder.name, name) for name in ("first", "second one"))
        copied(cls.first, with_built=True)
        for name in COPIED:
            os.makedirs(os.path.dirname(os.path.join(cls.first, name)), exist_ok=True)
            shutil.copy2(os.path.join(ROOT, name), os.path.join(cls.first, name))
        shutil.copytree(EXAMPLES, os.path.join(cls.first, "examples"))
        for words in (("init", "--quiet"), ("add", "--all"), ("commit", "--quiet", "--message", "all")):
            subprocess.run([*GIT, *words], cwd=cls.first, check=True)
        subprocess.run(["sh", "-c", 'umask 077 && git clone --quiet "$1" "$2"', "-", cls.first, cls.second], check=True)
        shutil.copy(MODULE, os.path.join(cls.first, "bindings", "out"))
        for name in ("bindings/out", "crates/mapf/out"):
            shutil.copytree(os.path.join(cls.first, name), os.path.join(cls.second, name), copy_function=shutil.copy)

    def released(self, root, status=0):
        """The bytes by the files' names; the error where there is none."""
        dist = os.path.join(root, "dist")
        done = subprocess.run([os.path.join(root, "bindings", "release")], stderr=subprocess.PIPE, universal_newlines=True)
        self.assertEqual(done.returncode, status, done.stderr)
        if status:
            return done.stderr
        found = {}
        for name in os.listdir(dist):
            with open(os.path.join(dist, name), "rb") as file:
                found[name] = file.read()
        return found

    def test_the_same_bytes_again(self):
        first = self.released(self.first)
        self.assertEqual([name.split("-")[0] for name in sorted(first)], ["README.md", "mapf", "mapf.html"])
        commit = subprocess.run([*GIT, "rev-parse", "HEAD"], cwd=self.first, stdout=subprocess.PIPE, check=True).stdout
        self.assertIn(commit, first["README.md"])
        self.assertEqual(self.released(self.first), first)
        self.assertEqual(self.released(self.second), first)

    def test_what_is_no_commits_is_refused(self):
        stray = os.path.join(self.first, "bindings", "python", "mapf", "stray.py")
        with open(stray, "w", encoding="ascii"):
            self.addCleanup(os.remove, stray)
        said = self.released(self.first, status=1)
        self.assertEqual(said, "bindings/release: commit first: what is here is no commit's\n")
