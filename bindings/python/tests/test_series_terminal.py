"""What `python3 -m mapf series` says on a terminal."""
import os
import re
import subprocess
import unittest

from series_support import WithStandIn, rows_of
from support import process, written

try:
    import fcntl
    import pty
    import struct
    import termios
except ImportError:
    pty = None

LAST = re.compile(r"(\d+) of 3 scenarios done, (\d+) of (\d+) runs solved(?:; running (.+))?")


@unittest.skipUnless(pty, "no terminals")
class Terminal(WithStandIn):
    def on_terminal(self, *more, columns=200):
        """The status, and what a terminal was sent of standard error."""
        ours, theirs = pty.openpty()
        fcntl.ioctl(theirs, termios.TIOCSWINSZ, struct.pack("HHHH", 24, columns, 0, 0))
        running = process(*self.words(*more), stdout=theirs, stderr=theirs, stdin=subprocess.DEVNULL)
        os.close(theirs)
        text = b""
        while True:
            try:
                piece = os.read(ours, 65536)
            except OSError:
                break
            if not piece:
                break
            text += piece
        os.close(ours)
        return running.wait(timeout=300), text.decode()

    def test_a_line_for_each_run_and_how_far_it_is(self):
        status, text = self.on_terminal("--nodes", 7, "--jobs", 2)
        self.assertEqual(status, 0)
        lines = [line.split("\r\x1b[K")[-1] for line in text.split("\r\n")]
        self.assertEqual(lines.pop(), "")
        seconds = r", \d+\.\d{3} s"
        runs = [re.fullmatch(f"(.+): (solved|gave_up){seconds}", line).groups() for line in lines]
        self.assertEqual(sorted(runs), sorted((f"{row[1]}, {row[2]} agents", row[3]) for row in rows_of(self.csv)))
        self.assertEqual(len(runs), 9)
        shown = [LAST.fullmatch(piece) for piece in re.split("\r\n|\r\x1b\\[K", text) if "scenarios done" in piece]
        self.assertEqual(shown[0].groups(), ("0", "0", "0", "a.scen, 5 agents"))
        self.assertEqual(shown[-1].groups(), ("3", "6", "9", None))
        self.assertEqual(max((last.group(4) or "").count("agents") for last in shown), 2)

    def test_known_rows_count(self):
        self.on_terminal("--nodes", 7, "--to", 5)
        _, text = self.on_terminal("--nodes", 7, "--to", 10, "--resume")
        self.assertIn("0 of 3 scenarios done, 3 of 3 runs solved; running a.scen, 10 agents", text)
        self.assertIn("3 of 3 scenarios done, 6 of 6 runs solved", text)

    def test_no_line_is_wider_than_the_terminal(self):
        _, text = self.on_terminal("--nodes", 7, "--jobs", 3, columns=40)
        pieces = [piece for piece in re.split("\r\n|\r\x1b\\[K", text) if "scenarios done" in piece]
        self.assertEqual({len(piece) for piece in pieces}, {39})

    def test_refusals_have_a_line_of_their_own(self):
        self.program('[ $agents = 5 ] || exec sh -c "echo mapf: 22 too few rows: 8 >&2; exit 3"')
        status, text = self.on_terminal()
        self.assertEqual(status, 1)
        said = "mapf: b.scen, 10 agents: status 3, mapf: 22 too few rows: 8"
        self.assertIn(said, text.split("\r\n"))
        self.assertTrue(text.endswith("3 of 6 rows failed or were refused; --resume runs them again\r\n"))

    def test_elsewhere_nothing(self):
        path = written(self.folder, "said", "")
        with open(path, "wb") as said:
            self.assertEqual(process(*self.words("--nodes", 7), stderr=said).wait(timeout=300), 0)
        self.assertEqual(self.contents("said"), b"")
