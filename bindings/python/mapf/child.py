"""A child process that ends with its parent, however the parent ends."""
from __future__ import annotations

import fcntl
import os
import signal
import subprocess
from typing import Any, Optional, Sequence

# The shell waits for a line before it becomes the program: a parent that dies earlier leaves nothing behind.
GATE = ("/bin/sh", "-c", 'read -r go && exec "$@" </dev/null', "sh")


class Child(subprocess.Popen):
    """A program whose output and errors are read from pipes.

    Parent and child hold the ends of one more pipe, whose owner is the child. As the parent's end closes, by whatever
    death, the kernel sends the owner SIGKILL (F_SETSIG of fcntl(2)). No Python runs between fork and exec, so threads
    may start children.
    """

    def __init__(self, words: Sequence[str], **options: Any) -> None:
        held, life = os.pipe()
        self._life = os.fdopen(life, "wb")
        pipes = {"stdin": subprocess.PIPE, "stdout": subprocess.PIPE, "stderr": subprocess.PIPE}
        with os.fdopen(held, "rb"):
            super().__init__([*GATE, *words], pass_fds=(held,), **pipes, **options)
            fcntl.fcntl(held, fcntl.F_SETSIG, signal.SIGKILL)
            fcntl.fcntl(held, fcntl.F_SETOWN, self.pid)
            fcntl.fcntl(held, fcntl.F_SETFL, fcntl.fcntl(held, fcntl.F_GETFL) | os.O_ASYNC)
        self.stdin.write(b"\n")
        self.stdin.close()
        self.stdin = None

    def wait(self, timeout: Optional[float] = None) -> int:
        """The status, once it has ended."""
        status = super().wait(timeout)
        self._life.close()
        return status
