"""A headless Chromium, driven over --remote-debugging-pipe."""
import base64
import json
import os
import select
import shutil
import signal
import subprocess
import sys
import tempfile
import time

DEADLINE = 600
PROGRAM = next(filter(None, map(shutil.which, ("chromium", "chromium-browser", "google-chrome"))), None)
FLAGS = (
    "--headless=new", "--no-sandbox", "--disable-gpu", "--disable-dev-shm-usage", "--no-first-run", "--disable-sync",
    "--disable-component-update", "--disable-background-networking", "--disable-breakpad", "--remote-debugging-pipe")
# Chromium reads its commands from file 3, and answers to file 4.
STARTER = """import os, sys
os.dup2(int(sys.argv[1]), 103), os.dup2(int(sys.argv[2]), 104)
os.dup2(103, 3), os.dup2(104, 4)
os.closerange(5, 105)
os.execv(sys.argv[3], sys.argv[3:])"""


class Browser:
    """A browser with one page.

    events: what it told by itself.
    folder: where downloads go; it is gone at the end.
    """

    def __init__(self, dark=False, width=1440, height=900):
        self.events, self.folder = [], tempfile.mkdtemp(prefix="mapf-page-")
        self._count, self._read, self._session = 0, b"", None
        commands, to = os.pipe()
        self._from, answers = os.pipe()
        words = [PROGRAM, *FLAGS, f"--user-data-dir={self.folder}/profile", "about:blank"]
        self._process = subprocess.Popen(
            [sys.executable, "-c", STARTER, str(commands), str(answers), *words], pass_fds=(commands, answers),
            stdin=subprocess.DEVNULL, stdout=subprocess.DEVNULL, stderr=subprocess.DEVNULL, start_new_session=True)
        os.close(commands)
        os.close(answers)
        self._to = os.fdopen(to, "wb")
        self._attach(dark, width, height)

    def _attach(self, dark, width, height):
        self.send("Browser.setDownloadBehavior", behavior="allow", downloadPath=self.folder)
        page = next(one for one in self.send("Target.getTargets")["targetInfos"] if one["type"] == "page")
        self._session = self.send("Target.attachToTarget", targetId=page["targetId"], flatten=True)["sessionId"]
        for domain in ("Page", "Runtime", "Log", "Network", "DOM"):
            self.send(domain + ".enable")
        self.send("Emulation.setDeviceMetricsOverride", width=width, height=height, deviceScaleFactor=1, mobile=False)
        scheme = {"name": "prefers-color-scheme", "value": "dark" if dark else "light"}
        self.send("Emulation.setEmulatedMedia", features=[scheme])

    def send(self, method, **params):
        """A command's result."""
        self._count += 1
        session = {"sessionId": self._session} if self._session else {}
        self._to.write(json.dumps({"id": self._count, "method": method, "params": params, **session}).encode() + b"\0")
        self._to.flush()
        while True:
            told = self._next()
            if told.get("id") != self._count:
                self.events.append(told)
            elif "error" in told:
                raise RuntimeError(f"{method}: {told['error']}")
            else:
                return told["result"]

    def _next(self):
        while b"\0" not in self._read:
            if not select.select([self._from], [], [], DEADLINE)[0]:
                raise TimeoutError(f"the browser tells nothing for {DEADLINE} s")
            piece = os.read(self._from, 1 << 20)
            if not piece:
                raise EOFError("the browser ended")
            self._read += piece
        told, self._read = self._read.split(b"\0", 1)
        return json.loads(told)

    def value(self, code):
        """The value of an expression of the page's script, or of a promise."""
        got = self.send("Runtime.evaluate", expression=code, awaitPromise=True, returnByValue=True, userGesture=True)
        if "exceptionDetails" in got:
            raise RuntimeError(f"{code}: {got['exceptionDetails']}")
        return got["result"].get("value")

    def until(self, code):
        """Waits until an expression is true."""
        ends = time.monotonic() + DEADLINE
        while not self.value(code):
            if time.monotonic() > ends:
                raise TimeoutError(code)
            time.sleep(0.05)

    def open(self, path):
        """Opens a page from disk, and waits until it has begun."""
        self.send("Page.navigate", url="file://" + os.path.abspath(path))
        self.until("document.documentElement?.dataset.ready === 'yes'")

    def choose(self, selector, *paths):
        """Chooses files, as a reader does by a file's field."""
        root = self.send("DOM.getDocument")["root"]["nodeId"]
        node = self.send("DOM.querySelector", nodeId=root, selector=selector)["nodeId"]
        self.send("DOM.setFileInputFiles", nodeId=node, files=list(paths))

    def key(self, key, shift=False):
        """Presses a key."""
        text = {"text": key} if len(key) == 1 else {}
        self.send("Input.dispatchKeyEvent", type="keyDown", key=key, modifiers=8 if shift else 0, **text)
        self.send("Input.dispatchKeyEvent", type="keyUp", key=key, modifiers=8 if shift else 0)

    def mouse(self, kind, x, y, **more):
        """Moves the mouse (`Moved`), its button (`Pressed`, `Released`) or its wheel (`Wheel`)."""
        self.send("Input.dispatchMouseEvent", type="mouse" + kind, x=x, y=y, button="left", clickCount=1, **more)

    def click(self, selector):
        """Clicks on the middle of an element."""
        x, y = self.value(
            f"(() => {{ const r = document.querySelector('{selector}').getBoundingClientRect(); "
            "return [r.left + r.width / 2, r.top + r.height / 2]; })()")
        self.mouse("Pressed", x, y)
        self.mouse("Released", x, y)

    def picture(self, path):
        """Writes a screenshot."""
        self.value("new Promise((seen) => requestAnimationFrame(() => requestAnimationFrame(seen)))")
        with open(path, "wb") as file:
            file.write(base64.b64decode(self.send("Page.captureScreenshot", format="png")["data"]))

    def complaints(self):
        """The errors that the console has, of the script and of what the policy forbids."""
        return [told["params"] for told in self.events if told["method"] == "Runtime.exceptionThrown"
                or told["params"].get("entry", {}).get("level") == "error"]

    def close(self):
        """Ends the browser and all that it started."""
        try:
            self.send("Browser.close")
            self._process.wait(10)
        except (OSError, EOFError, TimeoutError, RuntimeError, subprocess.TimeoutExpired):
            pass
        try:
            os.killpg(self._process.pid, signal.SIGKILL)
        except ProcessLookupError:
            pass
        self._process.wait()
        self._to.close()
        os.close(self._from)
        shutil.rmtree(self.folder, ignore_errors=True)
