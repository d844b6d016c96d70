"""A browser without a window, Chromium, which is told what to do over a pipe (DevTools): it shows a page, presses keys and says what stands there."""

import contextlib
import fcntl
import json
import os
import pathlib
import select
import shutil
import signal
import tempfile
import time

from waiting import PATIENCE

NAMES = ("chromium", "chromium-browser", "chromium-headless-shell", "google-chrome")
# Pages are the tests' own, and shown as whoever tests, who may be root.
WORDS = ["--headless", "--no-sandbox", "--disable-gpu", "--disable-dev-shm-usage", "--no-first-run", "--disable-extensions", "--disable-background-networking",
         "--remote-debugging-pipe"]
KEYS = {"ArrowRight": 39, "Tab": 9, "Enter": 13}


def program():
    """The browser of this machine, or None."""
    return next(filter(None, map(shutil.which, NAMES)), None)


def above(end):
    """The same end of a pipe by a number that is none of those which the browser gets."""
    other = fcntl.fcntl(end, fcntl.F_DUPFD_CLOEXEC, 10)
    os.close(end)
    return other


class Failed(Exception):
    """What the browser says of a call that failed."""


class Browser:
    """One tab. The browser hears from descriptor 3 and answers at 4, a JSON value and a byte 0 each time; it ends where these are closed."""

    def __enter__(self):
        self.start()
        try:
            self.attach()
        except Failed:
            self.__exit__()
            raise
        return self

    def start(self):
        self.folder = tempfile.TemporaryDirectory(prefix="swanroll-browser.", ignore_cleanup_errors=True)
        theirs, self.out, self.into, answers = map(above, os.pipe() + os.pipe())
        actions = [(os.POSIX_SPAWN_DUP2, theirs, 3), (os.POSIX_SPAWN_DUP2, answers, 4)]
        actions += [(os.POSIX_SPAWN_OPEN, number, os.devnull, os.O_RDWR, 0) for number in (0, 1, 2)]
        words = [program(), *WORDS, f"--user-data-dir={self.folder.name}", "about:blank"]
        self.process = os.posix_spawn(words[0], words, os.environ, file_actions=actions, setpgroup=0)
        os.close(theirs)
        os.close(answers)
        self.number, self.heard, self.told, self.session = 0, b"", [], None

    def attach(self):
        target = next(one for one in self.call("Target.getTargets")["targetInfos"] if one["type"] == "page")
        self.session = self.call("Target.attachToTarget", targetId=target["targetId"], flatten=True)["sessionId"]
        for domain in ("Page", "Runtime", "Log", "Network"):
            self.call(f"{domain}.enable")

    def __exit__(self, *_):
        self.session = None
        with contextlib.suppress(Failed):
            self.call("Browser.close")
        os.close(self.out)
        os.close(self.into)
        until = time.monotonic() + 10
        while os.waitpid(self.process, os.WNOHANG)[0] == 0:
            if time.monotonic() > until:
                os.killpg(self.process, signal.SIGKILL)
                os.waitpid(self.process, 0)
                break
            time.sleep(0.02)
        self.folder.cleanup()

    def message(self):
        """The next value that the browser sends."""
        while b"\0" not in self.heard:
            if not select.select([self.into], [], [], PATIENCE)[0]:
                raise Failed(f"silent for {PATIENCE} s")
            piece = os.read(self.into, 1 << 20)
            if not piece:
                raise Failed("it has ended")
            self.heard += piece
        one, _, self.heard = self.heard.partition(b"\0")
        return json.loads(one)

    def call(self, method, **words):
        """What a call answers; what comes before that is kept in `told`."""
        self.number += 1
        value = {"id": self.number, "method": method, "params": words, **({"sessionId": self.session} if self.session else {})}
        text = json.dumps(value).encode() + b"\0"
        try:
            while text:
                text = text[os.write(self.out, text):]
        except OSError as fault:
            raise Failed(fault.strerror)
        while (heard := self.message()).get("id") != self.number:
            self.told.append(heard)
        if "error" in heard:
            raise Failed(f"{method}: {heard['error']['message']}")
        return heard["result"]

    def show(self, path, behind=""):
        """Opens a file, and returns once it is there."""
        self.call("Page.navigate", url="about:blank")
        self.told.clear()
        address = pathlib.Path(path).as_uri()
        self.call("Page.navigate", url=address + behind)
        until = time.monotonic() + PATIENCE
        while self.value('[document.readyState, location.href.split("#")[0]]') != ["complete", address]:
            if time.monotonic() > until:
                raise Failed(f"{path} isn't shown after {PATIENCE} s")
            time.sleep(0.01)

    def value(self, expression):
        """The value of an expression on the page."""
        found = self.call("Runtime.evaluate", expression=expression, returnByValue=True)
        if "exceptionDetails" in found:
            raise Failed(found["exceptionDetails"].get("exception", {}).get("description", expression))
        return found["result"].get("value")

    def press(self, key):
        words = {"key": key, "code": key, "windowsVirtualKeyCode": KEYS[key], **({"text": "\r"} if key == "Enter" else {})}
        self.call("Input.dispatchKeyEvent", type="keyDown", **words)
        self.call("Input.dispatchKeyEvent", type="keyUp", **words)

    def wide(self, width, height):
        """The window's size; below 600 that of a phone."""
        self.call("Emulation.setDeviceMetricsOverride", width=width, height=height, deviceScaleFactor=1, mobile=width < 600)

    def dark(self, dark):
        self.call("Emulation.setEmulatedMedia", features=[{"name": "prefers-color-scheme", "value": "dark" if dark else "light"}])

    def complaints(self):
        """What the page asked for beside itself, and what went wrong on it."""
        for one in self.told:
            words = one.get("params", {})
            if one.get("method") == "Network.requestWillBeSent" and not words["request"]["url"].startswith(("file:", "about:")):
                yield f"it asks for {words['request']['url'][:80]}"
            elif one.get("method") == "Runtime.exceptionThrown":
                yield words["exceptionDetails"].get("exception", {}).get("description", "an exception")
            elif one.get("method") == "Log.entryAdded" and words["entry"]["level"] == "error":
                yield words["entry"]["text"]
