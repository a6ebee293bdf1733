"""A headless Chromium that a test drives by its own protocol, over two pipes."""
import base64
import json
import os
import shutil
import subprocess
import sys
import tempfile

NAMES = "chromium", "chromium-browser", "google-chrome"
WORDS = (
    "--headless=new", "--no-sandbox", "--disable-gpu", "--disable-dev-shm-usage", "--no-first-run", "--disable-extensions",
    "--disable-background-networking", "--hide-scrollbars", "--remote-debugging-pipe",
)  # fmt: skip

# Runs a command with two descriptors, which are named first, as 3 and 4.
AS_3_AND_4 = """\
import fcntl, os, sys
for place, number in enumerate([fcntl.fcntl(int(word), fcntl.F_DUPFD, 10) for word in sys.argv[1:3]], 3):
    os.dup2(number, place)
os.execvp(sys.argv[3], sys.argv[3:])
"""


def found():
    """The path of a Chromium; None where there is none."""
    return next(filter(None, map(shutil.which, NAMES)), None)


class Browser:
    """A browser with one page. `told` has what its console says and what went wrong in the page."""

    def __init__(self):
        self.folder = tempfile.TemporaryDirectory()
        theirs, self.out = os.pipe()
        self.back, given = os.pipe()
        words = [found(), *WORDS, f"--user-data-dir={self.folder.name}", "about:blank"]
        self.process = subprocess.Popen([sys.executable, "-c", AS_3_AND_4, str(theirs), str(given), *words],
                                        pass_fds=(theirs, given),
                                        stderr=subprocess.DEVNULL, stdout=subprocess.DEVNULL)  # fmt: skip
        os.close(theirs)
        os.close(given)
        self.number, self.held, self.told, self.session = 0, b"", [], None
        target = next(one for one in self.ask("Target.getTargets")["targetInfos"] if one["type"] == "page")
        self.session = self.ask("Target.attachToTarget", targetId=target["targetId"], flatten=True)["sessionId"]
        for part in "Page", "Runtime", "Log", "Network":
            self.ask(f"{part}.enable")
        self.ask("Performance.enable", timeDomain="threadTicks")

    def message(self):
        """The next message of the browser."""
        while b"\0" not in self.held:
            more = os.read(self.back, 1 << 20)
            if not more:
                raise EOFError("the browser has ended")
            self.held += more
        text, _, self.held = self.held.partition(b"\0")
        return json.loads(text)

    def ask(self, method, **given):
        """What a method gives."""
        self.number += 1
        asked = {"id": self.number, "method": method, "params": given}
        if self.session:
            asked["sessionId"] = self.session
        os.write(self.out, json.dumps(asked).encode() + b"\0")
        while True:
            told = self.message()
            if told.get("id") == self.number:
                if "error" in told:
                    raise ValueError(f"{method}: {told['error']}")
                return told["result"]
            self.take(told)

    def take(self, told):
        """Takes what the page tells: lines of its console, exceptions, and requests but for files and data."""
        method, given = told.get("method"), told.get("params", {})
        if method in ("Runtime.exceptionThrown", "Runtime.consoleAPICalled", "Log.entryAdded"):
            self.told.append(json.dumps(given)[:300])
        elif method == "Network.requestWillBeSent" and not given["request"]["url"].startswith(("file:", "data:", "about:")):
            self.told.append(given["request"]["url"])

    def open(self, path, width=1430, height=900):
        """Opens a file in a window of this size, and waits until it is there."""
        self.size(width, height)
        self.ask("Page.navigate", url="file://" + path)
        while self.value("document.readyState") != "complete" or self.value("location.protocol") != "file:":
            pass

    def size(self, width, height=900):
        """Gives the window another size."""
        self.ask("Emulation.setDeviceMetricsOverride", width=width, height=height, deviceScaleFactor=1, mobile=False)
        self.value("new Promise((done) => requestAnimationFrame(() => requestAnimationFrame(() => done(1))))")

    def value(self, expression):
        """What an expression gives in the page."""
        told = self.ask("Runtime.evaluate", expression=expression, returnByValue=True, awaitPromise=True)
        if "exceptionDetails" in told:
            raise ValueError(f"{expression}: {told['exceptionDetails']}")
        return told["result"].get("value")

    def busy(self):
        """How many seconds of a processor the page has taken to be there."""
        return next(one["value"] for one in self.ask("Performance.getMetrics")["metrics"] if one["name"] == "TaskDuration")

    def mouse(self, kind, x, y, **given):
        """An event of the mouse."""
        self.ask("Input.dispatchMouseEvent", type=kind, x=x, y=y, **given)

    def click(self, x, y):
        """A click."""
        for kind in "mousePressed", "mouseReleased":
            self.mouse(kind, x, y, button="left", clickCount=1)

    def key(self, key, text=""):
        """A key."""
        self.ask("Input.dispatchKeyEvent", type="keyDown", key=key, text=text)
        self.ask("Input.dispatchKeyEvent", type="keyUp", key=key)

    def shot(self, path, whole=False):
        """A picture of the window, or of the whole page."""
        data = self.ask("Page.captureScreenshot", captureBeyondViewport=whole)["data"]
        with open(path, "wb") as file:
            file.write(base64.b64decode(data))

    def close(self):
        """Ends the browser."""
        try:
            self.session = None
            self.ask("Browser.close")
        except (EOFError, OSError):
            pass
        self.process.wait()
        os.close(self.out)
        os.close(self.back)
        self.folder.cleanup()
