"""Chromium without a window, driven over a pipe by its own protocol. For the scripts beside this file; it needs no package but Chromium."""

import base64
import contextlib
import json
import os
import shutil
import signal
import subprocess
import tempfile

NAMES = ("chromium", "chromium-browser", "google-chrome")
OPTIONS = (
    "--headless=new --no-sandbox --disable-gpu --hide-scrollbars --disable-dev-shm-usage --no-first-run "
    "--disable-background-networking --remote-debugging-pipe"
).split()
PATIENCE = 60


def found():
    """The path of a Chromium that is installed, or nothing."""
    return next(filter(None, map(shutil.which, NAMES)), None)


class Browser:
    """One page of a browser that ends with this object."""

    def __init__(self, width=1500, height=920):
        self.folder = tempfile.mkdtemp(prefix="browser")
        for_browser, self.writer = os.pipe()
        self.reader, from_browser = os.pipe()

        def wire():
            os.setpgid(0, 0)
            # Clear of 3 and 4, which the browser reads from and writes to.
            ends = os.dup(for_browser), os.dup(from_browser)
            os.dup2(ends[0], 3)
            os.dup2(ends[1], 4)

        self.process = subprocess.Popen(
            [found(), *OPTIONS, f"--user-data-dir={self.folder}", f"--window-size={width},{height}", "about:blank"],
            preexec_fn=wire, close_fds=False, stdout=subprocess.DEVNULL, stderr=subprocess.DEVNULL)
        os.close(for_browser)
        os.close(from_browser)
        self.rest, self.calls, self.events, self.session = b"", 0, [], None
        page = next(it for it in self.call("Target.getTargets")["targetInfos"] if it["type"] == "page")
        self.session = self.call("Target.attachToTarget", targetId=page["targetId"], flatten=True)["sessionId"]
        for domain in ("Page", "Runtime", "Log"):
            self.call(domain + ".enable")
        self.size(width, height)

    def __enter__(self):
        signal.signal(signal.SIGALRM, self.too_late)
        return self

    def __exit__(self, *_):
        signal.alarm(0)
        with contextlib.suppress(Exception):
            self.call("Browser.close")
        try:
            self.process.wait(5)
        except subprocess.TimeoutExpired:
            os.killpg(self.process.pid, signal.SIGKILL)
            self.process.wait()
        shutil.rmtree(self.folder, ignore_errors=True)

    def too_late(self, *_):
        raise TimeoutError(f"the browser said nothing for {PATIENCE} s")

    def message(self):
        signal.alarm(PATIENCE)
        while b"\0" not in self.rest:
            more = os.read(self.reader, 1 << 20)
            if not more:
                raise EOFError("the browser has ended")
            self.rest += more
        signal.alarm(0)
        message, self.rest = self.rest.split(b"\0", 1)
        return json.loads(message)

    def call(self, method, **arguments):
        """Calls a method of the protocol, and returns its result. What the browser reports meanwhile is kept."""
        self.calls += 1
        number = self.calls
        message = {"id": number, "method": method, "params": arguments}
        if self.session:
            message["sessionId"] = self.session
        os.write(self.writer, json.dumps(message).encode() + b"\0")
        while True:
            it = self.message()
            if it.get("id") != number:
                self.events.append(it)
                continue
            if "error" in it:
                raise RuntimeError(f"{method}: {it['error']}")
            return it["result"]

    def size(self, width, height):
        self.call("Emulation.setDeviceMetricsOverride", width=width, height=height, deviceScaleFactor=1, mobile=False)

    def open(self, path):
        """Opens a file, with a fragment if it has one, and waits until it is drawn."""
        for address in ("about:blank", "file://" + path):
            self.events = [it for it in self.events if it.get("method") != "Page.loadEventFired"]
            self.call("Page.navigate", url=address)
            while not any(it.get("method") == "Page.loadEventFired" for it in self.events):
                self.events.append(self.message())
        self.settle()

    def settle(self):
        """Waits until what was changed is drawn."""
        self.value("new Promise(done => requestAnimationFrame(() => requestAnimationFrame(done)))")

    def value(self, expression):
        """The value of an expression in the page."""
        done = self.call("Runtime.evaluate", expression=expression, awaitPromise=True, returnByValue=True)
        if "exceptionDetails" in done:
            thrown = done["exceptionDetails"]
            raise RuntimeError(f"{expression}: {thrown.get('exception', thrown).get('description', thrown)}")
        return done["result"].get("value")

    def press(self, key, code=0):
        """Presses a key; one without a letter needs its code."""
        text = key if len(key) == 1 else "\r" if key == "Enter" else ""
        self.call("Input.dispatchKeyEvent", type="keyDown", key=key, text=text, windowsVirtualKeyCode=code)
        self.call("Input.dispatchKeyEvent", type="keyUp", key=key, windowsVirtualKeyCode=code)
        self.settle()

    def mouse(self, kind, x, y, **more):
        self.call("Input.dispatchMouseEvent", type=kind, x=x, y=y, **more)

    def click(self, x, y):
        self.mouse("mouseMoved", x, y)
        self.mouse("mousePressed", x, y, button="left", clickCount=1)
        self.mouse("mouseReleased", x, y, button="left", clickCount=1)
        self.settle()

    def prefer(self, scheme):
        self.call("Emulation.setEmulatedMedia", features=[{"name": "prefers-color-scheme", "value": scheme}])

    def printed(self):
        """The page as it is printed, a PDF."""
        return base64.b64decode(self.call("Page.printToPDF", landscape=True, printBackground=True)["data"])

    def picture(self):
        """What is seen of the page, a PNG."""
        return base64.b64decode(self.call("Page.captureScreenshot", format="png")["data"])

    def complaints(self):
        """What the console has got since this was last asked for."""
        kept = []
        for it in self.events:
            said = it.get("params", {})
            if it.get("method") == "Runtime.exceptionThrown":
                thrown = said["exceptionDetails"]
                kept.append(thrown.get("exception", {}).get("description", thrown["text"])[:600])
            elif it.get("method") == "Log.entryAdded":
                kept.append(said["entry"]["text"][:300])
            elif it.get("method") == "Runtime.consoleAPICalled":
                kept.append(str(said["args"])[:300])
        self.events = []
        return kept
