"""Opens pages in a headless Chromium, which is driven over two pipes: no port, no library, and no network."""

import base64
import fcntl
import json
import os
import select
import shutil
import subprocess
import sys
import tempfile
import time

NAMES = ("chromium", "chromium-browser", "google-chrome")
PATIENCE = 180
# Chromium reads what it is told from descriptor 3 and answers on 4.
START = "import os, sys; os.dup2(int(sys.argv[1]), 3); os.dup2(int(sys.argv[2]), 4); os.execvp(sys.argv[3], sys.argv[3:])"


def found():
    """The path of a Chromium, or None."""
    return next(filter(None, map(shutil.which, NAMES)), None)


class Failed(Exception):
    """What Chromium did not do."""


class Browser:
    """A running Chromium with one empty page after another."""

    def __init__(self, path):
        self.room = tempfile.TemporaryDirectory(ignore_cleanup_errors=True)
        read, self.out = os.pipe()
        self.into, write = os.pipe()
        high = [fcntl.fcntl(it, fcntl.F_DUPFD, 10) for it in (read, write)]
        words = [path, "--headless=new", "--remote-debugging-pipe", f"--user-data-dir={self.room.name}", "--no-first-run", "--disable-gpu",
                 "--hide-scrollbars", "--disable-dev-shm-usage", "--disable-background-networking", "--disable-component-update",
                 "--force-color-profile=srgb", "--lang=en", *["--no-sandbox"] * (os.geteuid() == 0)]
        self.ran = subprocess.Popen([sys.executable, "-c", START, *map(str, high), *words], pass_fds=high, stdin=subprocess.DEVNULL,
                                    stdout=subprocess.DEVNULL, stderr=subprocess.DEVNULL)
        for it in (read, write, *high):
            os.close(it)
        self.count, self.held, self.events = 0, b"", []

    def message(self, deadline):
        """The next message of Chromium's."""
        while b"\0" not in self.held:
            ready, _, _ = select.select([self.into], [], [], max(0, deadline - time.monotonic()))
            piece = os.read(self.into, 1 << 20) if ready else b""
            if not piece:
                raise Failed("Chromium ended" if ready else f"Chromium said nothing for {PATIENCE} s")
            self.held += piece
        first, _, self.held = self.held.partition(b"\0")
        return json.loads(first)

    def call(self, method, session=None, **parameters):
        """What Chromium answers to a call; events that come meanwhile are kept."""
        self.count += 1
        told = {"id": self.count, "method": method, "params": parameters} | ({"sessionId": session} if session else {})
        os.write(self.out, json.dumps(told).encode() + b"\0")
        deadline = time.monotonic() + PATIENCE
        while (it := self.message(deadline)).get("id") != self.count:
            self.events.append(it)
        if "error" in it:
            raise Failed(f"{method}: {it['error'].get('message')}")
        return it["result"]

    def wait(self, event, session):
        """Waits for an event of a page."""
        deadline = time.monotonic() + PATIENCE
        while not any(it.get("method") == event and it.get("sessionId") == session for it in self.events):
            self.events.append(self.message(deadline))

    def close(self):
        try:
            self.call("Browser.close")
        except (Failed, OSError):
            self.ran.kill()
        self.ran.wait(PATIENCE)
        for it in (self.into, self.out):
            os.close(it)
        self.room.cleanup()


class Page:
    """One page, of this width in pixels, light or dark, with scripts or without."""

    def __init__(self, browser, path, width=1280, scheme="light", has_scripts=True):
        self.browser = browser
        self.target = browser.call("Target.createTarget", url="about:blank")["targetId"]
        self.session = browser.call("Target.attachToTarget", targetId=self.target, flatten=True)["sessionId"]
        for name in ("Page", "Runtime", "Log", "Network"):
            self.call(f"{name}.enable")
        self.call("Performance.enable", timeDomain="threadTicks")
        self.call("Emulation.setDeviceMetricsOverride", width=width, height=900, deviceScaleFactor=1, mobile=False)
        self.call("Emulation.setEmulatedMedia", features=[{"name": "prefers-color-scheme", "value": scheme}])
        self.call("Emulation.setScriptExecutionDisabled", value=not has_scripts)
        self.call("Page.navigate", url=f"file://{path}")
        browser.wait("Page.loadEventFired", self.session)

    def seconds(self):
        """How many processor seconds the page has taken."""
        return {it["name"]: it["value"] for it in self.call("Performance.getMetrics")["metrics"]}["TaskDuration"]

    def leave(self):
        """Closes the page."""
        self.browser.call("Target.closeTarget", targetId=self.target)

    def call(self, method, **parameters):
        return self.browser.call(method, self.session, **parameters)

    def value(self, expression):
        """What an expression of JavaScript is on the page."""
        answer = self.call("Runtime.evaluate", expression=expression, returnByValue=True, awaitPromise=True)
        if "exceptionDetails" in answer:
            raise Failed(f"{expression[:80]}: {answer['exceptionDetails'].get('exception', {}).get('description')}")
        return answer["result"].get("value")

    def complaints(self):
        """What stands on the console, and which requests were made but for the page itself."""
        mine = [it for it in self.browser.events if it.get("sessionId") == self.session]
        said = [it["params"]["entry"]["text"] for it in mine if it["method"] == "Log.entryAdded"]
        said += [str(it["params"]["args"]) for it in mine if it["method"] == "Runtime.consoleAPICalled"]
        said += [it["params"]["exceptionDetails"]["text"] for it in mine if it["method"] == "Runtime.exceptionThrown"]
        asked = [it["params"]["request"]["url"] for it in mine if it["method"] == "Network.requestWillBeSent"]
        return said + [f"asks for {it[:80]}" for it in asked[1:]]

    def press(self, key):
        """Presses a key."""
        for kind in ("keyDown", "keyUp"):
            codes = {"Tab": 9, "Enter": 13, "ArrowRight": 39, "ArrowLeft": 37, "Home": 36, "End": 35}
            text = {"text": "\r"} if key == "Enter" and kind == "keyDown" else {}
            self.call("Input.dispatchKeyEvent", type=kind, key=key, code=key, windowsVirtualKeyCode=codes[key], **text)

    def shot(self, path, first="body", last="body"):
        """A picture of the page from the top of one element, by its selector, to the end of another."""
        box = self.value(f"""(() => {{
            const one = document.querySelector({json.dumps(first)}).getBoundingClientRect();
            const other = document.querySelector({json.dumps(last)}).getBoundingClientRect();
            return {{ y: one.top + scrollY, height: other.bottom - one.top, width: document.documentElement.clientWidth }}; }})()""")
        clip = {"x": 0, "y": max(0, box["y"] - 16), "width": box["width"], "height": min(box["height"] + 20, 16000), "scale": 1}
        made = self.call("Page.captureScreenshot", format="png", captureBeyondViewport=True, clip=clip)
        with open(path, "wb") as file:
            file.write(base64.b64decode(made["data"]))

    def paper(self, path):
        """The page as it is printed on A4."""
        made = self.call("Page.printToPDF", preferCSSPageSize=True, printBackground=True)
        with open(path, "wb") as file:
            file.write(base64.b64decode(made["data"]))
