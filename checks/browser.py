"""A headless Chromium, told what to do over its pipe for debuggers (Chrome DevTools Protocol), as a check of a page needs it."""

import base64
import json
import os
import select
import signal
import subprocess
import tempfile
import time

from served import Failed

SECONDS = 60


class Browser:
    """A browser with one page, which keeps nothing."""

    def __init__(self):
        self.folder = tempfile.TemporaryDirectory()
        to_read, self.to_browser = os.pipe()
        self.from_browser, to_write = os.pipe()
        # It reads from descriptor 3, and writes to 4.
        command = ["bash", "-c", f'exec "$0" "$@" 3<&{to_read} 4>&{to_write}', "chromium", "--headless=new", "--no-sandbox",
                   "--remote-debugging-pipe", "--disable-gpu", "--disable-dev-shm-usage", "--disable-extensions", "--hide-scrollbars",
                   "--disable-background-networking", "--no-first-run", f"--user-data-dir={self.folder.name}", "about:blank"]
        self.child = subprocess.Popen(command, pass_fds=(to_read, to_write), stdin=subprocess.DEVNULL, stdout=subprocess.DEVNULL,
                                      stderr=subprocess.DEVNULL, env={**os.environ, "HOME": self.folder.name}, start_new_session=True)
        os.close(to_read)
        os.close(to_write)
        self.number, self.session, self.buffer, self.events = 0, None, b"", []
        target = self.ask("Target.createTarget", url="about:blank")["targetId"]
        self.session = self.ask("Target.attachToTarget", targetId=target, flatten=True)["sessionId"]
        for domain in ("Page", "Runtime", "Network", "Log"):
            self.ask(f"{domain}.enable")

    # Sends a command. Returns its result; events that come before it are kept.
    def ask(self, method, **parameters):
        self.number += 1
        words = {"id": self.number, "method": method, "params": parameters}
        if self.session:
            words["sessionId"] = self.session
        os.write(self.to_browser, json.dumps(words).encode() + b"\0")
        until = time.monotonic() + SECONDS
        while True:
            told = self.take(until)
            if told is None:
                raise Failed(f"the browser does not answer {method}")
            if told.get("id") == self.number:
                if "error" in told:
                    raise Failed(f"{method}: {told['error']}")
                return told["result"]
            self.events.append(told)

    # Takes the next message, or None if none comes until then.
    def take(self, until):
        while b"\0" not in self.buffer:
            left = until - time.monotonic()
            if left <= 0 or not select.select([self.from_browser], [], [], left)[0]:
                return None
            data = os.read(self.from_browser, 1 << 20)
            if not data:
                raise Failed("the browser has ended")
            self.buffer += data
        message, self.buffer = self.buffer.split(b"\0", 1)
        return json.loads(message)

    # Takes the events of a name, and drops them.
    def events_of(self, method):
        found = [it["params"] for it in self.events if it.get("method") == method]
        self.events = [it for it in self.events if it.get("method") != method]
        return found

    # Lets the page go on for so long.
    def rest(self, seconds):
        until = time.monotonic() + seconds
        while (told := self.take(until)) is not None:
            self.events.append(told)

    # Loads a page, and waits until it is there. What the one before did is dropped.
    def load(self, address):
        self.go("about:blank")
        self.events = []
        self.go(address)

    def go(self, address):
        said = self.ask("Page.navigate", url=address)
        if "errorText" in said:
            raise Failed(f"{address}: {said['errorText']}")
        until = time.monotonic() + SECONDS
        while not self.events_of("Page.loadEventFired"):
            told = self.take(until)
            if told is None:
                raise Failed(f"{address} is not loaded")
            self.events.append(told)

    # What an expression of JavaScript is in the page.
    def value_of(self, expression):
        done = self.ask("Runtime.evaluate", expression=expression, returnByValue=True)
        if "exceptionDetails" in done:
            raise Failed(f"{expression}: {done['exceptionDetails']}")
        return done["result"].get("value")

    # Shows the page so wide, in the light or in the dark.
    def look(self, width, height, scheme):
        self.ask("Emulation.setDeviceMetricsOverride", width=width, height=height, deviceScaleFactor=1, mobile=width < 600)
        self.ask("Emulation.setEmulatedMedia", features=[{"name": "prefers-color-scheme", "value": scheme}])

    # Writes a picture of the whole page.
    def picture(self, path):
        size = self.ask("Page.getLayoutMetrics")["cssContentSize"]
        clip = {"x": 0, "y": 0, "width": size["width"], "height": size["height"], "scale": 1}
        data = self.ask("Page.captureScreenshot", format="png", captureBeyondViewport=True, clip=clip)["data"]
        with open(path, "wb") as file:
            file.write(base64.b64decode(data))

    # Ends the browser with all its processes, and removes what it kept.
    def end(self):
        self.session = None
        try:
            self.ask("Browser.close")
            self.child.wait(SECONDS)
        except (Failed, OSError, subprocess.TimeoutExpired):
            pass
        try:
            os.killpg(self.child.pid, signal.SIGKILL)
        except ProcessLookupError:
            pass
        self.child.wait()
        os.close(self.to_browser)
        os.close(self.from_browser)
        self.folder.cleanup()
