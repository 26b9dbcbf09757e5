"""Drives headless Chromium over two pipes, in its protocol for tools: lines of JSON that end with a zero byte."""

import base64
import json
import os
import select
import shutil
import subprocess
import tempfile
import time

PATIENCE = 180  # seconds that an answer may take


def found():
    """Returns the browser, or None."""
    return shutil.which(os.environ.get("CHROMIUM", "chromium"))


class Browser:
    """A browser with one page."""

    def __init__(self):
        self.folder = tempfile.TemporaryDirectory()
        ours, theirs = os.pipe(), os.pipe()
        words = [found(), "--headless", "--no-sandbox", "--disable-gpu", "--hide-scrollbars", "--remote-debugging-pipe",
                 "--no-first-run", f"--user-data-dir={self.folder.name}", "about:blank"]
        self.process = self.start(words, ours[0], theirs[1])
        os.close(ours[0])
        os.close(theirs[1])
        self.out, self.into, self.kept, self.number, self.events, self.session = ours[1], theirs[0], b"", 0, [], None
        target = self.ask("Target.createTarget", url="about:blank")["targetId"]
        self.session = self.ask("Target.attachToTarget", targetId=target, flatten=True)["sessionId"]
        for it in ("Page", "Runtime", "Log", "Network"):
            self.ask(f"{it}.enable")

    @staticmethod
    def start(words, read, write):
        """Starts it with its two pipes as files 3 and 4, whatever numbers they have here."""
        shell = f"exec \"$@\" 3<&{read} 4>&{write}"
        return subprocess.Popen(["sh", "-c", shell, "sh", *words], pass_fds=(read, write), stdout=subprocess.DEVNULL,
                                stderr=subprocess.DEVNULL)

    def __enter__(self):
        return self

    def __exit__(self, *_):
        self.process.terminate()
        self.process.wait()
        os.close(self.out)
        os.close(self.into)
        self.folder.cleanup()

    def read(self, until):
        """Returns the next message."""
        while b"\0" not in self.kept:
            if not select.select([self.into], [], [], max(until - time.monotonic(), 0))[0]:
                raise TimeoutError("the browser doesn't answer")
            self.kept += os.read(self.into, 1 << 20)
        text, _, self.kept = self.kept.partition(b"\0")
        return json.loads(text)

    def ask(self, method, **values):
        """Asks for something, and returns the answer."""
        self.number += 1
        message = {"id": self.number, "method": method, "params": values}
        if self.session:
            message["sessionId"] = self.session
        left = json.dumps(message).encode() + b"\0"
        while left:
            left = left[os.write(self.out, left):]
        until = time.monotonic() + PATIENCE
        while True:
            it = self.read(until)
            if it.get("id") == self.number:
                if "error" in it:
                    raise RuntimeError(f"{method}: {it['error']['message']}")
                return it["result"]
            self.events.append(it)

    def wait_for(self, method):
        """Waits for an event."""
        until = time.monotonic() + PATIENCE
        while not any(it.get("method") == method for it in self.events):
            self.events.append(self.read(until))

    def sized(self, width, height, dark=False, scale=1):
        """Gives the window a size, and a scheme of colours."""
        self.ask("Emulation.setDeviceMetricsOverride", width=width, height=height, deviceScaleFactor=scale, mobile=False)
        self.ask("Emulation.setEmulatedMedia",
                 features=[{"name": "prefers-color-scheme", "value": "dark" if dark else "light"}])

    def scripted(self, is_on):
        self.ask("Emulation.setScriptExecutionDisabled", value=not is_on)

    def go(self, address):
        self.events.clear()
        self.ask("Page.navigate", url=address)
        self.wait_for("Page.loadEventFired")

    def open(self, path, mark=""):
        """Opens a page. Returns how many seconds that took."""
        self.go("about:blank")  # else an address that differs by its mark alone isn't loaded again
        began = time.monotonic()
        self.go(f"file://{os.path.abspath(path)}{mark}")
        self.value("document.documentElement.offsetHeight")  # it is laid out
        return time.monotonic() - began

    def value(self, text):
        """Returns the value of an expression of JavaScript."""
        it = self.ask("Runtime.evaluate", expression=text, returnByValue=True)
        if "exceptionDetails" in it:
            raise RuntimeError(f"{text}: {it['exceptionDetails'].get('exception', {}).get('description')}")
        return it["result"].get("value")

    def press(self, key, times=1):
        """Presses a key."""
        for _ in range(times):
            text = {"text": key} if len(key) == 1 else {}
            self.ask("Input.dispatchKeyEvent", type="keyDown", key=key, **text)
            self.ask("Input.dispatchKeyEvent", type="keyUp", key=key)

    def complaints(self):
        """Returns what the console told since the page was opened, and what it fetched from elsewhere."""
        self.value("0")
        said = [it for it in self.events if it.get("method") in ("Runtime.consoleAPICalled", "Runtime.exceptionThrown",
                                                                 "Log.entryAdded")]
        asked = [it["params"]["request"]["url"] for it in self.events if it.get("method") == "Network.requestWillBeSent"]
        return [json.dumps(it["params"])[:300] for it in said] + [it for it in asked[1:] if it != "about:blank"]

    def picture(self, path, height=None, top=0):
        """Writes what the window shows, or so many pixels of the page, as a picture."""
        more = {}
        if height:
            width = self.value("innerWidth")
            more = {"captureBeyondViewport": True, "clip": {"x": 0, "y": top, "width": width, "height": height, "scale": 1}}
        with open(path, "wb") as out:
            out.write(base64.b64decode(self.ask("Page.captureScreenshot", format="png", **more)["data"]))

    def printed(self):
        """Returns the page as it is printed on A4."""
        it = self.ask("Page.printToPDF", paperWidth=8.27, paperHeight=11.69, printBackground=True, marginTop=.4,
                      marginBottom=.4, marginLeft=.4, marginRight=.4)
        return base64.b64decode(it["data"])
