"""Drives a headless Chromium by its DevTools protocol, over a pair of pipes."""

import base64
import json
import os
import select
import subprocess
import tempfile
import time

FLAGS = ("--headless=new", "--remote-debugging-pipe", "--no-sandbox", "--disable-gpu", "--disable-dev-shm-usage", "--no-first-run",
         "--disable-extensions", "--disable-background-networking", "--hide-scrollbars", "--force-color-profile=srgb",
         "about:blank")


class Failed(Exception):
    """The page isn't as it should be."""


class Browser:
    """A Chromium with one page."""

    def __init__(self, program, seconds=30):
        self.seconds, self.number, self.events, self.waiting = seconds, 0, [], b""
        self.folder = tempfile.TemporaryDirectory(ignore_cleanup_errors=True)
        to_read, self.to = os.pipe()
        self.source, to_write = os.pipe()
        words = " ".join([f"exec {program}", f"--user-data-dir={self.folder.name}", *FLAGS, f"3<&{to_read}", f"4>&{to_write}"])
        self.process = subprocess.Popen(["sh", "-c", words], pass_fds=(to_read, to_write), stdout=subprocess.DEVNULL,
                                        stderr=subprocess.DEVNULL)
        os.close(to_read)
        os.close(to_write)
        self.session = None
        target = self.call("Target.createTarget", url="about:blank")["targetId"]
        self.session = self.call("Target.attachToTarget", targetId=target, flatten=True)["sessionId"]
        for domain in ("Page", "Runtime", "Log"):
            self.call(f"{domain}.enable")

    def close(self):
        self.process.terminate()
        self.process.wait(self.seconds)
        self.folder.cleanup()

    def call(self, method, **given):
        """What a method of the protocol answers."""
        self.number += 1
        message = {"id": self.number, "method": method, "params": given}
        if self.session:
            message["sessionId"] = self.session
        try:
            os.write(self.to, json.dumps(message).encode() + b"\0")
        except BrokenPipeError:
            raise Failed("the browser ended, or there is none") from None
        end = time.monotonic() + self.seconds
        while True:
            said = self.next_message(end)
            if said.get("id") == self.number:
                if "error" in said:
                    raise Failed(f"{method}: {said['error']['message']}")
                return said["result"]
            self.events.append(said)

    def next_message(self, end):
        while b"\0" not in self.waiting:
            if not select.select([self.source], [], [], max(0, end - time.monotonic()))[0]:
                raise Failed("the browser doesn't answer")
            piece = os.read(self.source, 1 << 20)
            if not piece:
                raise Failed("the browser ended")
            self.waiting += piece
        message, _, self.waiting = self.waiting.partition(b"\0")
        return json.loads(message)

    def value(self, expression):
        """What an expression of JavaScript is in the page."""
        said = self.call("Runtime.evaluate", expression=expression, returnByValue=True, awaitPromise=True)
        if "exceptionDetails" in said:
            raise Failed(f"{expression}: {said['exceptionDetails'].get('exception', {}).get('description')}")
        return said["result"].get("value")

    def wait(self, expression, what=None):
        """Waits until an expression is true."""
        end = time.monotonic() + self.seconds
        while not self.value(f"!!({expression})"):
            if time.monotonic() > end:
                raise Failed(f"waited for {what or expression}")
            time.sleep(0.05)

    def open(self, url):
        self.call("Page.navigate", url=url)
        self.wait("document.readyState === 'complete'")

    def type(self, text):
        """Types where the focus is, character by character."""
        for char in text:
            self.call("Input.insertText", text=char)

    def key(self, name, code=0, text=""):
        given = {"key": name, "code": name, "windowsVirtualKeyCode": code}
        self.call("Input.dispatchKeyEvent", type="keyDown" if text else "rawKeyDown", text=text, **given)
        self.call("Input.dispatchKeyEvent", type="keyUp", **given)

    def point(self, selector):
        """Moves the pointer to the middle of an element."""
        x, y = self.value(f"""(() => {{ const one = document.querySelector({json.dumps(selector)});
            one.scrollIntoView({{ block: "center", inline: "center" }});
            const box = one.getBoundingClientRect(); return [box.x + box.width / 2, box.y + box.height / 2]; }})()""")
        self.call("Input.dispatchMouseEvent", type="mouseMoved", x=x, y=y)
        return x, y

    def click(self, selector):
        x, y = self.point(selector)
        for kind in ("mousePressed", "mouseReleased"):
            self.call("Input.dispatchMouseEvent", type=kind, x=x, y=y, button="left", clickCount=1)

    def size(self, width, height, dark=False):
        """Sets how large the page is, and whether the system is dark."""
        self.call("Emulation.setDeviceMetricsOverride", width=width, height=height, deviceScaleFactor=1, mobile=False)
        self.call("Emulation.setEmulatedMedia", features=[{"name": "prefers-color-scheme", "value": "dark" if dark else "light"}])

    def picture(self, path):
        """Writes what the page looks like as a PNG."""
        with open(path, "wb") as file:
            file.write(base64.b64decode(self.call("Page.captureScreenshot", format="png")["data"]))

    def complaints(self):
        """What the page said on its console, and exceptions."""
        self.value("1")
        found = [said["params"] for said in self.events
                 if said.get("method") in ("Runtime.exceptionThrown", "Log.entryAdded", "Runtime.consoleAPICalled")]
        return [json.dumps(one)[:300] for one in found]
