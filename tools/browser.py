"""Headless Chromium, which is spoken to through two pipes (the Chrome DevTools Protocol, by the option
`--remote-debugging-pipe`): a page, its console, its mouse, and what a script says of it."""
import base64
import json
import os
import select
import shutil
import subprocess
import time

NAME = "chromium"
SECONDS = 120
# What a script writes to the console where something is wrong.
ERRORS = ("error", "assert")


def is_there():
    return shutil.which(NAME) is not None


class Failed(Exception):
    """A call that the browser refuses, or an answer that does not come."""


class Browser:
    """A browser with a profile of its own below a folder, and one page."""

    def __init__(self, room):
        read, self.out = os.pipe()
        self.into, write = os.pipe()
        # It reads its descriptor 3 and writes to 4.
        words = ["sh", "-c", f'exec "$@" 3<&{read} 4>&{write}', "sh", NAME, "--headless",
                 "--no-sandbox", "--disable-gpu", "--disable-dev-shm-usage", "--no-first-run",
                 "--remote-debugging-pipe", f"--user-data-dir={room}/profile",
                 "--window-size=1000,900"]
        quiet = {"stdin": subprocess.DEVNULL, "stdout": subprocess.DEVNULL,
                 "stderr": subprocess.DEVNULL}
        self.process = subprocess.Popen(words, pass_fds=(read, write), **quiet)
        os.close(read)
        os.close(write)
        self.calls, self.rest, self.session = 0, b"", None
        # What the console of the page said since it was opened, and which events came.
        self.console, self.events = [], []
        page = self.call("Target.createTarget", url="about:blank")["targetId"]
        self.session = self.call("Target.attachToTarget", targetId=page, flatten=True)["sessionId"]
        for domain in ("Page", "Runtime", "Log"):
            self.call(f"{domain}.enable")

    def __enter__(self):
        return self

    def __exit__(self, *_):
        os.close(self.out)
        try:
            self.process.wait(10)
        except subprocess.TimeoutExpired:
            self.process.kill()
            self.process.wait()
        os.close(self.into)

    def message(self, until):
        """The next message of the browser."""
        while b"\0" not in self.rest:
            ready, _, _ = select.select([self.into], [], [], max(0, until - time.monotonic()))
            more = os.read(self.into, 1 << 20) if ready else b""
            if not more:
                raise Failed("the browser gives no answer")
            self.rest += more
        text, self.rest = self.rest.split(b"\0", 1)
        return json.loads(text)

    def note(self, event):
        """Keeps what an event says of the console."""
        name, what = event["method"], event["params"]
        self.events.append(name)
        if name == "Runtime.exceptionThrown":
            self.console.append(what["exceptionDetails"].get("exception", {}).get("description")
                                or what["exceptionDetails"]["text"])
        elif name == "Runtime.consoleAPICalled" and what["type"] in ERRORS:
            self.console.append(f"{what['type']}: {what['args']}")
        elif name == "Log.entryAdded" and what["entry"]["level"] == "error":
            self.console.append(what["entry"]["text"])

    def call(self, method, **params):
        """What the browser answers to a call."""
        self.calls += 1
        asked = {"id": self.calls, "method": method, "params": params}
        if self.session:
            asked["sessionId"] = self.session
        os.write(self.out, json.dumps(asked).encode() + b"\0")
        until = time.monotonic() + SECONDS
        while True:
            came = self.message(until)
            if came.get("id") == self.calls:
                if "error" in came:
                    raise Failed(f"{method}: {came['error']}")
                return came["result"]
            if "method" in came:
                self.note(came)

    def open(self, url):
        """Opens a page, and waits until it is loaded."""
        self.console.clear()
        self.events.clear()
        self.call("Page.navigate", url=url)
        until = time.monotonic() + SECONDS
        while "Page.loadEventFired" not in self.events:
            came = self.message(until)
            if "method" in came:
                self.note(came)

    def ask(self, script):
        """The value of an expression in the page, or of its promise."""
        came = self.call("Runtime.evaluate", expression=script, returnByValue=True,
                         awaitPromise=True)
        if "exceptionDetails" in came:
            raise Failed(f"{script}: {came['exceptionDetails']['text']}")
        return came["result"].get("value")

    def mouse(self, kind, x, y, **more):
        self.call("Input.dispatchMouseEvent", type=kind, x=x, y=y, **more)

    def drag(self, start, end):
        """Moves the mouse from one place to another with its button pressed."""
        held = {"button": "left", "buttons": 1}
        self.mouse("mouseMoved", *start)
        self.mouse("mousePressed", *start, clickCount=1, **held)
        self.mouse("mouseMoved", *((a + b) / 2 for a, b in zip(start, end)), **held)
        self.mouse("mouseMoved", *end, **held)
        self.mouse("mouseReleased", *end, clickCount=1, button="left", buttons=0)

    def screenshot(self, file):
        """Writes what is seen of the page as a PNG image."""
        file.write_bytes(base64.b64decode(self.call("Page.captureScreenshot")["data"]))
