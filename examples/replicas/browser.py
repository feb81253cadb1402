"""A headless Chromium, driven over a pipe by its DevTools protocol: what a person does with the
keyboard, and what the page then has.

It reaches loopback alone, keeps its files in a folder of its own, and ends with the context.
"""
import base64
import contextlib
import itertools
import json
import os
import shutil
import subprocess
import tempfile
import threading
import time

NAMES = ("chromium", "chromium-browser", "google-chrome")
WORDS = (
    "--headless=new",
    "--remote-debugging-pipe",
    "--disable-gpu",
    "--disable-background-networking",
    "--no-first-run",
    "--host-resolver-rules=MAP * ~NOTFOUND , EXCLUDE 127.0.0.1",
)
# A key's name and number in the protocol, and the text that it types.
KEYS = {
    "Tab": ("Tab", 9, None),
    "Enter": ("Enter", 13, "\r"),
    "Down": ("ArrowDown", 40, None),
    "Space": (" ", 32, " "),
}
# Seconds: what a change of the page may take, and how long the browser may run.
PATIENCE, LONGEST = 30, 600
# The second frame from now shows what has changed.
NEXT_FRAME = "new Promise((on) => requestAnimationFrame(() => requestAnimationFrame(on)))"


class Failed(Exception):
    """The browser refuses a call, ends, or does not come to what is waited for."""


def program():
    """The path of a Chromium, or None if there is none."""
    return next(filter(None, map(shutil.which, NAMES)), None)


class NotStarted(Exception):
    """The browser is there, and does not start."""


class Page:
    """A page of the browser. `said` has the errors and warnings of its console, and `asked` the
    addresses that it asked for."""

    def __init__(self, to_browser, from_browser):
        self.to_browser, self.from_browser = to_browser, from_browser
        self.numbers, self.session = itertools.count(1), None
        self.said, self.asked = [], []
        target = self.call("Target.createTarget", url="about:blank")["targetId"]
        attached = self.call("Target.attachToTarget", targetId=target, flatten=True)
        self.session = attached["sessionId"]
        for domain in ("Page", "Runtime", "Network", "Log", "Accessibility"):
            self.call(f"{domain}.enable")

    def call(self, method, **given):
        """Makes a call of the protocol, and returns its result."""
        number = next(self.numbers)
        message = {"id": number, "method": method, "params": given}
        if self.session:
            message["sessionId"] = self.session
        self.to_browser.write(json.dumps(message).encode() + b"\0")
        while True:
            answer = self.heard()
            if answer.get("id") == number:
                break
        if "error" in answer:
            raise Failed(f"{method}: {answer['error']['message']}")
        return answer["result"]

    def heard(self):
        """The next message; what an event tells is kept."""
        message = b"".join(iter(lambda: self.from_browser.read(1), b"\0"))
        if not message:
            raise Failed("the browser has ended")
        told = json.loads(message)
        given = told.get("params", {})
        if told.get("method") == "Network.requestWillBeSent":
            self.asked.append(given["request"]["url"])
        elif told.get("method") == "Runtime.exceptionThrown":
            self.said.append(given["exceptionDetails"]["exception"].get("description", ""))
        elif told.get("method") == "Log.entryAdded" and given["entry"]["level"] != "verbose":
            self.said.append(given["entry"]["text"])
        return told

    def value(self, expression):
        """The value of an expression in the page, as JSON has it."""
        told = self.call("Runtime.evaluate", expression=expression, returnByValue=True)
        if "exceptionDetails" in told:
            raise Failed(told["exceptionDetails"]["exception"]["description"])
        return told["result"].get("value")

    def wait(self, expression):
        """Waits until an expression holds in the page."""
        end = time.monotonic() + PATIENCE
        while not self.value(expression):
            if time.monotonic() > end:
                raise Failed(f"it does not come to {expression}")
            time.sleep(0.02)

    def press(self, *names):
        """Presses and releases keys, one after the other: those of KEYS, and digits."""
        for name in names:
            key, number, text = KEYS.get(name) or (name, ord(name), name)
            given = {"key": key, "windowsVirtualKeyCode": number}
            pressed = {"text": text} if text else {}
            self.call("Input.dispatchKeyEvent", type="keyDown", **given, **pressed)
            self.call("Input.dispatchKeyEvent", type="keyUp", **given)

    def write(self, text):
        """Types a text into the field that has the focus, in place of what is selected there."""
        self.call("Input.insertText", text=text)

    def picture(self, path, scheme="light", width=1000):
        """Writes a picture of the whole page, in this scheme of colours."""
        feature = {"name": "prefers-color-scheme", "value": scheme}
        self.call("Emulation.setEmulatedMedia", features=[feature])
        size = {"width": width, "height": 800, "deviceScaleFactor": 1, "mobile": False}
        self.call("Emulation.setDeviceMetricsOverride", **size)
        self.call("Runtime.evaluate", expression=NEXT_FRAME, awaitPromise=True)
        shot = self.call("Page.captureScreenshot", captureBeyondViewport=True)
        with open(path, "wb") as file:
            file.write(base64.b64decode(shot["data"]))
        self.call("Emulation.clearDeviceMetricsOverride")
        self.call("Emulation.setEmulatedMedia", features=[])


def started(folder, read, write):
    """The process of a browser that reads and writes the protocol at these descriptors."""
    # Chromium's sandbox does not start for root.
    as_root = ["--no-sandbox"] if os.geteuid() == 0 else []
    words = [program(), *WORDS, *as_root, f"--user-data-dir={folder}"]
    piped = f'exec "$@" 3<&{read} 4>&{write}'
    return subprocess.Popen(
        ["sh", "-c", piped, "sh", *words], pass_fds=(read, write), stderr=subprocess.DEVNULL
    )


@contextlib.contextmanager
def running(folder):
    """The two ends of the protocol of a browser, which ends with the context, or at last after
    LONGEST."""
    (read, to_browser), (from_browser, write) = os.pipe(), os.pipe()
    ran = started(folder, read, write)
    os.close(read)
    os.close(write)
    clock = threading.Timer(LONGEST, ran.kill)
    clock.start()
    with os.fdopen(to_browser, "wb", 0) as given, os.fdopen(from_browser, "rb") as told:
        try:
            yield given, told
        finally:
            clock.cancel()
            ran.terminate()
            ran.wait()


@contextlib.contextmanager
def opened():
    """A page of a browser that is started, and ended with the context."""
    with tempfile.TemporaryDirectory(ignore_cleanup_errors=True) as folder:
        with running(folder) as ends:
            try:
                page = Page(*ends)
            except (Failed, BrokenPipeError):
                raise NotStarted from None
            yield page
