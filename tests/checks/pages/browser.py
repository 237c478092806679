"""Debian's Chromium with no head, as a script drives it."""

import base64
import json
import os
import shutil
import subprocess

# seconds that it has to end, and that each part of its installation has
ENDING, INSTALLING = 60, 180


def path():
    """Where Chromium is, or None."""
    return shutil.which("chromium")


class Browser:
    """Chromium with no head, spoken to over a pipe: each message is JSON, and ends with a zero."""

    def __init__(self, folder):
        there, own = os.pipe()
        self.read, back = os.pipe()
        self.out = own
        words = [path(), "--headless=new", "--no-sandbox", "--disable-gpu", "--remote-debugging-pipe"]
        words += ["--no-first-run", f"--user-data-dir={folder}/profile", "--window-size=1350,900", "about:blank"]

        def hand_over():
            # the browser reads from 3 and writes to 4
            low, high = os.dup(there), os.dup(back)
            os.dup2(low, 3)
            os.dup2(high, 4)

        self.process = subprocess.Popen(
            words, stdin=subprocess.DEVNULL, stdout=subprocess.DEVNULL, stderr=subprocess.DEVNULL,
            preexec_fn=hand_over, close_fds=False,
        )
        os.close(there)
        os.close(back)
        self.number, self.rest, self.events, self.session = 0, b"", [], None
        target = self.ask("Target.createTarget", url="about:blank")["targetId"]
        self.session = self.ask("Target.attachToTarget", targetId=target, flatten=True)["sessionId"]
        for domain in ("Page", "Runtime", "Log"):
            self.ask(f"{domain}.enable")

    def message(self):
        """The next message."""
        while b"\0" not in self.rest:
            more = os.read(self.read, 1 << 20)
            if not more:
                raise EOFError("the browser has ended")
            self.rest += more
        text, _, self.rest = self.rest.partition(b"\0")
        return json.loads(text)

    def ask(self, method, **params):
        """Asks for something, and waits for the answer."""
        self.number += 1
        said = {"id": self.number, "method": method, "params": params}
        if self.session:
            said["sessionId"] = self.session
        text = json.dumps(said).encode() + b"\0"
        while text:
            text = text[os.write(self.out, text) :]
        while True:
            message = self.message()
            if message.get("id") == self.number:
                if "error" in message:
                    raise ValueError(f"{method}: {message['error']}")
                return message["result"]
            self.events.append(message)

    def wait_for(self, event):
        """Waits for an event of this name."""
        while not any(message.get("method") == event for message in self.events):
            self.events.append(self.message())

    def open(self, url):
        """Opens a page, and waits until it is loaded."""
        for there in ("about:blank", url):
            self.events = []
            self.ask("Page.navigate", url=there)
            self.wait_for("Page.loadEventFired")

    def value(self, expression):
        """What an expression comes to in the page."""
        told = self.ask("Runtime.evaluate", expression=expression, returnByValue=True, awaitPromise=True)
        if "exceptionDetails" in told:
            raise ValueError(f"{expression[:200]}: {told['exceptionDetails']}")
        return told["result"].get("value")

    def press(self, key, shift=False):
        """Presses a key."""
        for kind in ("rawKeyDown", "keyUp"):
            self.ask("Input.dispatchKeyEvent", type=kind, key=key, code=key, modifiers=8 if shift else 0)

    def type(self, found, text):
        """Types a text into a field, and Enter; the field keeps the keys."""
        self.value(f"{found}.select()")
        self.ask("Input.insertText", text=text)
        for kind, more in (("keyDown", {"text": "\r"}), ("keyUp", {})):
            self.ask("Input.dispatchKeyEvent", type=kind, key="Enter", code="Enter", windowsVirtualKeyCode=13, **more)

    def click(self, found):
        """Clicks in the middle of an element."""
        at = json.loads(self.value(
            f"(e => {{e.scrollIntoView({{block: 'center'}}); const b = e.getBoundingClientRect();"
            f" return JSON.stringify([b.x + b.width / 2, b.y + b.height / 2])}})({found})"
        ))
        for kind in ("mousePressed", "mouseReleased"):
            self.ask("Input.dispatchMouseEvent", type=kind, x=at[0], y=at[1], button="left", clickCount=1)

    def told(self):
        """What stands on the console since the page was opened."""
        names = ("Runtime.exceptionThrown", "Runtime.consoleAPICalled", "Log.entryAdded")
        return [str(message["params"])[:300] for message in self.events if message.get("method") in names]

    def sized(self, width, height=900, dark=False):
        """Makes the page so wide and high, light or dark, and waits until it is."""
        media = [{"name": "prefers-color-scheme", "value": "dark" if dark else "light"}]
        self.ask("Emulation.setEmulatedMedia", features=media)
        self.ask("Emulation.setDeviceMetricsOverride", width=width, height=height, deviceScaleFactor=1, mobile=False)
        self.value("new Promise(done => {requestAnimationFrame(() => setTimeout(done, 0)); setTimeout(done, 500)})")

    def kept(self):
        """How many bytes the script's objects and its arrays take, after a collection of garbage."""
        self.ask("HeapProfiler.enable")
        self.ask("HeapProfiler.collectGarbage")
        usage = self.ask("Runtime.getHeapUsage")
        return usage["usedSize"], usage.get("backingStorageSize", 0)

    def picture(self, path, width, height):
        """Leaves a picture of the page, so wide and high, light or dark by its name."""
        media = [{"name": "prefers-color-scheme", "value": "dark" if "dark" in path else "light"}]
        self.ask("Emulation.setEmulatedMedia", features=media)
        self.ask("Emulation.setDeviceMetricsOverride", width=width, height=height, deviceScaleFactor=1, mobile=False)
        self.value("show()")
        with open(path, "wb") as file:
            file.write(base64.b64decode(self.ask("Page.captureScreenshot", format="png")["data"]))
        self.ask("Emulation.clearDeviceMetricsOverride")
        self.ask("Emulation.setEmulatedMedia", features=[])

    def end(self):
        """Ends it."""
        self.session = None
        try:
            self.ask("Browser.close")
        except (EOFError, OSError):
            pass
        self.process.wait(timeout=ENDING)


def install():
    """Installs Chromium, if that can be done."""
    quick = ["-o", "DPkg::Lock::Timeout=20", "-o", "Acquire::Retries=0", "-o", "Acquire::http::Timeout=10"]
    for words in (["update"], ["install", "-y", "--no-install-recommends", "chromium"]):
        command = ["apt-get", "-q", *quick, *words]
        try:
            subprocess.run(command, stdin=subprocess.DEVNULL, capture_output=True, check=False, timeout=INSTALLING)
        except (OSError, subprocess.TimeoutExpired):
            return
