"""Drives a headless Chromium over its debugging pipe: pages opened, keys pressed, scripts asked, and all that the console told."""
import base64
import json
import os
import select
import shutil
import subprocess
import tempfile
import time

CHROMIUM = next((it for it in map(shutil.which, ("chromium", "chromium-browser", "google-chrome")) if it), None)
OPTIONS = [
    "--headless=new", "--no-sandbox", "--disable-gpu", "--disable-dev-shm-usage", "--no-first-run", "--disable-extensions",
    "--disable-background-networking", "--disable-renderer-backgrounding", "--disable-component-update", "--disable-sync",
    "--hide-scrollbars", "--force-color-profile=srgb",
]
CODES = {
    "Enter": 13, "Escape": 27, "Tab": 9, " ": 32, "ArrowLeft": 37, "ArrowUp": 38, "ArrowRight": 39, "ArrowDown": 40, "Home": 36, "End": 35,
}
SHIFT = 8
# An answer, or a state of the page, that has not come by then does not come.
LONGEST_SECONDS = 120


def turns():
    """Turns of a wait: a little while lies between them, and the last is late."""
    until = time.monotonic() + LONGEST_SECONDS
    while time.monotonic() < until:
        yield
        time.sleep(0.01)


class Browser:
    """A browser with one page. `told` has what its console told as warnings and errors, and what a script threw."""

    def __init__(self, width=1280, height=800):
        self.folder = tempfile.TemporaryDirectory(prefix="chromium-")
        to_read, to_write = os.pipe(), os.pipe()
        self.process = subprocess.Popen(
            ["sh", "-c", f'exec "$@" 3<&{to_read[0]} 4>&{to_write[1]}', "sh", CHROMIUM, *OPTIONS, "--remote-debugging-pipe",
             f"--user-data-dir={self.folder.name}", f"--window-size={width},{height}", "about:blank"],
            pass_fds=(to_read[0], to_write[1]), stdin=subprocess.DEVNULL, stdout=subprocess.DEVNULL, stderr=subprocess.DEVNULL,
        )
        os.close(to_read[0])
        os.close(to_write[1])
        self.out, self.into = to_read[1], to_write[0]
        self.number, self.rest, self.told, self.events = 0, b"", [], []
        target = self.first_page()
        self.session = self.call("Target.attachToTarget", {"targetId": target["targetId"], "flatten": True}, session=None)["sessionId"]
        for domain in ("Page", "Runtime", "Log", "Network"):
            self.call(f"{domain}.enable")
        self.sized(width, height)

    session = None

    def __enter__(self):
        return self

    def __exit__(self, *_):
        self.close()

    def close(self):
        """Ends the browser."""
        os.close(self.out)
        try:
            self.process.wait(LONGEST_SECONDS)
        except subprocess.TimeoutExpired:
            self.process.kill()
            self.process.wait()
        os.close(self.into)
        for _ in range(100):
            try:
                self.folder.cleanup()
                break
            except OSError:
                time.sleep(0.1)

    def first_page(self):
        """The page that the browser opens by itself; it may take its time."""
        for _ in turns():
            for it in self.call("Target.getTargets", session=None)["targetInfos"]:
                if it["type"] == "page":
                    return it
        raise TimeoutError("the browser opens no page")

    def message(self, until):
        """The next message of the browser."""
        while b"\0" not in self.rest:
            if not select.select([self.into], [], [], max(0.0, until - time.monotonic()))[0]:
                raise TimeoutError("the browser does not answer")
            part = os.read(self.into, 1 << 20)
            if not part:
                raise EOFError("the browser has ended")
            self.rest += part
        line, self.rest = self.rest.split(b"\0", 1)
        return json.loads(line)

    def take(self, message):
        """Keeps what an event tells."""
        method, told = message.get("method"), message.get("params", {})
        if method == "Runtime.exceptionThrown":
            details = told["exceptionDetails"]
            self.told.append(details.get("exception", {}).get("description") or details["text"])
        elif method == "Log.entryAdded" and told["entry"]["level"] in ("warning", "error"):
            self.told.append(told["entry"]["text"])
        elif method == "Runtime.consoleAPICalled" and told["type"] in ("warning", "error", "assert"):
            self.told.append(str(told["args"]))
        elif method in ("Page.loadEventFired", "Network.requestWillBeSent", "Page.javascriptDialogOpening"):
            self.events.append((method, told))

    def call(self, method, params=None, session=""):
        """What the browser answers to a call."""
        self.number += 1
        asked = {"id": self.number, "method": method, "params": params or {}}
        if session is not None:
            asked["sessionId"] = self.session
        data = json.dumps(asked).encode() + b"\0"
        while data:
            data = data[os.write(self.out, data):]
        until = time.monotonic() + LONGEST_SECONDS
        while True:
            message = self.message(until)
            if message.get("id") == self.number:
                if "error" in message:
                    raise RuntimeError(f"{method}: {message['error']}")
                return message["result"]
            self.take(message)

    def sized(self, width, height, scale=1):
        """Gives the page a size."""
        self.call("Emulation.setDeviceMetricsOverride", {"width": width, "height": height, "deviceScaleFactor": scale, "mobile": False})

    def scheme(self, name):
        """Light or dark, as a user sets the browser."""
        self.call("Emulation.setEmulatedMedia", {"features": [{"name": "prefers-color-scheme", "value": name}]})

    def open(self, path, part=""):
        """Opens a file, and gives the seconds until it had answered."""
        self.leave()
        begun = time.monotonic()
        self.call("Page.navigate", {"url": f"file://{os.path.realpath(path)}{part}"})
        self.stands("location.protocol + ' ' + document.readyState", "file: complete")
        return time.monotonic() - begun

    def leave(self):
        """Leaves the page for an empty one, and forgets what the console told of it."""
        self.call("Page.navigate", {"url": "about:blank"})
        self.stands("location.href + ' ' + document.readyState", "about:blank complete")
        self.told, self.events = [], []

    def stands(self, script, wanted):
        """Waits until a script in the page gives what is wanted. Where it never does, the error tells what it gave instead."""
        for _ in turns():
            found = self.ask(script)
            if found == wanted:
                return
        raise AssertionError(f"{wanted!r} never stood in {script}: {found!r}")

    def ask(self, script):
        """The value of a script in the page."""
        found = self.call("Runtime.evaluate", {"expression": script, "returnByValue": True, "awaitPromise": True})
        if "exceptionDetails" in found:
            raise RuntimeError(found["exceptionDetails"].get("exception", {}).get("description") or found["exceptionDetails"]["text"])
        return found["result"].get("value")

    def press(self, *names, shift=False):
        """Presses keys of the keyboard, one after the other."""
        for name in names:
            code = CODES.get(name) or ord(name.upper())
            told = {"key": name, "windowsVirtualKeyCode": code, "modifiers": SHIFT if shift else 0}
            if name not in CODES or name == " ":
                told["text"] = name
            elif name == "Enter":
                told["text"] = "\r"
            self.call("Input.dispatchKeyEvent", {"type": "keyDown", **told})
            self.call("Input.dispatchKeyEvent", {"type": "keyUp", "key": name, "windowsVirtualKeyCode": code})

    def type(self, text):
        """Types a text where the focus is."""
        self.call("Input.insertText", {"text": text})

    def texts(self, selector):
        """The texts of all elements that a selector names."""
        return self.ask(f"[...document.querySelectorAll({json.dumps(selector)})].map(it => it.textContent)")

    def count(self, selector):
        """How many elements a selector names."""
        return self.ask(f"document.querySelectorAll({json.dumps(selector)}).length")

    def screenshot(self, path):
        """Writes what is seen, as PNG."""
        with open(path, "wb") as file:
            file.write(base64.b64decode(self.call("Page.captureScreenshot", {"format": "png"})["data"]))
