"""Chromium without a screen, driven by its own protocol of developer tools: pages, what they hold, keys, pictures.

It needs Debian's `chromium`, and nothing else but Python's standard library."""

import base64
import contextlib
import itertools
import json
import pathlib
import shutil
import socket
import subprocess
import tempfile
import threading
import time
import urllib.parse

import frames

WORDS = [
    "--headless=new", "--no-first-run", "--disable-gpu", "--remote-debugging-port=0",
    "--disable-background-timer-throttling", "--disable-backgrounding-occluded-windows",
    "--disable-renderer-backgrounding", "--no-sandbox", "--hide-scrollbars",
]


class Fault(Exception):
    """The browser refused a call, or a script of the page ended with a fault."""


class Browser:
    """A browser with a folder of its own, which is gone when it is closed."""

    def __init__(self, program=None):
        program = program or shutil.which("chromium") or shutil.which("chromium-browser") or shutil.which("google-chrome")
        if not program:
            raise Fault("no chromium: apt-get install chromium")
        self.folder = tempfile.TemporaryDirectory(ignore_cleanup_errors=True)
        words = [program, *WORDS, f"--user-data-dir={self.folder.name}", "about:blank"]
        self.process = subprocess.Popen(words, stdout=subprocess.DEVNULL, stderr=subprocess.DEVNULL)
        self.numbers, self.answers, self.changed, self.told = itertools.count(1), {}, threading.Condition(), []
        self.talk = self.joined()
        threading.Thread(target=self.read, daemon=True).start()

    def joined(self):
        """Its WebSocket, whose port and path it writes into a file."""
        file = pathlib.Path(self.folder.name) / "DevToolsActivePort"
        for _ in range(300):
            with contextlib.suppress(OSError, ValueError, frames.Closed):
                port, path = file.read_text().split("\n")[:2]
                return frames.joined(socket.create_connection(("127.0.0.1", int(port))), f"127.0.0.1:{port}", path)
            time.sleep(0.1)
        raise Fault("chromium does not start")

    def read(self):
        with contextlib.suppress(frames.Closed):
            while True:
                message = json.loads(self.talk.receive())
                with self.changed:
                    if "id" in message:
                        self.answers[message["id"]] = message
                    else:
                        self.told.append(message)
                    self.changed.notify_all()

    def call(self, method, words=None, session=None, seconds=60):
        number = next(self.numbers)
        message = {"id": number, "method": method, "params": words or {}} | ({"sessionId": session} if session else {})
        self.talk.send(json.dumps(message).encode())
        with self.changed:
            if not self.changed.wait_for(lambda: number in self.answers, seconds):
                raise Fault(f"{method}: no answer in {seconds} s")
            answer = self.answers.pop(number)
        if "error" in answer:
            raise Fault(f"{method}: {answer['error']}")
        return answer["result"]

    def page(self, address, width=1280, height=800, scale=1, is_dark=False):
        return Page(self, address, width, height, scale, is_dark)

    def close(self):
        with contextlib.suppress(Fault, frames.Closed):
            self.call("Browser.close", seconds=5)
        with contextlib.suppress(subprocess.TimeoutExpired):
            self.process.wait(10)
        self.process.kill()
        self.folder.cleanup()


class Page:
    """One page, in a window of its own."""

    def __init__(self, browser, address, width, height, scale, is_dark):
        self.browser = browser
        context = browser.call("Target.createBrowserContext")["browserContextId"]
        words = {"url": "about:blank", "browserContextId": context, "newWindow": True, "width": width, "height": height}
        self.target = browser.call("Target.createTarget", words)["targetId"]
        self.session = browser.call("Target.attachToTarget", {"targetId": self.target, "flatten": True})["sessionId"]
        for domain in ("Page", "Runtime", "Log"):
            self.call(f"{domain}.enable")
        self.call("Emulation.setFocusEmulationEnabled", {"enabled": True})
        self.size(width, height, scale)
        scheme = {"name": "prefers-color-scheme", "value": "dark" if is_dark else "light"}
        self.call("Emulation.setEmulatedMedia", {"features": [scheme]})
        self.go(address)

    def call(self, method, words=None, seconds=60):
        return self.browser.call(method, words, self.session, seconds)

    def size(self, width, height, scale=1):
        words = {"width": width, "height": height, "deviceScaleFactor": scale, "mobile": False}
        self.call("Emulation.setDeviceMetricsOverride", words)

    def go(self, address):
        self.call("Page.navigate", {"url": address})
        self.wait("document.readyState === 'complete' && Boolean(window.cutroom)", 120)

    def value(self, script, seconds=180):
        """What an expression of the page comes to; a promise is waited for."""
        words = {"expression": script, "awaitPromise": True, "returnByValue": True, "userGesture": True}
        answer = self.call("Runtime.evaluate", words, seconds)
        if "exceptionDetails" in answer:
            fault = answer["exceptionDetails"]
            raise Fault(fault.get("exception", {}).get("description") or fault["text"])
        return answer["result"].get("value")

    def wait(self, script, seconds=90):
        """Waits until an expression of the page is true, and answers how long that took."""
        began = time.monotonic()
        while not self.value(script):
            if time.monotonic() - began > seconds:
                raise Fault(f"not true in {seconds} s: {script}")
            time.sleep(0.01)
        return time.monotonic() - began

    def key(self, key, **words):
        text = {"text": key} if len(key) == 1 else {"text": "\r"} if key == "Enter" else {}
        self.call("Input.dispatchKeyEvent", {"type": "keyDown", "key": key, **text, **words})
        self.call("Input.dispatchKeyEvent", {"type": "keyUp", "key": key, **words})

    def mouse(self, kind, x, y, **words):
        self.call("Input.dispatchMouseEvent", {"type": kind, "x": x, "y": y, "button": "left", "clickCount": 1, **words})

    def picture(self, file):
        data = self.call("Page.captureScreenshot", {"format": "png"})["data"]
        pathlib.Path(file).write_bytes(base64.b64decode(data))

    def faults(self):
        """What the page's console and its policy have told."""
        with self.browser.changed:
            mine = [one for one in self.browser.told if one.get("sessionId") == self.session]
        thrown = [one["params"]["exceptionDetails"] for one in mine if one["method"] == "Runtime.exceptionThrown"]
        logged = [one["params"]["entry"] for one in mine if one["method"] == "Log.entryAdded"]
        return [(fault.get("exception") or {}).get("description", fault["text"]) for fault in thrown] + [
            f"{entry['text']} {urllib.parse.unquote(entry.get('url', ''))}" for entry in logged if entry["level"] == "error"
        ]

    def close(self):
        with contextlib.suppress(Fault, frames.Closed):
            self.browser.call("Target.closeTarget", {"targetId": self.target})
