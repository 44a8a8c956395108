"""A browser that a test steers, by the WebDriver protocol over chromedriver."""
import base64
import contextlib
import json
import os
import pathlib
import signal
import subprocess
import sys
import time
import urllib.error
import urllib.request

from connecting import connected, free_port

# A name of this machine that a browser trusts less than the loopback: a page from there has neither locks nor a maker of uuids.
STRANGER = "boards.test"
WORDS = [f"--host-resolver-rules=MAP {STRANGER} 127.0.0.1", "--headless=new", "--no-sandbox", "--disable-gpu", "--disable-dev-shm-usage", "--no-first-run", "--disable-renderer-backgrounding"]
ELEMENT = "element-6066-11e4-a52e-4f735466cecf"


class Gone(Exception):
    """An element that was found isn't in the page any more, or a question that was to be answered isn't asked."""


def is_running(process):
    """Whether a process does anything still."""
    with contextlib.suppress(OSError):
        return pathlib.Path(f"/proc/{process}/stat").read_text().rpartition(")")[2].split()[0] != "Z"
    return False


class Steered:
    """What steers a page by `run`, and waits for `patience` seconds for what shall come."""

    def wait(self, script, *arguments):
        """The first value of a piece of JavaScript that counts as true; without one in time the test ends."""
        end = time.monotonic() + self.patience
        while time.monotonic() < end:
            value = self.run(script, *arguments)
            if value:
                return value
            time.sleep(0.03)
        at, shown = self.run("return [`${location.href}, ${document.readyState}`, document.body.innerText]")
        sys.exit(f"the page didn't come to: {script} {arguments}; it is at {at}, and shows: {shown[:1500]}\nits console: {self.messages()[-10:]}")

    def messages(self):
        """What the page's console told since this was asked last, where the browser tells it."""
        return []


class Browser(Steered):
    """One browser, whose tabs share what it keeps on the device. `patience` is how long it waits for what shall come, in seconds. What it keeps
    is in the folder `profile`, where one is given: so another one goes on with it."""

    def __init__(self, program, patience, profile=None):
        port = free_port()
        self.patience, self.base, self.measures, self.profile = patience, f"http://127.0.0.1:{port}", (1280, 900), profile
        self.driver = subprocess.Popen(["chromedriver", f"--port={port}"], stdout=subprocess.DEVNULL, stderr=subprocess.DEVNULL)
        connected(port, 10).close()
        chrome = {"binary": program, "args": WORDS + ([f"--user-data-dir={pathlib.Path(profile).resolve()}"] if profile else [])}
        wanted = {"goog:chromeOptions": chrome, "goog:loggingPrefs": {"browser": "ALL"}, "unhandledPromptBehavior": "ignore", "timeouts": {"script": int(1000 * max(30, 5 * patience))}}
        opened = self.call("POST", "/session", {"capabilities": {"alwaysMatch": wanted}})
        self.base += f"/session/{opened['sessionId']}"

    def __enter__(self):
        return self

    def __exit__(self, fault, *_):
        if self.driver.poll() is not None:
            return
        if self.profile and not fault:
            self.close()
        else:
            self.call("DELETE", "")
            self.end_driver()

    def end_driver(self):
        self.driver.terminate()
        self.driver.wait()

    def process(self):
        """The browser's process, which it notes in its profile."""
        return int(os.readlink(pathlib.Path(self.profile, "SingletonLock")).rpartition("-")[2])

    def close(self):
        """Ends the browser as people do, and lets it write all that it keeps: the driver's own end kills one that takes its time."""
        process = self.process()
        end = time.monotonic() + 5 * self.patience
        with contextlib.suppress(SystemExit, OSError):
            self.tell("Browser.close")
        while is_running(process) and time.monotonic() < end:
            time.sleep(0.05)
        self.end_driver()

    def kill(self):
        """Ends the browser as a machine that stops does."""
        os.kill(self.process(), signal.SIGKILL)
        self.end_driver()

    def call(self, method, path, content=None):
        body = json.dumps(content or {}).encode() if method == "POST" else None
        request = urllib.request.Request(self.base + path, body, {"content-type": "application/json"}, method=method)
        try:
            with urllib.request.urlopen(request, timeout=max(60, 5 * self.patience)) as answer:
                return json.load(answer)["value"]
        except urllib.error.HTTPError as fault:
            told = fault.read().decode()
            if '"stale element reference"' in told or '"no such alert"' in told:
                raise Gone from fault
            sys.exit(f"{method} {path} {content}: {told[:500]}")

    def run(self, script, *arguments):
        """What a piece of JavaScript returns."""
        return self.call("POST", "/execute/sync", {"script": script, "args": arguments})

    def open(self, address):
        self.call("POST", "/url", {"url": address})

    def element(self, selector):
        return self.call("POST", "/element", {"using": "css selector", "value": selector})[ELEMENT]

    def act(self, selector, action, content=None):
        """Acts on an element, and on the one that stands in its place where the page has just drawn it anew."""
        for _ in range(20):
            with contextlib.suppress(Gone):
                return self.call("POST", f"/element/{self.element(selector)}/{action}", content)
        sys.exit(f"{selector} is drawn anew again and again")

    def click(self, selector):
        self.act(selector, "click")

    def type(self, selector, text):
        self.act(selector, "value", {"text": text})

    def press(self, *keys):
        """Presses keys one after the other, wherever the focus is."""
        strokes = [{"type": kind, "value": key} for key in keys for kind in ("keyDown", "keyUp")]
        self.call("POST", "/actions", {"actions": [{"type": "key", "id": "keys", "actions": strokes}]})

    def tabs(self):
        return self.call("GET", "/window/handles")

    def new_tab(self):
        """A tab as large as the window was made last; a row that isn't in sight isn't in the page."""
        self.to_tab(self.call("POST", "/window/new", {"type": "tab"})["handle"])
        self.size(*self.measures)

    def to_tab(self, handle):
        self.call("POST", "/window", {"handle": handle})

    def answer_question(self, accepts=True):
        """Says yes or no to what the page asks, once it does; what that was."""
        end = time.monotonic() + self.patience
        told = None
        while told is None and time.monotonic() < end:
            with contextlib.suppress(Gone):
                told = self.call("GET", "/alert/text")
            time.sleep(0.03)
        self.call("POST", "/alert/accept" if accepts else "/alert/dismiss")
        return told

    def tell(self, command, **settings):
        return self.call("POST", "/goog/cdp/execute", {"cmd": command, "params": settings})

    def size(self, width, height):
        self.measures = (width, height)
        self.tell("Emulation.setDeviceMetricsOverride", width=width, height=height, deviceScaleFactor=1, mobile=False)

    def shot(self, file):
        with open(file, "wb") as picture:
            picture.write(base64.b64decode(self.call("GET", "/screenshot")))

    def messages(self):
        """What the page's console told since this was asked last."""
        return [entry["message"] for entry in self.call("POST", "/se/log", {"type": "browser"})]
