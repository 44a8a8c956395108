"""What scenes of the page share: a server that may be killed, a line to it that may break, and a browser in front of both.

The words of the program that plays them: BROWSER PROGRAM PORT SLACK PAGE. SLACK is how many times longer than on a machine without other work
things may take. With SHOTS pictures of each view are left in that folder."""
import json
import os
import pathlib
import subprocess
import sys
import time
import urllib.error
import urllib.request
import uuid

from relay import Relay
from talking import Server

BROWSER, PROGRAM, PORT, SLACK, PAGE = sys.argv[1], sys.argv[2], int(sys.argv[3]), float(sys.argv[4]), sys.argv[5]
SHOTS = os.environ.get("SHOTS")
KEYS = {"ann": "ann-key-1", "bob": "bob-key-01"}
ENTER, ESCAPE, TAB, UP, DOWN, BACKSPACE = "\ue007", "\ue00c", "\ue004", "\ue013", "\ue015", "\ue003"
# (where nothing waits something may still need its person)
ALL_ANSWERED = "return /^(All saved|[0-9,]+ things? needs? you)$/.test(document.getElementById('state').textContent)"
LISTED = "return [...document.querySelectorAll('#list .open')].map((row) => row.textContent)"
IS_LISTED = "return [...document.querySelectorAll('#list .open')].some((row) => row.textContent === arguments[0])"
IS_TOLD = "return document.body.innerText.includes(arguments[0])"
# Who is signed in, or that nobody is, once the page shows one of them.
SHOWN = "return document.getElementById('sign-in-form')?.offsetParent ? 'sign in' : document.getElementById('who')?.textContent"
# What a page has loaded of its own files: each with its status, its length and whether the worker gave it.
LOADED = """return JSON.stringify([document.readyState, navigator.serviceWorker?.controller?.state,
    ...performance.getEntriesByType('resource').map((one) => [one.name, one.responseStatus, one.decodedBodySize, one.workerStart > 0])])"""
LOOK = "window.dispatchEvent(new Event('focus')); return true"


def expect(what, wanted, got):
    if wanted != got:
        sys.exit(f"{what}: expected {wanted!r}, but got {got!r}")


def ask(path, body=None, who="ann"):
    """An answer to a message that doesn't come from the page."""
    fields = {"x-member": who, "x-key": KEYS[who], "x-request-id": str(uuid.uuid4())}
    request = urllib.request.Request(f"http://127.0.0.1:{PORT}{path}", body, fields)
    with urllib.request.urlopen(request, timeout=20 * max(1, SLACK)) as answer:
        return answer.read().decode()


def tell(path, who="ann", **content):
    """The answer to a call that doesn't come from the page, read."""
    return json.loads(ask(path, json.dumps(content).encode(), who))


def tasks(board):
    return json.loads(ask(f"/boards/{board}/export"))


def descriptions(board):
    return [task["description"] for task in tasks(board)]


def add(board, **task):
    return tell(f"/boards/{board}/tasks", **task)["uuid"]


def new_board(title, **roles):
    """A board of ann's, with the roles of others on it. Its number."""
    board = tell("/boards", title=title)["board"]
    for name, role in roles.items():
        know(name)
        tell(f"/boards/{board}/roles", member=name, role=role)
    return board


def know(name):
    """Has the server know a person of KEYS."""
    try:
        tell("/people", name=name, key=KEYS[name])
    except urllib.error.HTTPError as refused:
        expect("the server knows a person", "NameTaken", json.load(refused)["name"])


class Office:
    """A server that may be killed, a line to it that may break, and a browser."""

    def __init__(self, browser):
        self.browser, self.relay, self.server, self.page, self.figures = browser, Relay(PORT), None, PAGE, []
        self.address = f"http://127.0.0.1:{self.relay.port}/"
        self.start()

    def start(self):
        self.server = Server(PROGRAM, PORT, words=("--page", self.page, "--forever"), errors=subprocess.DEVNULL)

    def restart(self):
        self.server.end()
        self.start()

    def sign_in(self, name, key=None):
        self.browser.open(self.address)
        self.browser.wait("return document.getElementById('sign-in-form')?.offsetParent")
        self.browser.type("#name", name)
        self.browser.type("#key", (key or KEYS[name]) + ENTER)

    def enter(self, name):
        self.sign_in(name)
        self.browser.wait("return document.getElementById('count')?.textContent")

    def begin(self, board, name="ann"):
        """Loads the page anew at a board, and signs in where that has to be."""
        self.browser.open("about:blank")
        self.browser.open(f"{self.address}#/{board}/tasks")
        if self.first_shown() != name:
            self.browser.run("[sessionStorage, localStorage].forEach((place) => place.removeItem('taskboard.session'))")
            self.enter(name)
        self.go(board)

    def first_shown(self):
        """Who is signed in, or that nobody is. Of a page that shows neither for long is told what it has loaded."""
        end = time.monotonic() + self.browser.patience / 2
        while time.monotonic() < end:
            if shown := self.browser.run(SHOWN):
                return shown
            time.sleep(0.03)
        print(f"A PAGE SHOWS NOTHING: {self.browser.run(LOADED)}", flush=True)
        return self.browser.wait(SHOWN)

    def go(self, board, view="tasks", task=""):
        self.browser.run("location.hash = arguments[0]", f"/{board}/{view}" + (f"/{task}" if task else ""))
        self.browser.wait(f"return !document.getElementById('{view}-view').hidden")
        if view == "tasks":
            self.browser.wait("return document.getElementById('count')?.textContent")

    def shot(self, name):
        """Pictures of what is shown, wide and narrow; the layout fits in each, and at 320 too."""
        for width, height in ((1280, 900), (390, 844), (320, 640)):
            self.browser.size(width, height)
            time.sleep(0.15)
            wide = self.browser.run("return document.documentElement.scrollWidth")
            if wide > width:
                sys.exit(f"{name}: {wide} wide, in a window of {width}")
            if SHOTS:
                self.browser.shot(pathlib.Path(SHOTS) / f"{name}-{width}.png")
        self.browser.size(1280, 900)
