"""Firefox, steered over its own protocol, Marionette: a message is its length, a colon and a JSON list."""
import contextlib
import json
import os
import pathlib
import signal
import subprocess
import sys

from connecting import connected, free_port
from webdriver import ELEMENT, Steered


class Firefox(Steered):
    """One Firefox without a window, whose profile is the folder given. `patience` is how long it waits for what shall come, in seconds."""

    def __init__(self, program, folder, patience):
        port = free_port()
        profile = pathlib.Path(folder).resolve()
        profile.mkdir()
        (profile / "user.js").write_text(f'user_pref("marionette.port", {port});\n')
        words = [program, "--headless", "--no-remote", "--marionette", "--profile", str(profile)]
        surroundings = {**os.environ, "HOME": str(profile), "MOZ_HEADLESS": "1"}
        self.patience, self.number = patience, 0
        self.process = subprocess.Popen(words, env=surroundings, stdin=subprocess.DEVNULL, stdout=subprocess.DEVNULL, stderr=subprocess.DEVNULL, start_new_session=True)
        self.connection = connected(port, 60)
        self.file = self.connection.makefile("rb")
        self.read()
        self.call("WebDriver:NewSession")

    def __enter__(self):
        return self

    def __exit__(self, *_):
        self.connection.close()
        for kind in (signal.SIGTERM, signal.SIGKILL):
            with contextlib.suppress(ProcessLookupError):
                os.killpg(self.process.pid, kind)
            with contextlib.suppress(subprocess.TimeoutExpired):
                self.process.wait(timeout=5)

    def read(self):
        length = b""
        while not length.endswith(b":"):
            byte = self.file.read(1)
            if not byte:
                sys.exit("Firefox has ended")
            length += byte
        return json.loads(self.file.read(int(length[:-1])))

    def call(self, command, **settings):
        self.number += 1
        sent = json.dumps([0, self.number, command, settings]).encode()
        self.connection.sendall(b"%d:%s" % (len(sent), sent))
        _, _, fault, result = self.read()
        if fault:
            sys.exit(f"{command} {settings}: {str(fault)[:500]}")
        return result

    def run(self, script, *arguments):
        """What a piece of JavaScript returns."""
        return self.call("WebDriver:ExecuteScript", script=script, args=arguments)["value"]

    def open(self, address):
        self.call("WebDriver:Navigate", url=address)

    def element(self, selector):
        return self.call("WebDriver:FindElement", using="css selector", value=selector)["value"][ELEMENT]

    def click(self, selector):
        self.call("WebDriver:ElementClick", id=self.element(selector))

    def type(self, selector, text):
        self.call("WebDriver:ElementSendKeys", id=self.element(selector), text=text)
