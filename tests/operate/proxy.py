"""Serves a file behind nginx: python3 proxy.py PROGRAM PORT CONFIGURATION PAGE, in a folder with certificate.pem and key.pem."""
import glob
import http.client
import json
import os
import pathlib
import re
import socket
import ssl
import subprocess
import sys
import threading
import time

from connecting import free_port
from expecting import expecting
from fronting import Front
from relay import Relay
from talking import Server, make_file

PROGRAM, PORT, CONFIGURATION, PAGE = sys.argv[1], int(sys.argv[2]), pathlib.Path(sys.argv[3]), sys.argv[4]
NAME = "boards.example.org"
HERE = pathlib.Path.cwd()
# How many different wrong keys an address may try for a name, and for all names; how many whole boards it may read at once.
TRIES, ALL_TRIES = map(int, re.search(r">= (\d+) or .* >= (\d+) then", CONFIGURATION.read_text()).groups())
AT_ONCE = int(re.search(r"limit_conn taskboard_whole_of_address (\d+);", CONFIGURATION.read_text())[1])

expect = expecting("proxy")


class Recorder(Relay):
    """Keeps what comes by it to the server."""

    def __init__(self, port):
        self.heard = b""
        super().__init__(port)

    def pass_on(self, client, server, state):
        while sent := client.recv(65536):
            self.heard += sent
            server.sendall(sent)


def front(upstream):
    """nginx by the configuration with other ports, and the certificate of this folder; IPv6 where the machine has it."""
    port = free_port()
    text = CONFIGURATION.read_text().replace("127.0.0.1:920", f"127.0.0.1:{upstream}").replace("/etc/ssl/taskboard/", f"{HERE}/")
    text = text.replace("listen 443 ", f"listen {port} ").replace("listen [::]:443 ", f"listen [::]:{port} ")
    if not os.path.exists("/proc/net/if_inet6"):
        text = re.sub(r".*listen \[::\].*\n", "", text)
    pathlib.Path("taskboard.conf").write_text(text)
    modules = "\n".join(f"include {path};" for path in sorted(glob.glob("/etc/nginx/modules-enabled/*.conf")))
    return Front(port, f"    include {HERE}/taskboard.conf;\n", modules)


class Caller:
    """Asks by TLS, from an address of the loopback."""

    def __init__(self, port, address="127.0.0.1"):
        self.port, self.address = port, address
        self.context = ssl.create_default_context(cafile="certificate.pem")

    def send(self, method, target, body=None, fields=(), key="ann-key-1", member="ann"):
        """A connection on which a message was sent. Fields may be given more than once."""
        raw = socket.create_connection(("127.0.0.1", self.port), timeout=20, source_address=(self.address, 0))
        connection = http.client.HTTPConnection(NAME)
        connection.sock = self.context.wrap_socket(raw, server_hostname=NAME)
        connection.putrequest(method, target)
        content = b"" if body is None else json.dumps(body).encode()
        known = (("x-member", member), ("x-key", key)) if key else ()
        for name, value in (*known, *fields, ("content-length", str(len(content)))):
            connection.putheader(name, value)
        connection.endheaders(content)
        return connection

    def ask(self, *message, **more):
        """The status, the fields and the body of an answer."""
        answer = self.send(*message, **more).getresponse()
        return answer.status, answer.headers, answer.read()


def identifier(number):
    return f"00000000-0000-4000-8000-{number:012}"


def looks_at_fields(ann):
    """A year of TLS alone in each answer; the page is asked for anew, and what boards answer is kept nowhere."""
    for method, target, key, status, caching in (
        ("GET", "/", None, 200, "no-cache"),
        ("GET", "/boards/1/list", "ann-key-1", 200, "no-store"),
        ("GET", "/boards/2/list", "ann-key-1", 404, "no-store"),
        ("GET", "/me", "ann-key-2", 401, "no-store"),
        ("POST", "/boards", "ann-key-1", 400, "no-store"),
    ):
        found, fields, _ = ann.ask(method, target, key=key)
        expect(f"{target}: {found}", found == status)
        expect(f"{target}: {fields}", fields.get_all("cache-control") == [caching])
        expect(f"{target}: {fields}", fields.get_all("strict-transport-security") == ["max-age=31536000"])
    found, fields, _ = ann.ask("POST", "/boards/1/import", body="x" * 2**20)
    expect(f"a long body: {found}", found == 413 and fields.get_all("strict-transport-security"))


def looks_at_identifiers(ann, recorder):
    """A client's identifier goes on alone, in front of one that another proxy added; a message without one gets none."""
    task, mine = {"description": "Buy milk"}, ("x-request-id", identifier(1))
    first = ann.ask("POST", "/boards/1/tasks", task, fields=(mine, ("X-Request-ID", identifier(2))))
    expect(f"it is added: {first}", first[0] == 200)
    expect(f"one identifier goes on: {recorder.heard}", re.findall(rb"(?i)x-request-id: (\S+)", recorder.heard) == [identifier(1).encode()])
    again = ann.ask("POST", "/boards/1/tasks", task, fields=(mine,))
    expect(f"it acts once: {again}", again[0] == 200 and again[2] == first[2])
    expect("a call without one is refused", ann.ask("POST", "/boards/1/tasks", task)[0] == 400)
    exported = json.loads(ann.ask("GET", "/boards/1/export")[2])
    expect(f"one task: {exported}", len(exported) == 1)


def looks_at_wrong_keys(port):
    """Who tries many keys for a name is locked out for it, but not from the page; who works there, tries one wrong key often, or has another
    address isn't. Who tries many names is locked out for all but those who work there."""
    guesser, stale, other = (Caller(port, f"127.0.0.{number}") for number in (2, 3, 4))
    ann = guesser.ask("GET", "/me")[0]
    statuses = [guesser.ask("GET", "/me", key=f"guess-{number:04}")[0] for number in range(TRIES + 5)]
    expect(f"guesses: {statuses}", statuses == [401] * TRIES + [429] * 5)
    expect("who works there isn't locked out", (ann, guesser.ask("GET", "/me")[0]) == (200, 200))
    expect("nor for another name", guesser.ask("GET", "/me", member="bob", key="guess-0001")[0] == 401)
    expect("nor is the page", guesser.ask("GET", "/", key=None)[0] == 200)
    statuses = [guesser.ask("GET", "/me", member=f"name{number}")[0] for number in range(ALL_TRIES)]
    expect(f"many names: {statuses}", statuses == [401] * (ALL_TRIES - TRIES - 1) + [429] * (TRIES + 1))
    expect("who works there isn't locked out even then", guesser.ask("GET", "/me")[0] == 200)
    statuses = [stale.ask("GET", "/me", key="old-key-1")[0] for _ in range(TRIES + 5)]
    expect(f"one wrong key, often: {set(statuses)}", set(statuses) == {401} and stale.ask("GET", "/me")[0] == 200)
    expect("another address isn't", other.ask("GET", "/me", key="guess-0001")[0] == 401)


class Silent(Relay):
    """Takes messages, and lets none come to the server until it's told."""

    def __init__(self, port):
        self.goes_on = threading.Event()
        super().__init__(port)

    def pass_on(self, client, server, state):
        self.goes_on.wait()
        super().pass_on(client, server, state)


def looks_at_whole_boards(port, silent):
    """So many boards as a whole are read at once from one address, and no more; smaller views and other addresses aren't held up."""
    reader, other, held = Caller(port, "127.0.0.5"), Caller(port, "127.0.0.6"), []
    for number in range(AT_ONCE):
        connection = reader.send("GET", f"/boards/{number + 1}/export")
        held.append(connection)
    refused = reader.ask("GET", "/boards/1/export")
    silent.goes_on.set()
    expect(f"one more: {refused[0]}", refused[0] == 429)
    expect("those before are answered", [connection.getresponse().status for connection in held] == [200] + [404] * (AT_ONCE - 1))
    expect("and then one more", reader.ask("GET", "/boards/1/export")[0] == 200)
    expect("another address", other.ask("GET", "/boards/1/export")[0] == 200)


def main():
    begun = time.monotonic()
    make_file(PROGRAM)
    with Server(PROGRAM, PORT, words=("--forever", "--page", PAGE), errors=subprocess.DEVNULL):
        recorder = Recorder(PORT)
        nginx = front(recorder.port)
        fault = nginx.fault()
        if 'unknown directive "lua_shared_dict"' in fault:
            return print("the proxy: skipped, since nginx has no Lua module")
        expect(f"the configuration: {fault}", not fault)
        with nginx:
            ann = Caller(nginx.port)
            looks_at_fields(ann)
            looks_at_identifiers(ann, recorder)
            looks_at_wrong_keys(nginx.port)
        silent = Silent(PORT)
        with front(silent.port) as nginx:
            looks_at_whole_boards(nginx.port, silent)
    return print(f"behind nginx in {time.monotonic() - begun:.0f} s")


main()
