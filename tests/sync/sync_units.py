"""Parts of the bridges and of the tunnel by themselves: sync_units.py, in a folder of its own."""
import copy
import io
import json
import os
import random
import socket
import sys
import threading
import types

sys.path.insert(0, os.path.join(os.path.dirname(os.path.abspath(__file__)), "..", "..", "contrib", "bridges"))
sys.dont_write_bytecode = True
from bridging import expect
from taskboard_bridges import tunnel
from taskboard_bridges.fault import Fault
from taskboard_bridges.forms import Either, Values, fits
from taskboard_bridges.keeping import State
from taskboard_bridges.places import place_of
from taskboard_bridges.reminding import Kept
from taskboard_bridges.saying import say
from taskboard_bridges.seen import Seen
from taskboard_bridges.taskwarrior import TIMELESS
from taskboard_bridges.wire import NoAnswer

TASK = "00000001-0000-8000-8000-000000000001"
CALL = {"id": TASK, "target": "/boards/1/tasks", "body": "{}", "keys": ["=due"]}
STATE = {
    "version": 1, "about": {"address": "127.0.0.1:1", "board": 1}, "replica": TASK, "told": ["a"], "more": {"place": "/todo.txt"},
    "tasks": {TASK: {"turn": 1, "left": {"=due": "20260101T000000Z", "#a": True, "!note": 2}, "right": None, "refused": {"a": "Full"}}},
    "pending": {TASK: {"calls": [CALL], "new": [{"status": "open"}, {"status": "open"}]}, TASK[::-1]: {"calls": [], "left": ["#a"], "right": [], "pairs": {"#a": [True, None]}}},
    "owed": [{"id": TASK, "task": TASK, "key": "=due", "left_wins": True, "note": "n", "left": None, "right": "x"}], "reopened": {TASK: {"id": TASK, "status": "completed"}},
}
MAILS = {"version": 1, "people": {"ann": {"day": "2026-01-01", "state": "sent", "hers": ["1/a"]}, "bob": {"day": "2026-01-01", "state": "sending", "hers": None}}, "paths": {"board 1": "a.ics"}}
OTHERS = (None, 5, -1.5, "x", True, [], {}, [5], {"x": 5})


def damaged(value):
    """A value with each part of it replaced by each of another form, and without it."""
    keys = list(value) if isinstance(value, dict) else range(len(value)) if isinstance(value, list) else ()
    for key in keys:
        for other in OTHERS:
            if type(other) is not type(value[key]):
                changed = copy.copy(value)
                changed[key] = other
                yield changed
        without = copy.copy(value)
        del without[key]
        yield without
        for part in damaged(value[key]):
            changed = copy.copy(value)
            changed[key] = part
            yield changed


def write(name, value):
    with open(name, "w") as file:
        json.dump(value, file)
    return name


def states():
    """A file of a state, of mails or of what was seen that is damaged anywhere is refused in words, or read without what is wrong."""
    State(write("state", STATE), "127.0.0.1:1", 1)
    Kept(write("mails", MAILS))
    counts = {"state": 0, "mails": 0}
    for name, whole, read in (("state", STATE, lambda: State("state", "127.0.0.1:1", 1)), ("mails", MAILS, lambda: Kept("mails"))):
        for value in [*OTHERS, *damaged(whole)]:
            write(name, value)
            try:
                read()
            except Fault:
                counts[name] += 1
    expect("most are refused", True, counts["state"] > 300 and counts["mails"] > 60)
    with open("state", "wb") as file:
        file.write(b"[" * 100_000)
    expect("too deep", True, "can't be read" in fault_of(lambda: State("state", "127.0.0.1:1", 1)))
    seen = Seen("state", [])
    for text in ("", "[", "5", '{"number":1}', "[" * 100_000):
        with open("state.seen", "w") as file:
            file.write(text)
        expect(f"seen: {text[:20]}", None, seen.kept())
    return counts


def fault_of(make):
    try:
        make()
    except Fault as fault:
        return str(fault)
    return ""


def forms():
    """What has a form and what hasn't."""
    for value, form, wanted in (
        (1, int, True), (True, int, False), (1.5, int, False), ("a", str, True), (None, None, True), (0, None, False), ([1, 2], [int], True), ([1, "a"], [int], False),
        ({"a": 1}, {"a": int}, True), ({"a": 1, "b": 2}, {"a": int}, True), ({}, {"a": int}, False), ({}, {"a?": int}, True), ({"a": "b"}, {"a?": int}, False),
        ({"x": 1}, Values(int), True), ({"x": "y"}, Values(int), False), (None, Either(int, None), True), ("a", Either(int, None), False), (object, object, True),
    ):
        expect(f"{value} as {form}", wanted, fits(value, form))


def places():
    """Addresses, and what is none."""
    for address, wanted in (("https://boards.example.org", ("boards.example.org", 443, "boards.example.org", True)), ("https://b.example:8443/", ("b.example", 8443, "b.example:8443", True)),
                            ("127.0.0.1:8080", ("127.0.0.1", 8080, "127.0.0.1:8080", False)), ("http://localhost", ("localhost", 80, "localhost", False)),
                            ("[::1]:81", ("::1", 81, "[::1]:81", False)), ("https://[::1]", ("::1", 443, "[::1]", True))):
        place = place_of(address)
        expect(address, wanted, (place.host, place.port, place.name, place.is_secure))
    for address in ("", "boards.example.org:80", "http://boards.example.org", "https://", "https://a b", "https://ann@b", "https://b/x", "https://b?x", "https://b:0", "https://b:65536", "ftp://b", "https://b\n", "https://é"):
        expect(address, True, bool(fault_of(lambda: place_of(address))))


def rewritten():
    """An address is replaced wherever it is cut, and nothing is lost or held longer than need be."""
    draw = random.Random(3)
    text = "127.1.2.3:10000 doesn't answer; taskboard send --id 1 127.1.2.3:10000, not 127.1.2.3:1000 nor 127.1.2.3\n" * 3
    wanted = text.replace("127.1.2.3:10000", "https://b").replace("taskboard send ", "tb send ")
    for _ in range(200):
        reading, writing = os.pipe()
        written = []
        copying = threading.Thread(target=tunnel.Rewriter((("127.1.2.3:10000", "https://b"), ("taskboard send ", "tb send ")), written.append).copy, args=(reading,))
        copying.start()
        rest = text.encode()
        while rest:
            size = draw.randint(1, 40)
            os.write(writing, rest[:size])
            rest = rest[size:]
        os.close(writing)
        copying.join()
        os.close(reading)
        expect("what is shown", wanted, b"".join(written).decode())


def taken():
    """A message of the program's is taken whole, and what is none isn't."""
    whole = b"POST /boards/1/tasks HTTP/1.1\r\nhost: 127.1.2.3:1\r\nx-key: k\r\nconnection: close\r\ncontent-length: 4\r\n\r\nbody"
    for data, wanted in [(whole, whole), *((whole[:at], None) for at in range(len(whole))), (b"\x16\x03\x01\r\n\r\n", None), (b"x" * 200_000, None)]:
        ours, others = socket.socketpair()
        with ours, others:
            sending = threading.Thread(target=send, args=(others, data))
            sending.start()
            try:
                found = tunnel.taken(ours)
            except (NoAnswer, OSError):
                found = None
            ours.close()
            sending.join()
        expect(f"{data[-20:]}", wanted, found)
    named = tunnel.Tunnel.with_host(types.SimpleNamespace(place=place_of("https://b.example:8443")), whole)
    expect("it names the server", b"POST /boards/1/tasks HTTP/1.1\r\nhost: b.example:8443\r\nx-key: k\r\ncontent-length: 4\r\n\r\nbody", named)


def send(connection, data):
    try:
        connection.sendall(data)
        connection.shutdown(socket.SHUT_WR)
    except OSError:
        pass


def words():
    """Where `send` has its address, what the settings say, and which filters have the same tasks tomorrow."""
    for given, wanted in ((["send", "a"], 1), (["send", "--id", "u", "a"], 3), (["send", "--for", "5", "--id", "u", "a"], 5), (["send"], 1)):
        expect(f"{given}", wanted, tunnel.place_in_words(given))
    for text, wanted in (("server = a\nname = b\n", ["a"]), ("#server = a\n", []), ("  server=a \r\nserver\t=\tb", ["a", "b"]), ("servers = a\n", []), ("name = server = a\n", [])):
        expect(repr(text), wanted, [found[1] for found in tunnel.SETTING.finditer(text)])
    for word, wanted in (("project:Office", True), ("pro:A.b", True), ("+tag", True), ("-tag", True), ("+OVERDUE", False), ("due:today", False), ("status:pending", False), ("(", False)):
        expect(word, wanted, bool(TIMELESS.fullmatch(word)))


def said():
    """What the encoding of the terminal lacks is a question mark."""
    for encoding, wanted in (("utf-8", "Call 東京 ?\n"), ("latin-1", "Call ?? ?\n"), ("ascii", "Call ?? ?\n")):
        file = io.TextIOWrapper(io.BytesIO(), encoding=encoding)
        say("Call 東京 \ud800", file)
        expect(encoding, wanted, file.buffer.getvalue().decode(encoding))


def main():
    counts = states()
    forms()
    places()
    rewritten()
    taken()
    words()
    said()
    print(f"{counts['state']} damaged states and {counts['mails']} files of mails refused in words; forms, places, the tunnel's messages and what is shown of its address")


main()
