"""Clients that take no answers and end no messages: rooms.py PROGRAM PORT SLACK PART, in a folder that it may write to.

SLACK is how many times longer than on an idle machine an answer may take."""
import contextlib
import json
import os
import re
import resource
import socket
import sys
import threading
import time

from expecting import expecting
from talking import KNOWN, UNBOUNDED, Server, answer_to, identified, is_whole, make_file, message, status_of

PROGRAM, PORT, SLACK, PART = os.path.abspath(sys.argv[1]), int(sys.argv[2]), float(sys.argv[3]), sys.argv[4]
LARGE, READERS, SENDERS = (int(os.environ.get(name, usual)) for name, usual in (("LARGE", 134), ("READERS", 400), ("SENDERS", 500)))
# How long somebody may wait for an answer whose key is known, and somebody whose key was never right before, in seconds.
KNOWN_WITHIN, NEW_WITHIN = 0.1 * SLACK, 1 * SLACK
ME = message(b"GET", b"/me")
EXPORT = message(b"GET", b"/boards/1/export")
# The longest body that a message may have.
LONGEST_BODY = 1_048_576
expect = expecting(PART)


def by(name, key, identifier=None):
    fields = b"x-member: %s\r\nx-key: %s\r\n" % (name, key)
    return fields + (b"x-request-id: 00000000-0000-4000-8000-%012d\r\n" % identifier if identifier else b"")


BOB = by(b"bob", b"bob-key-01")


def call(client, sent, wanted=200):
    answer = answer_to(client, sent)
    expect(f"expected {wanted}, but got {answer[:60]}", is_whole(answer) and status_of(answer) == wanted)
    return answer


def add_bob(client):
    call(client, message(b"POST", b"/people", b'{"key":"bob-key-01","name":"bob"}', identified(999_999)))


def fill(client, size):
    """Adds tasks until an export has so many MiB."""
    note = "y" * 16_000
    for number in range(size):
        task = {"description": f"Task {number}", "annotations": [{"entry": "20260101T000000Z", "description": f"{place} {note}"} for place in range(64)]}
        call(client, message(b"POST", b"/boards/1/tasks", json.dumps(task).encode(), identified(number + 1)))


def time_of(client, sent, wanted=200):
    began = time.monotonic()
    call(client, sent, wanted)
    return time.monotonic() - began


def slowest(client, sent, seconds):
    """The longest that an answer to this message took, asked for over some seconds."""
    worst, until = 0, time.monotonic() + seconds
    while time.monotonic() < until:
        worst = max(worst, time_of(client, sent))
        time.sleep(0.005)
    return worst


class Told:
    """What the server tells at its start of how much memory it may take, and what it took."""

    def __init__(self, server, errors):
        self.server, self.before = server, server.resident()
        with open(errors) as lines:
            found = re.search(r"up to (\d+) MiB of memory for messages and answers", lines.read())
        expect("it tells how much memory it may take", found)
        self.most = int(found[1])

    def expect_kept(self, largest):
        """It took no more than that, besides what it had at first, the boards at hand and twice the largest answer."""
        taken = self.server.status_line("VmHWM") / 1024
        most = self.most + self.before + 3 * largest
        expect(f"it took {taken:.0f} MiB, and not up to {most:.0f}", taken <= most)
        return f"{taken:.0f} MiB at most, {self.most} told"


def serve(ending):
    errors = ending.enter_context(open("told", "w"))
    server = ending.enter_context(Server(PROGRAM, PORT, words=UNBOUNDED, errors=errors))
    time.sleep(0.1)
    return server, Told(server, "told")


def unread():
    """One answer of many MiB that isn't taken keeps nobody waiting."""
    with contextlib.ExitStack() as ending:
        server, told = serve(ending)
        ann = ending.enter_context(server.connect(60))
        add_bob(ann)
        fill(ann, LARGE)
        bob = ending.enter_context(server.connect(60))
        call(bob, message(b"GET", b"/me", fields=BOB))
        deaf = ending.enter_context(server.connect(60))
        deaf.sendall(EXPORT)
        # The answer is made in one turn, for which all wait, and ends before its first byte is here; after that nobody waits.
        deaf.recv(1, socket.MSG_PEEK)
        worst = slowest(bob, message(b"GET", b"/me", fields=BOB), 3)
        expect(f"bob waited {worst:.2f} s", worst <= KNOWN_WITHIN)
        # Another message of the same person is answered once the answer was let go of.
        own = time_of(ann, ME)
        expect(f"its own person waited {own:.2f} s", own <= 3 * SLACK)
        return f"an answer of {LARGE} MiB isn't taken: another waits {worst:.3f} s at most, its own person {own:.2f} s; {told.expect_kept(LARGE)}"


def many():
    """Hundreds of answers of 10 MiB that one person doesn't take keep no new client out."""
    with contextlib.ExitStack() as ending:
        server, told = serve(ending)
        with server.connect(60) as ann:
            add_bob(ann)
            fill(ann, 10)
        crowd = [ending.enter_context(server.connect(60)) for _ in range(READERS)]
        for deaf in crowd:
            deaf.sendall(EXPORT)
        worst, until = 0, time.monotonic() + 8
        while time.monotonic() < until:
            began = time.monotonic()
            with server.connect(60) as bob:
                call(bob, message(b"GET", b"/me", fields=BOB))
            worst = max(worst, time.monotonic() - began)
            time.sleep(0.05)
        expect(f"a new client waited {worst:.2f} s", worst <= NEW_WITHIN)
        return f"{READERS} answers of 10 MiB aren't taken: a new client waits {worst:.3f} s at most; {told.expect_kept(10)}"


def almost(number):
    """A message whose body lacks its last byte, with a key that is wrong."""
    body = b"x" * LONGEST_BODY
    return message(b"POST", b"/boards/1/tasks", body, by(b"ann", b"wrong-key-1", number + 1))[:-1]


def push(crowd, until):
    """Sends what each of these still has to send, as far as the server takes it."""
    left = {client: almost(number) for number, client in enumerate(crowd)}
    while left and time.monotonic() < until:
        for client, rest in list(left.items()):
            try:
                left[client] = rest[client.send(rest[:65536]):]
            except BlockingIOError:
                continue
            except OSError:
                del left[client]
                continue
            if not left[client]:
                del left[client]
        time.sleep(0.01)


def strangers():
    """Hundreds of messages that don't end, with a wrong key: known callers pass, and so does one who comes for the first time."""
    with contextlib.ExitStack() as ending:
        server, told = serve(ending)
        ann = ending.enter_context(server.connect(60))
        add_bob(ann)
        long = json.dumps({"description": "Long", "annotations": [{"entry": "20260101T000000Z", "description": f"{place} {'y' * 16_000}"} for place in range(64)]})
        crowd = [ending.enter_context(server.connect(60)) for _ in range(SENDERS)]
        for client in crowd:
            client.setblocking(False)
        until = time.monotonic() + 12
        pushing = threading.Thread(target=push, args=(crowd, until))
        pushing.start()
        time.sleep(2)
        worst, worst_long, number = 0, 0, 0
        with server.connect(60) as bob:
            first = time_of(bob, message(b"GET", b"/me", fields=BOB))
        while time.monotonic() < until - 1:
            number += 1
            worst = max(worst, time_of(ann, ME))
            sent = message(b"POST", b"/boards/1/tasks", long.encode(), identified(number))
            worst_long = max(worst_long, time_of(ann, sent))
            time.sleep(0.05)
        pushing.join()
        expect(f"a known caller waited {worst:.2f} s", worst <= KNOWN_WITHIN)
        expect(f"a long message of a known caller waited {worst_long:.2f} s", worst_long <= 3 * KNOWN_WITHIN)
        expect(f"a new caller waited {first:.2f} s", first <= NEW_WITHIN)
        return f"{SENDERS} messages don't end: known callers wait {worst:.3f} s at most, {worst_long:.3f} s with a body of 1 MiB, a new one {first:.2f} s; {told.expect_kept(1)}"


def idle():
    """Connections that sent a long message and took a long answer hold little behind them."""
    with contextlib.ExitStack() as ending:
        server, told = serve(ending)
        ann = ending.enter_context(server.connect(60))
        call(ann, message(b"POST", b"/boards/1/tasks", json.dumps({"description": "A", "annotations": [{"entry": "20260101T000000Z", "description": f"{place}{'y' * 900}"} for place in range(60)]}).encode(), identified(1)))
        crowd = [ending.enter_context(server.connect(60)) for _ in range(SENDERS)]
        for client in crowd:
            call(client, message(b"POST", b"/boards/9/tasks", b"x" * 60_000, KNOWN), 400)
        for client in crowd:
            call(client, EXPORT)
        time.sleep(0.5)
        more = server.resident() - told.before
        expect(f"{more:.1f} MiB more", more < 20)
        return f"{SENDERS} connections that hold nothing: {more:.1f} MiB more"


def main():
    resource.setrlimit(resource.RLIMIT_NOFILE, (4096, max(4096, resource.getrlimit(resource.RLIMIT_NOFILE)[1])))
    make_file(PROGRAM)
    print(f"{PART}: {globals()[PART]()}")


main()
