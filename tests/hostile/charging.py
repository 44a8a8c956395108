"""Calls that write much: who adds too much waits, and nobody else does: charging.py PROGRAM PORT SLACK

SLACK is how many times longer than on an idle machine an answer may take."""
import contextlib
import json
import os
import pathlib
import subprocess
import sys
import time

from talking import KNOWN, Server, answer_to, identified, is_whole, make_file, message, status_of

program, port, slack = os.path.abspath(sys.argv[1]), int(sys.argv[2]), float(sys.argv[3])
# What a person may add at once, in MiB, and in a second, in KiB.
BURST, GROWTH = 4, 64
KNOWN_WITHIN = 0.1 * slack
ME = b"/me"
NOTE = "y" * 16_000


def by(name, number=None):
    fields = b"x-member: %s\r\nx-key: %s-key-01\r\n" % (name, name)
    return fields + (b"x-request-id: 00000000-0000-4000-8000-%012d\r\n" % number if number else b"")


def call(client, sent, wanted=200):
    began = time.monotonic()
    answer = answer_to(client, sent)
    if not is_whole(answer) or status_of(answer) != wanted:
        sys.exit(f"expected {wanted}, but got {answer[:60]}")
    return time.monotonic() - began


def is_late(client, sent, seconds):
    """Whether no answer comes within some seconds."""
    client.sendall(sent)
    client.settimeout(seconds)
    with contextlib.suppress(TimeoutError):
        return not client.recv(1)
    return True


def count_at_once(client, sent, numbers):
    """How many of these calls are answered one after another before one waits; all of them where none does."""
    for count, number in enumerate(numbers):
        if is_late(client, sent(number), 2 * slack):
            return count
        client.settimeout(60)
        client.recv(65536)
    return len(numbers)


def task(size, **members):
    """The body of a task of so many KiB."""
    notes = [{"entry": "20260101T000000Z", "description": f"{place} {NOTE}"} for place in range(size // 16)]
    return json.dumps({"description": "Large", "annotations": notes, **members}).encode()


def add_people(server):
    with server.connect(60) as ann:
        for number, name in enumerate((b"bob", b"eve", b"dan")):
            call(ann, message(b"POST", b"/people", b'{"key":"%s-key-01","name":"%s"}' % (name, name), identified(900_000 + number)))


def expect_at_once(server, name, number, target=b"/boards"):
    """A short call of this person is answered at once."""
    with server.connect(60) as client:
        call(client, message(b"GET", ME, fields=by(name)))
        took = call(client, message(b"POST", target, b'{"title":"B%d"}' % number, by(name, number)))
        if took > KNOWN_WITHIN:
            sys.exit(f"{name}: a call took {took:.2f} s")
        return took


def refused(server):
    """Calls that are refused are kept too: a person without a role waits once her bytes are used up, and her views don't."""
    with server.connect(60) as eve:
        call(eve, message(b"GET", ME, fields=by(b"eve")))
        large = task(960)
        count = count_at_once(eve, lambda number: message(b"POST", b"/boards/1/tasks", large, by(b"eve", number)), range(1, 40))
        if not BURST - 1 <= count <= BURST + 2:
            sys.exit(f"{count} refused calls of 1 MB went through, with {BURST} MiB at once")
    with server.connect(60) as eve:
        took = call(eve, message(b"GET", ME, fields=by(b"eve")))
        if took > KNOWN_WITHIN:
            sys.exit(f"her view took {took:.2f} s")
    return count


def strangers(server):
    """What others send under a person's name isn't charged to her."""
    wrong = b"x-member: bob\r\nx-key: wrong-key-1\r\nx-request-id: 00000000-0000-4000-8000-000000000777\r\n"
    for _ in range(3 * BURST):
        with server.connect(60) as client:
            call(client, message(b"POST", b"/boards/1/tasks", task(960), wrong), 401)
    return expect_at_once(server, b"bob", 55)


def swept(server):
    """A sweep of two bytes is charged to its board: calls on it wait, and those on others don't."""
    with server.connect(60) as bob:
        call(bob, message(b"GET", ME, fields=by(b"bob")))
        call(bob, message(b"POST", b"/boards/2/tasks", task(240, due="20200101T000000Z", recur="daily"), by(b"bob", 60)))
        if count_at_once(bob, lambda number: message(b"POST", b"/boards/2/sweep", b"{}", by(b"bob", number)), range(61, 70)) == 9:
            sys.exit("nine sweeps of 15 MB were answered")
    with server.connect(60) as ann:
        took = call(ann, message(b"POST", b"/boards/1/tasks", b'{"description":"A"}', identified(70)))
        if took > KNOWN_WITHIN:
            sys.exit(f"a call on another board took {took:.2f} s")
        return took


def boards(server):
    """A new board counts for 1 MiB: who makes many waits, long before the 10,000 numbers are used up."""
    with server.connect(60) as dan:
        call(dan, message(b"GET", ME, fields=by(b"dan")))
        count = count_at_once(dan, lambda number: message(b"POST", b"/boards", b'{"title":"Many"}', by(b"dan", number)), range(100, 140))
    if not BURST <= count <= BURST + 2:
        sys.exit(f"{count} boards were made at once, with {BURST} MiB at once")
    with server.connect(60) as ann:
        took = call(ann, message(b"POST", b"/boards/1/tasks", b'{"description":"B"}', identified(71)))
        if took > KNOWN_WITHIN:
            sys.exit(f"a call of another person took {took:.2f} s")
        return took


def expect_start(program):
    """The file of one who meant harm can be served again within 400 MB."""
    size = sum(pathlib.Path(name).stat().st_size for name in ("b.db", "b.db-wal") if pathlib.Path(name).exists())
    few = ("sh", "-c", 'ulimit -v 400000 && exec "$@"', "sh")
    with Server(program, port, before=few, errors=subprocess.DEVNULL) as server, server.connect(10) as client:
        call(client, message(b"GET", ME, fields=KNOWN))
    return size / 1e6


def main():
    make_file(program)
    words = ("--connections", "1000000", "--growth", str(GROWTH), "--burst", str(BURST))
    with Server(program, port, words=words, errors=subprocess.DEVNULL) as server:
        add_people(server)
        expect_at_once(server, b"bob", 50)
        count = refused(server)
        beside = expect_at_once(server, b"bob", 51)
        spared = strangers(server)
        other = max(swept(server), boards(server))
    size = expect_start(program)
    print(f"{count} refused calls of 1 MB, then they wait; others {max(beside, spared, other):.3f} s at most; the file has {size:.0f} MB")


main()
