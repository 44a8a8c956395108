"""Connections that guess keys wait for each other, and nobody else waits for them: guessing.py PROGRAM PORT SLACK

SLACK is how many times longer than on an idle machine an answer may take."""
import contextlib
import os
import pathlib
import subprocess
import sys
import threading
import time

from talking import KNOWN, Server, answer_to, is_whole, make_file, message, status_of

program, port, slack = os.path.abspath(sys.argv[1]), int(sys.argv[2]), float(sys.argv[3])
GUESSERS, SECONDS = 64, 3
# Turns of guesses at once, and in a second.
AT_ONCE, A_SECOND = 500, 100
# How long a known caller may wait for an answer, and somebody whose key was never right before, in seconds.
KNOWN_WITHIN, NEW_WITHIN = 0.1 * slack, 6
ME = message(b"GET", b"/me")


def by(name, key):
    return b"x-member: %s\r\nx-key: %s\r\n" % (name, key)


class Guesser(threading.Thread):
    """Guesses keys on a connection, one after the other, and notes when each was answered."""

    def __init__(self, server, number):
        super().__init__(daemon=True)
        self.server, self.number, self.answered, self.statuses = server, number, [], set()
        self.goes_on = True

    def run(self):
        with self.server.connect(60) as client, contextlib.suppress(OSError):
            for guess in range(900):
                answer = answer_to(client, message(b"GET", b"/me", fields=by(b"ann", b"guess-%d-%d" % (self.number, guess))))
                if not self.goes_on or not is_whole(answer):
                    return
                self.answered.append(time.monotonic())
                self.statuses.add(status_of(answer))


def slowest(server, sent, wanted, until):
    """The longest that an answer to this message took, asked for until a moment, each on a connection that stays."""
    worst, count = 0, 0
    with server.connect(60) as client:
        while time.monotonic() < until and count < 900:
            began = time.monotonic()
            status = status_of(answer_to(client, sent))
            worst = max(worst, time.monotonic() - began)
            if status != wanted:
                sys.exit(f"expected {wanted}, but got {status}")
            count += 1
            time.sleep(0.01)
    return worst


def once(server, sent):
    """How long an answer takes on a connection of its own."""
    with server.connect(60) as client:
        began = time.monotonic()
        status = status_of(answer_to(client, sent))
        if status != 200:
            sys.exit(f"expected 200, but got {status}")
        return time.monotonic() - began


def expect_within(what, took, most):
    if took > most:
        sys.exit(f"{what}: answered after {took:.2f} s, and not within {most:.2f} s")


def expect_few(moments, began):
    """No more were answered by any moment than may be by then."""
    for count, moment in enumerate(sorted(moments), 1):
        if count > AT_ONCE + A_SECOND * (moment - began) + 2:
            sys.exit(f"{count} guesses were answered within {moment - began:.2f} s")


def add_person(server, name, key):
    """Ann adds a person, whose key nobody has used yet."""
    body = b'{"key":"%s","name":"%s"}' % (key, name)
    fields = KNOWN + b"x-request-id: 00000000-0000-4000-8000-999999999999\r\n"
    with server.connect(60) as client:
        answer = answer_to(client, message(b"POST", b"/people", body, fields))
    if status_of(answer) != 200:
        sys.exit(f"bob isn't added: {answer}")


def flood(server):
    """What comes of it that 64 connections guess keys: how many are answered, and the longest waits of others."""
    file = message(b"GET", b"/app.js", fields=b"")
    idle = max(once(server, file) for _ in range(20))
    once(server, ME)
    began = time.monotonic()
    guessers = [Guesser(server, number) for number in range(GUESSERS)]
    for guesser in guessers:
        guesser.start()
    # The first 500 are answered at once, and behind them each waits.
    time.sleep(1)
    waits = {}

    def ask(what, call):
        waits[what] = call()

    until = began + SECONDS
    askers = [
        threading.Thread(target=ask, args=("a known caller", lambda: slowest(server, ME, 200, until))),
        threading.Thread(target=ask, args=("a file", lambda: slowest(server, file, 200, until))),
        threading.Thread(target=ask, args=("no key", lambda: slowest(server, message(b"GET", b"/me", fields=b""), 401, until))),
        threading.Thread(target=ask, args=("a new caller", lambda: once(server, message(b"GET", b"/me", fields=by(b"bob", b"bob-key-01"))))),
    ]
    for asker in askers:
        asker.start()
    for asker in askers:
        asker.join(60)
    for guesser in guessers:
        guesser.goes_on = False
    moments = [moment for guesser in guessers for moment in guesser.answered]
    if any(guesser.statuses - {401} for guesser in guessers):
        sys.exit("a guess was answered otherwise")
    return began, moments, waits, idle


def main():
    make_file(program)
    folder = pathlib.Path("page")
    folder.mkdir()
    (folder / "index.html").write_text("<!doctype html><title>a</title>")
    (folder / "app.js").write_text("// nothing\n" * 100)
    with Server(program, port, words=("--connections", "1000000", "--page", "page"), errors=subprocess.DEVNULL) as server:
        add_person(server, b"bob", b"bob-key-01")
        began, moments, waits, idle = flood(server)
        expect_few(moments, began)
        if len(moments) < AT_ONCE:
            sys.exit(f"only {len(moments)} guesses were answered")
        for what in ("a known caller", "no key"):
            expect_within(what, waits[what], KNOWN_WITHIN)
        expect_within("a file of the page", waits["a file"], max(KNOWN_WITHIN, 10 * idle))
        expect_within("a new caller", waits["a new caller"], NEW_WITHIN)
        expect_within("the same, who is known now", once(server, message(b"GET", b"/me", fields=by(b"bob", b"bob-key-01"))), KNOWN_WITHIN)
    longest = max(waits[what] for what in ("a known caller", "a file", "no key"))
    print(f"{len(moments)} guesses in {max(moments) - began:.1f} s; others within {longest:.3f} s, a new caller after {waits['a new caller']:.2f} s")


main()
