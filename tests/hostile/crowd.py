"""Crowds of clients: python3 crowd.py PROGRAM PORT SECONDS PART, in a folder that it may write to."""
import contextlib
import random
import resource
import select
import sys
import threading
import time

from expecting import expecting
from talking import Caller, Server, adding, answer_to, expect_each_once, has_ended, is_whole, make_file, message, status_of

PROGRAM, PORT, LONGEST, PART = sys.argv[1], int(sys.argv[2]), float(sys.argv[3]), sys.argv[4]
PLACES = 512
# How many messages a connection carries before the server ends it.
MESSAGES = 1000
LIST = message(b"GET", b"/boards/1/list")
expect = expecting(PART)


def answered(client, sent):
    """Has one message answered, and gives the time that it took."""
    begun = time.monotonic()
    try:
        answer = answer_to(client, sent)
    except TimeoutError:
        answer = b""
    took = time.monotonic() - begun
    expect(f"an answer: {answer[:80]}", is_whole(answer) and status_of(answer) == 200)
    expect(f"an answer came after {took:.2f} s", took <= LONGEST)
    return took


def places():
    """Those that are idle longest give way to those that come when no place is left."""
    clients = 600
    given = clients - PLACES
    with Server(PROGRAM, PORT) as server, contextlib.ExitStack() as ending:
        crowd = [ending.enter_context(server.connect()) for _ in range(PLACES)]
        worst = max(answered(client, LIST) for client in crowd[:given])
        # The server counts by the millisecond, and takes any of those that are idle equally long.
        time.sleep(0.01)
        worst = max([worst, *(answered(client, LIST) for client in crowd[given:])])
        expect("none has ended yet", not any(has_ended(client) for client in crowd))
        for number in range(PLACES, clients):
            crowd.append(ending.enter_context(server.connect()))
            worst = max(worst, answered(crowd[-1], adding(number)))
        expect("those that were idle longest gave way", all(has_ended(client) for client in crowd[:given]))
        expect("the others stayed", not any(has_ended(client) for client in crowd[given:]))
        worst = max([worst, *(answered(client, LIST) for client in crowd[given:])])
    expect_each_once(PROGRAM, range(PLACES, clients))
    return f"{clients} clients, the longest wait {worst:.3f} s"


def newcomers():
    """Where none has sent anything yet, the one that came first gives way, and not within its first second."""
    with Server(PROGRAM, PORT) as server, contextlib.ExitStack() as ending:
        begun = time.monotonic()
        crowd = [ending.enter_context(server.connect()) for _ in range(PLACES)]
        late = ending.enter_context(server.connect())
        answer = answer_to(late, LIST)
        took = time.monotonic() - begun
        expect(f"an answer: {answer[:80]}", is_whole(answer) and status_of(answer) == 200)
        expect(f"one gave way after {took:.2f} s", took >= 1)
        expect("one gave way", sum(has_ended(client) for client in crowd) == 1)
    return f"one more than {PLACES} silent clients was answered after {took:.2f} s"


def take_ready(waiting):
    """Ends those whose answers came, and gives those that still wait."""
    ready, _, _ = select.select(waiting, [], [], 1)
    for client in ready:
        expect("an answer", client.recv(65536).startswith(b"HTTP/1.1 200 OK"))
        client.close()
    return [client for client in waiting if client not in ready]


def descriptors():
    """With too few descriptors those that are open are served on, and the others once a place is free."""
    clients = 60
    few = ("sh", "-c", 'ulimit -n 40 && exec "$@"', "sh")
    with open("errors", "w") as errors, Server(PROGRAM, PORT, before=few, errors=errors) as server, contextlib.ExitStack() as ending:
        first = ending.enter_context(server.connect())
        answered(first, LIST)
        crowd = [ending.enter_context(server.connect()) for _ in range(clients)]
        time.sleep(0.5)
        used = server.seconds_used()
        time.sleep(2)
        used = server.seconds_used() - used
        expect(f"it used {used:.2f} s of the processor in 2 s with nothing to do", used < 0.5)
        expect("it runs", server.runs())
        answered(first, LIST)
        for client in crowd:
            client.sendall(LIST)
        last = time.monotonic() + 10
        while crowd:
            expect(f"{len(crowd)} got no answer", time.monotonic() < last)
            crowd = take_ready(crowd)
        answered(first, LIST)
    with open("errors") as errors:
        lines = errors.readlines()
    expect(f"{len(lines)} lines on standard error", 0 < len(lines) < 100)
    return f"{clients} clients with 40 descriptors"


def readers():
    """Clients that send and never read hold up themselves alone."""
    tasks = 500
    asked = message(b"GET", b"/boards/1/export") * 64
    with Server(PROGRAM, PORT) as server, contextlib.ExitStack() as ending:
        with server.connect() as client:
            for number in range(1, tasks + 1):
                answered(client, adding(number))
        before = server.resident()
        crowd = [ending.enter_context(server.connect()) for _ in range(64)]
        for deaf in crowd:
            deaf.setblocking(False)
            deaf.send(asked)
        client = ending.enter_context(server.connect())
        worst, last = 0, time.monotonic() + 8
        while time.monotonic() < last and number < MESSAGES:
            for deaf in crowd:
                with contextlib.suppress(BlockingIOError):
                    deaf.send(asked)
            number += 1
            worst = max(worst, answered(client, adding(number)))
            time.sleep(0.01)
        grown = server.resident() - before
        expect(f"{grown:.1f} MiB more", grown < 80)
    expect_each_once(PROGRAM, range(1, number + 1))
    return f"64 that never read; the longest wait beside them {worst:.3f} s, {grown:.1f} MiB more"


class Sender(threading.Thread):
    """A client that sends each of its tasks until it is answered."""

    def __init__(self, numbers):
        super().__init__(daemon=True)
        self.caller, self.numbers = Caller(PORT), numbers
        self.tries, self.fault = 0, None

    def run(self):
        for number in self.numbers:
            last = time.monotonic() + 30
            while not self.sends(number) and self.fault is None:
                if time.monotonic() > last:
                    self.fault = f"task {number} got no answer"
                time.sleep(0.01)
        self.caller.disconnect()

    def sends(self, number):
        self.tries += 1
        try:
            answer = self.caller.one_try(adding(number))
        except TimeoutError:
            self.caller.disconnect()
            return False
        if answer and status_of(answer) != 200:
            self.fault = f"task {number}: {answer}"
        return bool(answer)


def kills():
    """A server that is killed under clients that send again: nothing is lost, and nothing there twice."""
    senders, each, times = 16, 60, 12
    crowd = [Sender(range(1 + at * each, 1 + (at + 1) * each)) for at in range(senders)]
    server = Server(PROGRAM, PORT)
    killed = 0
    for sender in crowd:
        sender.start()
    while any(sender.is_alive() for sender in crowd):
        time.sleep(random.uniform(0.01, 0.2))
        if killed < times:
            server.end()
            server = Server(PROGRAM, PORT)
            killed += 1
    server.end()
    for sender in crowd:
        expect(sender.fault, sender.fault is None)
    expect_each_once(PROGRAM, range(1, 1 + senders * each))
    again = sum(sender.tries for sender in crowd) - senders * each
    return f"{senders} clients, killed {killed} times, {again} tries got no answer, each of {senders * each} tasks is there once"


def main():
    most = resource.getrlimit(resource.RLIMIT_NOFILE)[1]
    resource.setrlimit(resource.RLIMIT_NOFILE, (most, most))
    make_file(PROGRAM)
    parts = {"places": places, "newcomers": newcomers, "descriptors": descriptors, "readers": readers, "kills": kills}
    begun = time.monotonic()
    told = parts[PART]()
    print(f"{PART}: {told}, in {time.monotonic() - begun:.0f} s", flush=True)


main()
