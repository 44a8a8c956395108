"""Measures the server under many clients at once: python3 load.py PROGRAM PORT SECONDS, in a folder that it may write to."""
import contextlib
import resource
import statistics
import sys
import time

from crowding import Idle, Slow, burst
from talking import Server, adding, answer_to, expect_each_once, make_file, message, status_of

PROGRAM, PORT, SLOW_SECONDS = sys.argv[1], int(sys.argv[2]), float(sys.argv[3])
# Each figure is the median over so many bursts.
BURSTS = 3
CROWD = 64
BESIDE = 500
PLACES = 512
HALF = 512 * 1024


def compare(clients, beside, pause, adds):
    """Bursts over two servers in turn, one client alone and these clients: the adds a second of both, and how long each of the latter waited."""
    alone, together, waits = [], [], []
    for name in ("alone.db", "b.db"):
        make_file(PROGRAM, name)
    with Server(PROGRAM, PORT, "alone.db") as single, Server(PROGRAM, PORT + 1) as server, contextlib.ExitStack() as ending:
        if beside:
            ending.callback(beside(server, BESIDE).end)
        for number in range(BURSTS):
            time.sleep(pause if number else 0)
            first = 1 + number * adds
            alone.append(burst(single, 1, first, adds)[0])
            rate, waited = burst(server, clients, first, adds)
            together.append(rate)
            waits += waited
    expect_each_once(PROGRAM, range(1, 1 + BURSTS * adds))
    return statistics.median(alone), statistics.median(together), waits


def tell(what, alone, together):
    print(f"{what}: {together:,.0f} adds a second, {together / alone:.2f} times one alone", flush=True)


def adds_in_a_second():
    """How many a burst has, which takes a second or less: as many for each of the crowd, and no more than 2,048."""
    make_file(PROGRAM)
    with Server(PROGRAM, PORT) as server:
        rate, _ = burst(server, 1, 1, 256)
    return min(max(int(rate / CROWD), 4), 32) * CROWD


def first_answer():
    """How long a second client waits beside an idle one."""
    make_file(PROGRAM)
    with Server(PROGRAM, PORT) as server, server.connect(90), server.connect(90) as second:
        begun = time.perf_counter()
        answer = answer_to(second, adding(1))
        took = time.perf_counter() - begun
        if status_of(answer) != 200:
            sys.exit(f"the second client got {answer}")
    expect_each_once(PROGRAM, [1])
    return took


def growth(server, clients):
    """The memory in MiB that the server takes more once these clients have done what they do, and it rests."""
    before = server.resident()
    ending = clients(server)
    time.sleep(2)
    grown = server.resident() - before
    ending()
    return grown


def idle_after_answers(server):
    idle = Idle(server, PLACES)
    for client in idle.clients:
        answer_to(client, message(b"GET", b"/boards/1/list"))
    return idle.end


def half_messages(server):
    """Half of a message of 1 MiB from each place, or what the server takes of it."""
    idle = Idle(server, PLACES)
    head = message(b"POST", b"/boards/1/import", fields=b"").replace(b"content-length: 0", b"content-length: %d" % (2 * HALF))
    half = memoryview(head + b" " * HALF)
    left = {client: half for client in idle.clients}
    for client in idle.clients:
        client.setblocking(False)
    last = time.monotonic()
    while left and time.monotonic() < last + 1:
        for client in list(left):
            with contextlib.suppress(OSError):
                left[client] = left[client][client.send(left[client]) :]
                last = time.monotonic()
            if not left[client]:
                del left[client]
    return idle.end


def tell_memory():
    for what, clients in (("idle connections", idle_after_answers), ("half-sent messages of 1 MiB", half_messages)):
        make_file(PROGRAM)
        with Server(PROGRAM, PORT) as server:
            with server.connect() as client:
                answer_to(client, adding(1))
            began = server.resident()
            print(f"memory with {PLACES} {what}: {began:.1f} MiB and {growth(server, clients):.1f} more", flush=True)
        expect_each_once(PROGRAM, [1])


def main():
    most = resource.getrlimit(resource.RLIMIT_NOFILE)[1]
    resource.setrlimit(resource.RLIMIT_NOFILE, (most, most))
    waited = first_answer()
    print(f"second client's first answer beside an idle one: {waited * 1000:,.1f} ms", flush=True)
    adds = adds_in_a_second()
    alone, together, waits = compare(CROWD, None, 0, adds)
    print(f"one client alone: {1000 / alone:.3f} ms an add", flush=True)
    tell(f"{CROWD} clients at once", alone, together)
    median, worst = statistics.median(waits), max(waits)
    print(f"of their waits the median is {median * 1000:,.1f} ms, the worst {worst * 1000:,.1f} ms, {worst / median:,.1f} times the median", flush=True)
    if waited > 5:
        print("the rest isn't measured: connections are served one after the other")
        return
    for what, beside, pause in (("are idle", Idle, 0), ("send a byte each second", Slow, SLOW_SECONDS / 2)):
        alone, together, _ = compare(1, beside, pause, adds)
        tell(f"one client beside {BESIDE} that {what}", alone, together)
    tell_memory()


main()
