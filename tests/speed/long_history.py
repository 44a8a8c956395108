"""Measures what a long history costs: long_history.py PROGRAM PORT ENTRIES, in a folder that it may write to.

ENTRIES is how many calls the history has: a tenth of them are about one task, the others about another."""
import json
import statistics
import subprocess
import sys
import time

from cost import CALLS, Calls, adding, milliseconds, tell, uuid_of
from talking import Server, answer_to, body_of, make_file, message, status_of

PROGRAM, PORT, ENTRIES = sys.argv[1], int(sys.argv[2]), int(sys.argv[3])
VIEWERS, WATCHED, BETWEEN = 50, 15, 3
ONE, OTHER, RARE = (uuid_of(number) for number in (1, 2, 3))


def view(client, target):
    begun = time.perf_counter()
    answer = answer_to(client, message(b"GET", target.encode()))
    took = time.perf_counter() - begun
    if status_of(answer) != 200:
        sys.exit(f"long_history: {target}: {answer[:200]}")
    return took, json.loads(body_of(answer))


def times_of(server, *targets):
    """The median of each view, asked in turn on one connection, so that what else the machine does meets all."""
    client = server.connect(60)
    took = [[view(client, target)[0] for target in targets] for _ in range(CALLS)]
    return map(statistics.median, zip(*took))


def watched(server, last):
    """The share of a processor that viewers of one board cost, each of whom asks what is new every few seconds."""
    crowd = [server.connect(60) for _ in range(VIEWERS)]
    before, begun = server.seconds_used(), time.monotonic()
    for number in range(VIEWERS * WATCHED // BETWEEN):
        time.sleep(max(0, begun + number * BETWEEN / VIEWERS - time.monotonic()))
        view(crowd[number % VIEWERS], f"/boards/1/history/{last + 1}")
    return (server.seconds_used() - before) / (time.monotonic() - begun)


def lengthen(calls):
    """Has calls noted until there are so many entries."""
    for number in range(ENTRIES - 1):
        calls.call(f"/boards/1/tasks/{ONE if number % 20 < 2 else OTHER}/{('start', 'stop')[number % 2]}", b"")
    calls.call(f"/boards/1/tasks/{RARE}/start", b"")


def main():
    make_file(PROGRAM)
    with Server(PROGRAM, PORT, errors=subprocess.DEVNULL) as server:
        calls = Calls(server)
        for uuid in (ONE, OTHER, RARE):
            calls.call("/boards/1/tasks", json.dumps({"description": uuid, "uuid": uuid}).encode())
        first, small = calls.median(adding()), server.resident()
        lengthen(calls)
        added = calls.median(adding())
        tell(f"add behind {ENTRIES:,} entries", f"{milliseconds(added)}, {added / first:.2f} times one behind few; {server.resident() - small:.1f} MiB more")
        last = view(server.connect(60), "/boards/1/history")[1]["last"]
        news, me = times_of(server, f"/boards/1/history/{last + 1}", "/me")
        tell("what is new, where nothing is", f"{milliseconds(news)}, {news / me:.2f} times GET /me")
        rare, often, page = times_of(server, f"/boards/1/tasks/{RARE}/history", f"/boards/1/tasks/{ONE}/history", f"/boards/1/history/{last // 2}")
        tell("the history of a task with one entry, of one with a tenth of all, and a page of the board's", ", ".join(map(milliseconds, (rare, often, page))))
        tell(f"{VIEWERS} viewers who ask every {BETWEEN} s", f"{100 * watched(server, last):.1f} % of a processor")
    begun = time.perf_counter()
    with Server(PROGRAM, PORT, errors=subprocess.DEVNULL) as server:
        tell("the next opening", f"{time.perf_counter() - begun:.2f} s, {server.resident():.1f} MiB")


main()
