"""Measures what calls cost on small and on large boards, and what a large file costs: python3 cost.py PROGRAM PORT SIZE, in a folder that it
may write to. SIZE is the share of the large file that is made, 1 for all of it."""
import json
import os
import sqlite3
import statistics
import subprocess
import sys
import time

from talking import Server, answer_to, body_of, identified, make_file, message, status_of

PROGRAM, PORT, SIZE = sys.argv[1], int(sys.argv[2]), float(sys.argv[3])
WHO = ["ann", "ann-key-1"]
# Each figure is the median over so many calls.
CALLS = 200
FEW, MANY = 10, 9700
# Recurring tasks on a board, none of which wants an instance.
TEMPLATES = 50
LINKED, TARGETS = 200, 1000
BOARDS, TASKS, REPLIES = 30, 9000, 30000


def uuid_of(number, board=1):
    return f"{board:08x}-0000-4000-8000-{number:012d}"


class Calls:
    """A client on one kept-alive connection after the other, whose calls have identifiers of their own."""

    def __init__(self, server):
        self.server, self.sent, self.client = server, 0, None

    def call(self, target, body):
        if self.sent % 900 == 0:
            self.client = self.server.connect(60)
        self.sent += 1
        begun = time.perf_counter()
        answer = answer_to(self.client, message(b"POST", target.encode(), body, identified(self.sent)))
        took = time.perf_counter() - begun
        if status_of(answer) != 200:
            sys.exit(f"cost: {target} {body[:80]}: {answer[:200]}")
        return took, body_of(answer)

    def median(self, targets_and_bodies):
        return statistics.median(self.call(target, body)[0] for target, body in targets_and_bodies)


def import_tasks(calls, board, numbers, member=lambda number: {}):
    """Takes tasks in by imports of at most 1,000."""
    numbers = list(numbers)
    for first in range(0, len(numbers), 1000):
        part = numbers[first : first + 1000]
        tasks = [{"description": f"Task {number}", "uuid": uuid_of(number, board), **member(number)} for number in part]
        calls.call(f"/boards/{board}/import", json.dumps(tasks).encode())


def adding(board=1):
    return [(f"/boards/{board}/tasks", json.dumps({"description": f"New {number}"}).encode()) for number in range(CALLS)]


def on_tasks(what, body, first=1):
    return [(f"/boards/1/tasks/{uuid_of(first + number)}/{what}", body(number)) for number in range(CALLS)]


def add_templates(calls, templates):
    """Adds recurring tasks that are due tomorrow, so that each has its first instance and wants no other."""
    due = time.strftime("%Y%m%dT%H%M%SZ", time.gmtime(time.time() + 86400))
    for number in range(templates):
        calls.call("/boards/1/tasks", json.dumps({"description": f"Chore {number}", "due": due, "recur": "daily"}).encode())


def times_on(tasks, templates=0):
    """The medians of an add, a modification and a done on a board that has so many tasks beside recurring ones."""
    make_file(PROGRAM)
    with Server(PROGRAM, PORT, errors=subprocess.DEVNULL) as server:
        calls = Calls(server)
        import_tasks(calls, 1, range(1, tasks + 1))
        add_templates(calls, templates)
        times = {"add": calls.median(adding())}
        one = lambda number: f"/boards/1/tasks/{uuid_of(1 + number % tasks)}"
        edit = lambda number: (f"{one(number)}/modify", json.dumps({"description": f"Changed {number}"}).encode())
        times["modify"] = calls.median(edit(number) for number in range(CALLS))
        done = [calls.call(f"{one(number)}/done", b"")[0] for number in range(min(CALLS, tasks))]
        times["done"] = statistics.median(done)
        return times


def depending_time():
    """The median of a dependency more on a board of 9,600 tasks."""
    make_file(PROGRAM)
    with Server(PROGRAM, PORT, errors=subprocess.DEVNULL) as server:
        calls = Calls(server)
        import_tasks(calls, 1, range(1, 9601))
        on = lambda number: json.dumps({"on": uuid_of(5000 + number)}).encode()
        return calls.median(on_tasks("depend", on))


def linked_times():
    """The median of an add on a board with 200,000 links, and the time of a listing of it."""
    make_file(PROGRAM)
    with Server(PROGRAM, PORT, errors=subprocess.DEVNULL) as server:
        calls = Calls(server)
        targets = [uuid_of(number) for number in range(1, TARGETS + 1)]
        import_tasks(calls, 1, range(1, TARGETS + 1))
        for number in range(TARGETS + 1, TARGETS + 1 + LINKED, 10):
            import_tasks(calls, 1, range(number, number + 10), lambda number: {"depends": targets})
        return calls.median(adding())


def listing_time():
    """A listing of 10,000 tasks, of which 4,000 have a link, over a connection."""
    make_file(PROGRAM)
    with Server(PROGRAM, PORT, errors=subprocess.DEVNULL) as server:
        calls = Calls(server)
        link = lambda number: {"depends": [uuid_of(number - 1)]} if number > 6000 else {}
        import_tasks(calls, 1, range(1, 10001), link)
        times = []
        for _ in range(20):
            begun = time.perf_counter()
            answer_to(calls.client, message(b"GET", b"/boards/1/list"))
            times.append(time.perf_counter() - begun)
        return statistics.median(times)


def order_time(words, runs=10):
    """The median time and the most memory in MiB of an order of the program."""
    times = []
    for _ in range(runs):
        begun = time.perf_counter()
        subprocess.run([PROGRAM, *words], check=True, stdout=subprocess.DEVNULL)
        times.append(time.perf_counter() - begun)
    return statistics.median(times)


def large_file():
    """Makes boards with 9,000 tasks each and 30,000 kept replies; the memory in MiB of the server that did so."""
    make_file(PROGRAM)
    boards = max(1, round(BOARDS * SIZE))
    with Server(PROGRAM, PORT, errors=subprocess.DEVNULL) as server:
        calls = Calls(server)
        for board in range(1, boards + 1):
            if board > 1:
                calls.call("/boards", json.dumps({"title": f"Board {board}"}).encode())
            import_tasks(calls, board, range(1, TASKS + 1))
        while calls.sent < REPLIES * SIZE:
            board = 1 + int(calls.sent * boards / (REPLIES * SIZE))
            calls.call(f"/boards/{min(board, boards)}/sweep", b"")
        return boards, server.resident()


def opening():
    """How long a server takes until it listens, and its memory in MiB then and after a call on one board."""
    begun = time.perf_counter()
    with Server(PROGRAM, PORT, errors=subprocess.DEVNULL) as server:
        took = time.perf_counter() - begun
        opened = server.resident()
        answer_to(server.connect(60), message(b"POST", b"/boards/1/sweep", fields=identified(10**9)))
        return took, opened, server.resident()


def in_turn(boards):
    """The median of a call on each of the boards in turn, of which fewer stay at hand."""
    with Server(PROGRAM, PORT, errors=subprocess.DEVNULL) as server:
        connection, times = server.connect(60), []
        for number in range(2 * boards):
            begun = time.perf_counter()
            sweep = f"/boards/{1 + number % boards}/sweep".encode()
            answer_to(connection, message(b"POST", sweep, fields=identified(2 * 10**9 + number)))
            times.append(time.perf_counter() - begun)
        return statistics.median(times)


def reply_growth(more):
    """The memory in MiB that so many kept replies more take."""
    make_file(PROGRAM)
    with Server(PROGRAM, PORT, errors=subprocess.DEVNULL) as server:
        calls = Calls(server)
        for _ in range(2000):
            calls.call("/boards/1/sweep", b"")
        before = server.resident()
        for _ in range(more):
            calls.call("/boards/1/sweep", b"")
        return server.resident() - before


def commit_time():
    """The median of a commit of one row by C SQLite, with a log and each commit synced, as the store does it."""
    rows = sqlite3.connect("rows.db", isolation_level=None)
    for pragma in ("journal_mode = WAL", "synchronous = FULL"):
        rows.execute(f"PRAGMA {pragma}")
    rows.execute("CREATE TABLE row (id INTEGER PRIMARY KEY, body TEXT NOT NULL) STRICT")
    times = []
    for number in range(CALLS):
        begun = time.perf_counter()
        rows.execute("INSERT INTO row (id, body) VALUES (?1, ?2)", (number, '{"description":"Buy milk"}'))
        times.append(time.perf_counter() - begun)
    return statistics.median(times)


def tell(what, said):
    print(f"{what}: {said}", flush=True)


def milliseconds(seconds):
    return f"{seconds * 1000:.2f} ms"


def main():
    tell("a commit of one row by C SQLite", milliseconds(commit_time()))
    few, many = times_on(FEW), times_on(MANY)
    for name, took in many.items():
        tell(f"{name} at {MANY:,} to 9,900 tasks", f"{milliseconds(took)}, at {FEW} tasks {milliseconds(few[name])}, {took / few[name]:.2f} times")
    for name, took in times_on(MANY - 2 * TEMPLATES, TEMPLATES).items():
        tell(f"{name} at as many tasks, {TEMPLATES} of them recurring", f"{milliseconds(took)}, {took / few[name]:.2f} times")
    tell("depend at 9,600 tasks", milliseconds(depending_time()))
    linked = linked_times()
    tell(f"add on a board with {LINKED * TARGETS:,} links", f"{milliseconds(linked)}, {linked / few['add']:.2f} times that of {FEW} tasks")
    tell("a listing of 10,000 tasks with 4,000 links", milliseconds(listing_time()))
    tell("export of that board by the program", milliseconds(order_time(["export", "b.db", *WHO, "1"])))
    boards, written = large_file()
    size = os.path.getsize("b.db") + (os.path.getsize("b.db-wal") if os.path.exists("b.db-wal") else 0)
    took, opened, used = opening()
    tell(f"a file of {boards} boards of {TASKS:,} tasks, {size / 1e6:.0f} MB", f"opened in {took:.2f} s, {opened:.1f} MiB, {used:.1f} after a call; the server that wrote it {written:.1f}")
    tell(f"a call on each of these {boards} boards in turn", milliseconds(in_turn(boards)))
    more = round(200000 * SIZE)
    tell(f"{more:,} further kept replies", f"{reply_growth(more):.1f} MiB")


if __name__ == "__main__":
    main()
