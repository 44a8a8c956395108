"""A page in a browser, and 32 threads, as they talk to a server: python3 clients.py PORT SECONDS."""
import http.client
import json
import sys
import threading
import time

from connecting import connected
from talking import description

PORT, LONGEST = int(sys.argv[1]), float(sys.argv[2])
MEMBER = {"x-member": "ann", "x-key": "ann-key-1"}
THREADS = 32
EACH = 10


class Fetcher(threading.Thread):
    """One kept connection of a client, which sends its messages one after the other and keeps what they were answered."""

    def __init__(self, connection, messages, start=None):
        super().__init__(daemon=True)
        self.connection, self.messages, self.start_together = connection, messages, start
        self.answers, self.worst = [], 0

    def run(self):
        if self.start_together:
            self.start_together.wait()
        for method, target, body, fields in self.messages:
            begun = time.monotonic()
            self.connection.request(method, target, body, MEMBER | fields)
            answer = self.connection.getresponse()
            text = answer.read()
            self.worst = max(self.worst, time.monotonic() - begun)
            self.answers.append((answer.status, answer.will_close, text))


def adding(number):
    fields = {"content-type": "application/json", "x-request-id": f"00000000-0000-4000-8000-{number:012d}"}
    return "POST", "/boards/1/tasks", json.dumps({"description": description(number)}), fields


def getting(target):
    return "GET", target, None, {}


def fetch(fetchers):
    """Lets all of them send at once, and gives the longest wait of any."""
    for fetcher in fetchers:
        fetcher.start()
    for fetcher in fetchers:
        fetcher.join(60)
    for fetcher in fetchers:
        if [(status, closes) for status, closes, _ in fetcher.answers] != [(200, False)] * len(fetcher.messages):
            sys.exit(f"answers: {fetcher.answers}")
    worst = max(fetcher.worst for fetcher in fetchers)
    if worst > LONGEST:
        sys.exit(f"an answer came after {worst:.2f} s")
    return worst


def connect():
    """A connection that sends on what it has: one that the server ends is a fault."""
    connection = http.client.HTTPConnection("127.0.0.1", PORT, timeout=90)
    connection.connect()
    connection.auto_open = 0
    return connection


def page(rounds):
    """Asks six things at once over six connections, which stay, and rests between."""
    views = [getting(f"/boards/1/{view}") for view in ("list", "todo", "export")]
    connections = [connect() for _ in range(6)]
    worst = 0
    for number in range(rounds):
        start = threading.Barrier(6)
        asked = [*views, getting("/boards/1/tasks/00000001-0000-8000-8000-000000000001"), views[0], adding(1)]
        worst = max(worst, fetch([Fetcher(connection, [message], start) for connection, message in zip(connections, asked)]))
        time.sleep(0.2)
    return worst, connections


def threads():
    """Adds tasks by threads at once, and reads each back over the connection that added it."""
    start = threading.Barrier(THREADS)
    shares = [range(1 + at * EACH, 1 + (at + 1) * EACH) for at in range(THREADS)]
    adders = [Fetcher(connect(), [adding(number) for number in share], start) for share in shares]
    worst = fetch(adders)
    added = [[json.loads(text)["uuid"] for _, _, text in adder.answers] for adder in adders]
    readers = [Fetcher(adder.connection, [getting(f"/boards/1/tasks/{uuid}") for uuid in uuids]) for adder, uuids in zip(adders, added)]
    worst = max(worst, fetch(readers))
    for reader, share in zip(readers, shares):
        found = [json.loads(text)["description"] for _, _, text in reader.answers]
        if found != [description(number) for number in share]:
            sys.exit(f"tasks {share} are {found}")
    return worst


connected(PORT, 10).close()
first = Fetcher(connect(), [adding(1)])
fetch([first])
worst, kept = page(8)
print(f"a page: 8 times six answers at once over six connections, the longest wait {worst:.3f} s", flush=True)
worst = threads()
print(f"{THREADS} threads: {THREADS * EACH} tasks added and read back, the longest wait {worst:.3f} s", flush=True)
for connection in kept:
    connection.close()
