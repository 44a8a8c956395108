#!/bin/sh
# Adds 1,000 tasks over one kept-alive connection to a real file, and commits 1,000 rows by Python's sqlite3 alone, in one run.
# Then imports 1,000 tasks by lines, and sends heads of 15,000 bytes in pieces of 100. Prints each time; none is a failure.
# It needs python3, and takes seconds once the program is there.
set -eu

adds=${ADDS:-1000}
. "$(dirname "$0")/../lib/prepare.sh"

"$program" init b.db ann ann-key-1
"$program" serve b.db --port "$port" --connections 1 &
server=$!
python3 - "$port" "$adds" <<'CLIENT'
import http.client
import sys
import time

port, adds = int(sys.argv[1]), int(sys.argv[2])
connection = http.client.HTTPConnection("127.0.0.1", port, timeout=60)
for _ in range(100):
    try:
        connection.connect()
        break
    except ConnectionRefusedError:
        time.sleep(0.05)

begun = time.monotonic()
for number in range(1, adds + 1):
    fields = {
        "x-member": "ann",
        "x-key": "ann-key-1",
        "x-request-id": f"00000000-0000-4000-8000-{number:012d}",
    }
    body = f'{{"description":"Task {number} of many"}}'
    connection.request("POST", "/boards/1/tasks", body, fields)
    answer = connection.getresponse()
    text = answer.read()
    if answer.status != 200 or (number < 1000 and answer.will_close):
        sys.exit(f"add {number}: {answer.status} {text}")
print(f"{adds} adds over one connection: {time.monotonic() - begun:.2f} s")
CLIENT
wait "$server"
server=

python3 - "$adds" <<'COMMITS'
import sqlite3
import sys
import time

# As the store does it: a log, and each commit synced.
rows = sqlite3.connect("rows.db", isolation_level=None)
rows.execute("PRAGMA journal_mode = WAL")
rows.execute("PRAGMA synchronous = FULL")
rows.execute("CREATE TABLE row (id INTEGER PRIMARY KEY, body TEXT NOT NULL) STRICT")
body = '{"description":"Buy milk","status":"pending"}'
begun = time.monotonic()
for number in range(int(sys.argv[1])):
    rows.execute("INSERT INTO row (id, body) VALUES (?1, ?2)", (number, body))
print(f"{sys.argv[1]} commits of a row by Python's sqlite3 alone: {time.monotonic() - begun:.2f} s")
COMMITS

checked=$("$program" check b.db)
if [ "$checked" != "boards 1 tasks $adds faults 0" ]; then
    echo "check: $checked"
    exit 1
fi

python3 - "$program" "$port" <<'IMPORT'
import socket
import subprocess
import sys
import time

program, port = sys.argv[1], int(sys.argv[2])
TASK = '{"annotations":[{"description":"Open at 8:00","entry":"20260104T120000Z"}],"description":"Buy shoes","tags":["home","money"],"uuid":"UUID"}\n'


def best_of_five(what):
    return min(what() for _ in range(5))


def importing():
    """One import of 1,000 tasks into a new file, which is made and opened as well."""
    for name in ("i.db", "i.db-wal"):
        subprocess.run(["rm", "-f", name], check=True)
    subprocess.run([program, "init", "i.db", "ann", "ann-key-1"], check=True)
    words = [program, "import", "i.db", "ann", "ann-key-1", "00000000-0000-4000-8000-000000000001", "1", "json"]
    text = "".join(TASK.replace("UUID", f"00000001-0000-8000-8000-{number:012}") for number in range(1, 1001))
    begun = time.monotonic()
    subprocess.run(words, input=text.encode(), check=True, stdout=subprocess.DEVNULL)
    return time.monotonic() - begun


def heads(fields, line):
    """A hundred heads that many fields long, in pieces of 100 bytes, each on a connection of its own."""
    head = b"GET /boards/1/list HTTP/1.1\r\nHost: a\r\n" + line * fields + b"\r\n"
    server = subprocess.Popen([program, "serve", "i.db", "--port", str(port), "--connections", "100"])
    begun = None
    for _ in range(100):
        while True:
            try:
                client = socket.create_connection(("127.0.0.1", port), timeout=60)
                break
            except ConnectionRefusedError:
                time.sleep(0.02)
        begun = begun or time.monotonic()
        with client:
            for at in range(0, len(head), 100):
                client.sendall(head[at : at + 100])
            client.shutdown(socket.SHUT_WR)
            while client.recv(65536):
                pass
    took = time.monotonic() - begun
    server.wait(timeout=60)
    return took


print(f"1,000 tasks imported by lines: {best_of_five(importing):.3f} s")
print(f"100 heads of 61 fields in pieces of 100 bytes: {heads(60, b'a: ' + b'b' * 245 + bytes((13, 10))):.2f} s")
print(f"100 heads of 5,001 fields in pieces of 100 bytes: {heads(5000, b'a:' + bytes((10,))):.2f} s")
IMPORT
