#!/bin/sh
# Kills the server 20 times at random moments while a client adds 500 tasks, and sends again what got no answer.
# Each task has to be there once. It needs python3, and takes seconds once the program is there.
set -eu

. "$(dirname "$0")/../lib/prepare.sh"

"$program" init b.db ann ann-key-1
python3 - "$program" "$port" "${TASKS:-500}" "${KILLS:-20}" <<'CLIENT'
import http.client
import random
import sys
import threading
import time

from drawing import seeded
from killed import Server

program = sys.argv[1]
port, tasks, kills = (int(word) for word in sys.argv[2:])


class Client:
    def __init__(self):
        self.connection = None
        self.sent_again = 0

    def send(self, number):
        """One try; None where no answer came."""
        fields = {
            "x-member": "ann",
            "x-key": "ann-key-1",
            "x-request-id": f"00000000-0000-4000-8000-{number:012d}",
        }
        body = f'{{"description":"Task {number} of many"}}'
        try:
            if self.connection is None:
                self.connection = http.client.HTTPConnection("127.0.0.1", port, timeout=10)
            self.connection.request("POST", "/boards/1/tasks", body, fields)
            answer = self.connection.getresponse()
            text = answer.read()
            return answer.status, text
        except (OSError, http.client.HTTPException):
            self.connection = None
            return None

    def add(self, number):
        """Sends a task until it is answered, and gives the time of the last try."""
        first = time.monotonic()
        while (begun := time.monotonic()) < first + 60:
            answer = self.send(number)
            if answer is not None:
                if answer[0] != 200:
                    sys.exit(f"task {number}: {answer}")
                return time.monotonic() - begun
            self.sent_again += 1
            time.sleep(0.01)
        sys.exit(f"task {number} got no answer")


seeded()
server, client = Server(program, port), Client()
try:
    took = client.add(1)
    unlucky = set(random.sample(range(2, tasks + 1), kills))
    for number in range(2, tasks + 1):
        killer = None
        if number in unlucky:
            killer = threading.Thread(target=server.kill_within, args=(0, 2 * took))
            killer.start()
        took = client.add(number)
        if killer is not None:
            killer.join()
finally:
    server.kill()
print(f"killed {server.killed} times; {client.sent_again} tries got no answer")
CLIENT

"$program" export b.db ann ann-key-1 1 >exported
for number in $(seq 1 "${TASKS:-500}"); do
    count=$(grep -c "\"description\":\"Task $number of many\"" exported || true)
    if [ "$count" != 1 ]; then
        echo "task $number is there $count times"
        exit 1
    fi
done
expect check "boards 1 tasks ${TASKS:-500} faults 0" "$("$program" check b.db)"
echo "each of ${TASKS:-500} tasks is there once"
