#!/bin/sh
# Opens a connection that says nothing, and then one that adds a task: the second one is answered within the time below.
# The first gets no byte until it sends a message, and its answer then, unless it was ended.
# It needs python3, and takes no longer than that time once the program is there.
set -eu

# How long the second client may wait, in seconds.
longest=${LONGEST:-1}
. "$(dirname "$0")/../lib/prepare.sh"

"$program" init b.db ann ann-key-1
start_server 2

python3 - "$port" "$longest" <<'CLIENTS'
import sys
import time

from connecting import connected
from talking import adding, answer_to, has_ended, status_of

port, longest = int(sys.argv[1]), float(sys.argv[2])
with connected(port, 90) as silent, connected(port, 90) as client:
    began = time.monotonic()
    status = status_of(answer_to(client, adding(1)))
    waited = time.monotonic() - began
    if status != 200:
        sys.exit(f"expected 200, but got {status}")
    if waited > longest:
        sys.exit(f"the answer came after {waited:.1f} seconds")
    if not has_ended(silent) and status_of(answer_to(silent, adding(1))) != 200:
        sys.exit("the silent client was answered otherwise")
print(f"answered after {waited:.2f} seconds")
CLIENTS

wait "$server"
server=
echo ok
