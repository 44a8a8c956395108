#!/bin/sh
# Clients as they are: a page in a browser that asks six things at once, time after time, 32 threads of Python's http.client,
# and curl with --parallel where it's there. It needs python3, and takes seconds once the program is there.
set -eu

# How long a client may wait for an answer, in seconds.
longest=${LONGEST:-1}
. "$(dirname "$0")/../lib/prepare.sh"

"$program" init b.db ann ann-key-1
start_server 1000
python3 "$top/tests/serve/clients.py" "$port" "$longest"

if command -v curl >/dev/null 2>&1; then
    begun=$(date +%s%N)
    # The numbers of tasks are hexadecimal, so all of these are there.
    curl --silent --no-progress-meter --show-error --parallel --parallel-immediate --parallel-max 24 --max-time 10 \
        --write-out '%{http_code}\n' --output /dev/null --header 'x-member: ann' --header 'x-key: ann-key-1' \
        "http://127.0.0.1:$port/boards/1/tasks/00000001-0000-8000-8000-[000000000001-000000000096]" >statuses
    count=$(grep -c '^200$' statuses || true)
    if [ "$count" != 96 ]; then
        echo "curl had $count of 96 answers"
        exit 1
    fi
    echo "curl: 96 answers over up to 24 connections at once, in $((($(date +%s%N) - begun) / 1000000)) ms"
else
    echo "messages by curl: skipped, since curl isn't there"
fi

kill "$server"
wait "$server" 2>/dev/null || true
server=
expect check "boards 1 tasks 320 faults 0" "$("$program" check b.db)"
