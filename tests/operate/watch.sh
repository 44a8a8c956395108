#!/bin/sh
# Watches a server by contrib/bin/taskboard-watch: what it finds well, slow, old, full, large, failed and missing, each with its status; that its
# metrics count each line of the log once; and that the units tell a server's failure, once an hour. It needs python3 with its sqlite3, and
# takes some ten seconds once the program is there.
set -eu

. "$(dirname "$0")/../lib/prepare.sh"

if command -v pyflakes3 >/dev/null 2>&1; then
    pyflakes3 "$top/contrib/bin/taskboard-watch"
fi
python3 "$top/tests/operate/watch.py" "$program" "$port" "$top/contrib"
