#!/bin/sh
# Copies a file by contrib/bin/taskboard-backup while three clients add tasks to it: what was answered before the copy began is in it, and a copy that
# is served in the file's place takes the same calls again. Of copies of made-up dates the right ones stay.
# It needs python3 with its sqlite3, and takes some ten seconds once the program is there.
set -eu

. "$(dirname "$0")/../lib/prepare.sh"

if command -v shellcheck >/dev/null 2>&1; then
    shellcheck "$top/contrib/bin/taskboard-backup"
fi
python3 "$top/tests/operate/backup.py" "$program" "$port" "$top/contrib/bin/taskboard-backup"
