#!/bin/sh
# `send .. - own-key`: the client is killed at each system call by which it writes, renames, syncs or sends, and again while it finishes;
# the line is cut before the server acted and after it. After each the next order gets in by the key file, and the old key is refused in
# the end. It needs python3, and for the kills strace.
set -eu

. "$(dirname "$0")/../lib/prepare.sh"

if ! "$program" send --help 2>/dev/null | grep -q 'own-key alone'; then
    echo "skipped, since the program's own-key doesn't make a key yet"
    exit 0
fi
serve_new_file
python3 "$top/tests/run/own_key.py" "$program" "$port" "${TRIES:-20}"
