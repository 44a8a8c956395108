#!/bin/sh
# Measures what calls cost on small and on large boards, and what a large file takes to open, beside a commit by C SQLite; prints each
# figure, and none is a failure. It needs python3 with its sqlite3, and takes minutes once the program is there; SIZE=0.1 makes a tenth
# of the large file, and ENTRIES says how long the history is.
set -eu

. "$(dirname "$0")/../lib/prepare.sh"

python3 "$top/tests/speed/cost.py" "$program" "$port" "${SIZE:-1}"
python3 "$top/tests/speed/long_history.py" "$program" "$port" "${ENTRIES:-300000}"
