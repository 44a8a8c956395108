#!/bin/sh
# Sends each worked script over two files in memory of which one stops, or fails once, at each of its calls in turn, and stops the session
# behind that too; what was answered stands each time, and all sent again is answered as written (docs/TESTING.md). It needs python3 and
# the Rattle kit; `sh tests/crash/stops.sh NAME..` sends these scripts alone, and with ONCE=1 no session is
# stopped behind a stop. PROGRAM is the program of the crate tests, where it is built already.
set -eu

top=$(cd "$(dirname "$0")/../.." && pwd)

# Builds the program where it is proved.
program=${PROGRAM:-$top/crates/tests/out/tests}
if [ -z "${PROGRAM:-}" ]; then
    (cd "$top/crates/tests" && rt run -- --memory </dev/null)
fi
python3 "$top/tests/crash/stops.py" "$program" "$@"
