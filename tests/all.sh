#!/bin/sh
# The test command: what the program shows by itself, then every proof from nothing, every test, and every wrong body that must be
# refused. It says in its last lines what passed and failed, and leaves the processor minutes of each crate in out/times.txt.
set -u
cd "$(dirname "$0")/.."
failed=

attempt() {
    "$@" || failed="$failed, $*"
}

# With no program of these sources the quick tests wait for the one that the proofs build.
if ./taskboard --is-there; then
    attempt sh tests/quick.sh
    attempt python3 tools/gate.py
else
    attempt python3 tools/gate.py
    attempt sh tests/quick.sh
fi

if [ -n "$failed" ]; then
    echo "FAILED: ${failed#, }"
    exit 1
fi
echo "all passed"
