#!/bin/sh
# Measures the server under many clients at once, and prints each figure. It fails only where a task is lost or doubled.
# It needs python3, and takes two minutes at most once the program is there.
set -eu

# How long the slow clients send, in seconds.
slow=${SLOW:-10}
. "$(dirname "$0")/../lib/prepare.sh"

python3 "$top/tests/speed/load.py" "$program" "$port" "$slow"
