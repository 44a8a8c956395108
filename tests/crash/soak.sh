#!/bin/sh
# 16 clients that add, list, complete and send again, on a server that is killed time after time and then runs on: sh soak.sh MINUTES,
# 1 where none are given. At the end nothing is lost or doubled, and the server's memory is that of a new one over its file. It needs python3.
set -eu

minutes=${1:-1}
. "$(dirname "$0")/../lib/prepare.sh"

python3 "$top/tests/crash/soak.py" "$program" "$port" "$minutes"
