#!/bin/sh
# Power is lost in a session of calls, in one behind a kill, and in the making of a file: of the writes that weren't synced some first ones
# stand, each 512 bytes by themselves. What was answered stands in the file, one call more at most, and all sent again leads where it has
# to. It needs python3 and strace, and takes 15 seconds; `sh tests/crash/power.sh TRIES` tries more than 10 of each.
set -eu

tries=${1:-10}
if ! strace -qq -o /dev/null true 2>/dev/null; then
    lacks="isn't there"
    ! command -v strace >/dev/null || lacks="may not trace"
    echo "a loss of power: skipped, since strace $lacks"
    exit 0
fi
. "$(dirname "$0")/../lib/prepare.sh"

python3 "$top/tests/crash/power.py" "$program" "$port" "$tries"
