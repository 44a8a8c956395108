#!/bin/sh
# A machine that fails the program while it makes a file, imports, and serves a session of calls: system calls that fail, memory and disk
# that are refused, and kills. What was answered stands in the file that it leaves, one call more at most, and all sent again leads where
# a run without a fault leads. It needs python3, for most of it strace, and for a full disk root; `sh tests/crash/faults.sh TRIES` tries more
# than 2 of each kind, which take under a minute.
set -eu

# How often each way is tried at least.
tries=${TRIES:-${1:-2}}
kinds=${KINDS:-kills memory size disk streams}
traced=${TRACED-calls stops}
. "$(dirname "$0")/../lib/prepare.sh"

if [ -n "$traced" ] && ! strace -qq -o /dev/null true 2>/dev/null; then
    lacks="isn't there"
    ! command -v strace >/dev/null || lacks="may not trace"
    echo "system calls that fail, and stops at them: skipped, since strace $lacks"
    traced=
fi
python3 "$top/tests/crash/faults.py" "$program" "$port" "$tries" $traced $kinds
