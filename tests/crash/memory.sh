#!/bin/sh
# Refuses each allocation of worked scripts in turn, of a server over a file and of the script over lists: the answer is that there was no
# memory, and nothing has changed, or the script's own; the same server goes on, and all sent again is answered as written. It needs
# python3 and a C compiler; `sh tests/crash/memory.sh 1` refuses each allocation of a server's start too; without a number, as the test
# command calls it by tests/quick.sh, one of 100.
set -eu

step=${1:-100}
examples=${EXAMPLES:-buy_milk rent_month_end import_of_three todo_lines sweep stopped_at_each_write}
. "$(dirname "$0")/../lib/prepare.sh"

cc -shared -fPIC -O1 -o memory.so "$top/tests/crash/memory.c"
# shellcheck disable=SC2086
python3 "$top/tests/crash/memory.py" "$program" "$port" ./memory.so "$step" $examples
