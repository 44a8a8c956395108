#!/bin/sh
# The order `send`: calls and views by the words of a script, tasks that are typed, tasks by their places, keys that stand on no command
# line, a server that isn't there; a server that is killed 50 times under 4 clients that send, whose tasks have to be there once each;
# and a proxy that cuts an answer after every byte. It needs python3, and takes a minute once the program is there.
set -eu

. "$(dirname "$0")/../lib/prepare.sh"

if ! "$program" send --help >/dev/null 2>&1; then
    echo "skipped, since the program has no order 'send' yet"
    exit 0
fi
"$program" init b.db ann ann-key-1
python3 "$top/tests/run/sending.py" "$program" "$port" "${TASKS:-100}" "${KILLS:-50}"
checked=$("$program" check b.db)
case $checked in
*"faults 0") ;;
*)
    echo "check: $checked"
    exit 1
    ;;
esac
