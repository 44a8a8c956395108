#!/bin/sh
# Ships a file of boards by contrib/ship/taskboard-ship: over ends of either side, checkpoints, a disk that is full, a damaged series and real ssh;
# then under load, where all is killed at a random moment and the file is lost, also while the line is cut, the receiver killed, and files may
# not grow. What is restored has to be the state after a prefix of the calls, 2 seconds short at most. It needs python3 with its sqlite3,
# and takes half a minute. `sh tests/operate/ship.sh 200` tries 200 times in place of 10, one after the other, and measures how much shipping slows a server.
set -eu

tries=${1:-10}
# How many go side by side: where only a few are tried, their figures don't count.
jobs=${JOBS:-$([ "$tries" -gt 20 ] && echo 1 || echo 4)}
. "$(dirname "$0")/../lib/prepare.sh"

ship=$top/contrib/ship/taskboard-ship
failed=
# Runs a test in a folder of its own, with the words that it needs.
run_in() {
    mkdir "$1"
    cd "$1"
    shift
    exec python3 "$@"
}

running=
for scenes in follows "goes_back thins finds_cuts" "stays_behind_faults full_disk real_ssh"; do
    (run_in "${scenes%% *}" "$top/tests/operate/ship_scenes.py" "$program" "$(python3 "$top/tests/lib/connecting.py")" "$ship" $scenes) &
    running="$running $!"
done
if [ "$jobs" -eq 1 ]; then
    for each in $running; do wait "$each" || failed=yes; done
    running=
fi
(run_in kills "$top/tests/operate/ship.py" "$program" "$ship" "$tries" "$jobs") || failed=yes
for each in $running; do wait "$each" || failed=yes; done
if [ "$tries" -gt 20 ]; then
    (run_in speed "$top/tests/operate/ship_speed.py" "$program" "$ship" 45) || failed=yes
fi
[ -z "$failed" ]
