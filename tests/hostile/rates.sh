#!/bin/sh
# Has 64 connections guess keys while a known caller, a browser and somebody who was never seen ask for theirs: at most 100 guesses a second
# are answered, 500 at once, and only guesses wait. Then has persons add too much: their calls wait, and nobody else's. It needs python3,
# and takes half a minute once the program is there.
set -eu

# How many times longer than on an idle machine an answer may take.
longest=${LONGEST:-1}
. "$(dirname "$0")/../lib/prepare.sh"

python3 "$top/tests/hostile/guessing.py" "$program" "$port" "$longest"
rm -rf page
python3 "$top/tests/hostile/charging.py" "$program" "$port" "$longest"
echo ok
