#!/bin/sh
# More clients than the server has places for, fewer descriptors than it wants, clients that send and never read, and a server that is
# killed under 16 clients that send again. It needs python3, and takes under 40 seconds once the program is there.
set -eu

# How long a client that the server has a place for may wait for an answer, in seconds.
longest=${LONGEST:-1}
# Which of the five are tried.
parts=${PARTS:-places newcomers descriptors readers kills}
. "$(dirname "$0")/../lib/prepare.sh"

for part in $parts; do
    python3 "$top/tests/hostile/crowd.py" "$program" "$port" "$longest" "$part"
done
