#!/bin/sh
# Clients that leave large answers untaken, or send long messages and never end them: nobody else waits for them, and the server's memory
# stays below the number that it tells at its start. It needs python3, and takes a minute once the program is there.
set -eu

# How many times longer than on an idle machine an answer may take.
longest=${LONGEST:-1}
# Which of the four are tried, how many MiB the large answer has, how many clients leave theirs, and how many send and never end.
parts=${PARTS:-unread many strangers idle}
export LARGE="${LARGE:-134}" READERS="${READERS:-400}" SENDERS="${SENDERS:-500}"
. "$(dirname "$0")/../lib/prepare.sh"

for part in $parts; do
    python3 "$top/tests/hostile/rooms.py" "$program" "$port" "$longest" "$part"
done
