#!/bin/sh
# Tasks of a real Taskwarrior go to a board by taskwarrior-clean and come back into an empty Taskwarrior, with nothing lost that isn't told;
# whatever the filter says can't be taken the program refuses, and nothing else. It needs python3 and task of Taskwarrior 2.6; SEED repeats a run.
set -eu

. "$(dirname "$0")/../lib/prepare.sh"

if ! task --version | grep -q '^2\.6'; then
    echo "Taskwarrior: skipped, since task 2.6 isn't there"
    exit 0
fi
python3 "$top/tests/sync/cleaning.py" "$program"
