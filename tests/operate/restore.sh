#!/bin/sh
# Restores copies by contrib/bin/taskboard-restore: it refuses while somebody has the file open, is killed at each renaming and run again, and
# tells since when answers are gone; clients then send their calls again. What was restored from stays when contrib/bin/taskboard-backup thins.
# It needs python3, and root for what one user can't see of another's processes. It takes some ten seconds once the program is there.
set -eu

. "$(dirname "$0")/../lib/prepare.sh"
cp "$program" taskboard
mkdir bin lib
cp "$top/contrib/bin/taskboard-backup" "$top/contrib/bin/taskboard-restore" bin
cp "$top/contrib/lib/spare-numbers" lib

if command -v shellcheck >/dev/null 2>&1; then
    shellcheck bin/taskboard-restore
fi
python3 "$top/tests/operate/restore.py" "$folder/taskboard" "$port"
