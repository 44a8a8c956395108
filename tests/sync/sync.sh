#!/bin/sh
# Bridges between a board and other tools, with the real programs: a week of random edits on both sides, runs and servers that are stopped
# at random, and edits while a run goes on; at the end of each day both sides say the same, with each task once and no edit lost without a
# word (docs/TESTING.md). Days are the same in zones east and west, and lines of each kind stay what they are. It needs python3, task of
# Taskwarrior 2.6 and todo-txt, each for its part, and takes minutes;
# SYNC_TASKS and SYNC_DAYS make it smaller, SEED repeats a run.
set -eu

. "$(dirname "$0")/../lib/prepare.sh"
bridges=$top/contrib/bridges
tasks=${SYNC_TASKS:-800}
days=${SYNC_DAYS:-7}

# Each part works in a folder of its own.
part() {
    mkdir "$1"
    (cd "$1" && python3 "$top/tests/sync/$1" "$program" "$port" "$tasks" "$days")
}

PYTHONPYCACHEPREFIX=$folder/compiled python3 -m compileall -q "$bridges" || fail "contrib/bridges can't be compiled"
for script in taskwarrior-sync taskwarrior-clean todotxt-sync taskboard-remind; do
    python3 "$bridges/$script" --help >help || fail "$script --help"
    grep -q "^usage: $script " help || fail "$script says nothing of its words"
done
if is_there pyflakes3; then
    pyflakes3 "$bridges"/taskboard_bridges/*.py "$bridges/taskwarrior-sync" "$bridges/taskwarrior-clean" "$bridges/todotxt-sync" "$bridges/taskboard-remind"
else
    echo "what pyflakes3 says: skipped, since pyflakes3 isn't there"
fi
if is_there mypy; then
    (cd "$bridges" && mypy --cache-dir "$folder/types" --check-untyped-defs --no-error-summary taskboard_bridges)
else
    echo "what mypy says: skipped, since mypy isn't there"
fi

if is_there task && task --version | grep -q '^2\.6'; then
    part sync_days.py
    part sync_boards.py
    part sync_scenes.py
    part syncing.py
else
    echo "Taskwarrior: skipped, since task 2.6 isn't there"
fi
part sync_answers.py
part sync_units.py
part sync_lines.py
part sync_words.py
if is_there todo-txt || is_there todo.sh; then
    part syncing_todotxt.py
else
    echo "todo.txt: skipped, since todo-txt isn't there"
fi
