#!/bin/sh
# What `tb import --check`, `--clean` and `--skip` do, beside the filter taskwarrior-clean: wrong tasks of all kinds, drawn ones, and those of a
# real Taskwarrior where task 2.6 is there. It needs python3; SEED repeats a run.
set -eu

. "$(dirname "$0")/../lib/prepare.sh"

serve_new_file
python3 "$top/tests/sync/own_cleaning.py" "$program" "$port"
