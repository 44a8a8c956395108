#!/bin/sh
# What it costs the page to follow a board of 10,000 tasks: follow.sh [PAGE..]. Other folders of a page are measured beside the repository's own.
set -eu
. "$(dirname "$0")/../lib/prepare.sh"

PYTHONPATH=$top/tests/lib python3 "$top/tests/speed/follow.py" "$(command -v chromium)" "$program" "$port" "${LONGEST:-1}" "$top/page" "$@"
