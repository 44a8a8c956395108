#!/bin/sh
# Imports texts that one call doesn't take, and tries what is wrong with them. It needs python3, and takes seconds once the program is there.
set -eu

. "$(dirname "$0")/../lib/prepare.sh"

python3 "$top/tests/run/importing.py" "$program"
