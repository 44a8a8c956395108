#!/bin/sh
# The page's copy of a board follows the board's history: after random calls of another person, imports, sweeps and waits that end among them, and
# a role that is taken and given back, it is like the export. It needs node. With CALLS more of them are made, with SEED others.
set -eu
. "$(dirname "$0")/../lib/prepare.sh"

serve_new_file
python3 -c "import sys; sys.path.insert(0, '$top/tests/lib'); from connecting import connected; connected($port, 10).close()"
node --experimental-default-type=module "$top/tests/page/copies.mjs" "$port" "${CALLS:-2000}" "${SEED:-$(date +%s)}"
