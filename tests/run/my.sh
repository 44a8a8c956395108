#!/bin/sh
# A day with `tb`, over a real server: the settings from a file and from the environment, each word, days by their names, what is told of
# refusals and of wrong words, and that a second person sees it. It needs python3.
set -eu

. "$(dirname "$0")/../lib/prepare.sh"

serve_new_file
python3 "$top/tests/run/my.py" "$program" "$port"
