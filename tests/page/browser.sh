#!/bin/sh
# A page in a real browser that asks six things at once: six adds, the same six again, and views time after time. Each is answered, and
# each task is there once. It needs python3 and a Chromium, and says so where there is none; it takes seconds once the program is there.
set -eu

browser=
for name in chromium chromium-browser google-chrome; do
    browser=${browser:-$(command -v "$name" || true)}
done
if [ -z "$browser" ]; then
    echo "a page in a browser: skipped, since chromium isn't there"
    exit 0
fi

# How long the page may wait for an answer, in seconds.
longest=${LONGEST:-1}
. "$(dirname "$0")/../lib/prepare.sh"

python3 "$top/tests/page/browser.py" "$browser" "$program" "$port" "$longest"
