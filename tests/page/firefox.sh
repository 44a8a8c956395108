#!/bin/sh
# The page in Firefox: signing in, adding, completing and its way back. It needs python3 and a Firefox, and says so where there is none.
set -eu

browser=
for name in firefox-esr firefox; do
    browser=${browser:-$(command -v "$name" || true)}
done
if [ -z "$browser" ]; then
    echo "the page in Firefox: skipped, since firefox-esr isn't there"
    exit 0
fi

# How many times longer than on a machine without other work things may take.
longest=${LONGEST:-1}
. "$(dirname "$0")/../lib/prepare.sh"

python3 "$top/tests/page/firefox.py" "$browser" "$program" "$port" "$longest" "$top/page"
