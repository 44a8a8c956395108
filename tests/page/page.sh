#!/bin/sh
# The page in a real browser, as people use it: signing in, adding, completing, people and roles, imports, a server that is killed between
# a click and its answer, tabs beside each other, hostile texts, and a board of 10,000 tasks. It needs python3, a Chromium and its
# chromedriver, and says so where there is none. With SHOTS it leaves pictures of each view, 1,280 and 390 wide, in that folder.
set -eu

browser=
for name in chromium chromium-browser google-chrome; do
    browser=${browser:-$(command -v "$name" || true)}
done
lacks=
[ -n "$browser" ] || lacks=chromium
[ -n "$lacks" ] || command -v chromedriver >/dev/null || lacks=chromedriver
if [ -n "$lacks" ]; then
    echo "the page in a browser: skipped, since $lacks isn't there"
    exit 0
fi

# How many times longer than on a machine without other work things may take.
longest=${LONGEST:-1}
. "$(dirname "$0")/../lib/prepare.sh"

# Where the words are an order the file is what is wrong.
status=0
"$program" serve missing.db --port "$port" --page "$top/page" 2>/dev/null || status=$?
if [ "$status" -eq 2 ]; then
    echo "the page in a browser: skipped, since the program serves no page"
    exit 0
fi

python3 "$top/tests/page/page_content.py" "$top/page"
python3 "$top/tests/page/page.py" "$browser" "$program" "$port" "$longest" "$top/page"
