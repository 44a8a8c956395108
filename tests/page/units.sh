#!/bin/sh
# What of the page needs no browser, in node: rules, days, words, orders, urgency, recurrence, what changes make of tasks, imports, copies.
set -eu
cd "$(dirname "$0")/../.."
said=$(mktemp)
trap 'rm -f "$said"' EXIT
# (an older node takes a module without a package for one only where that is said)
node --experimental-default-type=module --test tests/page/core/ >"$said" 2>&1 || {
    cat "$said"
    exit 1
}
echo "the page's units: $(sed -n 's/^[#ℹ] pass \([0-9]*\)$/\1/p' "$said") tests passed"
