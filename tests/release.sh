#!/bin/sh
# Makes dist/ anew: the program of these sources, compressed, and a manifest that says what it is made of. Builds it where it isn't built.
# docs/times.txt gets the processor minutes of each crate, where the last run of the test command passed these sources.
set -eu
cd "$(dirname "$0")/.."

program=$(./taskboard --where)
mkdir -p dist
gzip -9nc "$program" >dist/taskboard.gz
{
    # (as the newest release of the changes is headed)
    sed -n 's/^## \([0-9][0-9.]*\) (\([0-9-]*\))$/release \1\ndate \2/p' CHANGELOG.md | head -n 2
    echo "program $(sha256sum "$program" | cut -d ' ' -f 1)"
    echo "sources $(./taskboard --sources)"
    echo "logic $(rt version | sed -n 's/.* logic //p')"
    echo "kit $(rt version | cut -d ' ' -f 1)"
    echo "glibc $(grep -ao 'GLIBC_[0-9.]*' "$program" | cut -d _ -f 2 | sort -Vu | tail -n 1)"
} >dist/manifest
cat dist/manifest

if grep -q "sources $(./taskboard --sources)" out/times.txt 2>/dev/null; then
    cp out/times.txt docs/times.txt
else
    echo "docs/times.txt stays: out/times.txt isn't of a run that passed these sources" >&2
fi
