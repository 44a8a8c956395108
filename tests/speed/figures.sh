#!/bin/sh
# Runs the tests that print figures, one after the other, and writes what they print into a file, below the machine, its load and the
# program: sh tests/speed/figures.sh FILE [TEST..], for instance sh tests/speed/figures.sh figures.txt speed/speed.sh. It takes some six minutes once the program
# is there; figures are best taken where nothing else runs.
set -eu
cd "$(dirname "$0")/../.."

file=$1
shift
[ $# -gt 0 ] || set -- speed/cost.sh speed/load.sh speed/speed.sh hostile/silent.sh hostile/crowd.sh serve/clients.sh
program=$(./taskboard --where)
trap 'rm -f "$file.new" "$file.part"' EXIT

{
    echo "$(date -u +%Y-%m-%d), $(nproc) cores,$(sed -n 's/^model name[^:]*://p' /proc/cpuinfo | head -n 1), $(uname -sr)"
    echo "load average at the beginning: $(cut -d' ' -f1-3 /proc/loadavg)"
    echo "program: $(sha256sum "$program" | cut -d' ' -f1)"
    for name; do
        printf '\ntests/%s\n' "$name"
        sh "tests/$name" >"$file.part" || { cat "$file.part" >&2; exit 1; }
        sed 's/^/    /' "$file.part"
    done
    printf '\nload average at the end: %s\n' "$(cut -d' ' -f1-3 /proc/loadavg)"
} >"$file.new"
mv "$file.new" "$file"
echo "$file has the figures of $# tests"
