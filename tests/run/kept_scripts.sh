#!/bin/sh
# Runs each script of the worked examples over a store in memory, and over one in a real file that a new process opens for each line.
# The answers have to be those that stand beside the script. It needs the Rattle kit.
set -eu

top=$(cd "$(dirname "$0")/../.." && pwd)
data=$top/crates/tests/data
folder=$(mktemp -d)
trap 'rm -rf "$folder"' EXIT

# Builds the program where it is proved.
(cd "$top/crates/tests" && rt run -- --memory </dev/null)
program=$top/crates/tests/out/tests
cd "$folder"

run_line_by_line() {
    while IFS= read -r line || [ -n "$line" ]; do
        printf '%s\n' "$line" | "$program" "$1"
    done
}

compare() {
    if ! cmp "$data/$1.answers" answers; then
        echo "$1: answered otherwise over $2"
        exit 1
    fi
}

count=0
for script in "$data"/*.script; do
    name=$(basename "$script" .script)
    "$program" --memory <"$script" >answers
    compare "$name" "memory"
    run_line_by_line "$name.db" <"$script" >answers
    compare "$name" "a file"
    count=$((count + 1))
done
echo "all $count scripts are answered as written"
