#!/bin/sh
# Runs a script of 500 lines over a store in a real file, in two runs, and lets Debian's sqlite3 judge the file.
# The answers have to be those of `taskboard run`, over lists. It needs the package sqlite3, and the Rattle kit.
set -eu

top=$(cd "$(dirname "$0")/../.." && pwd)
folder=$(mktemp -d)
trap 'rm -rf "$folder"' EXIT

# Builds the program where it is proved.
(cd "$top/crates/tests" && rt run -- --memory </dev/null)
program=$top/crates/tests/out/tests
taskboard=$("$top/taskboard" --where)
cd "$folder"

expect() {
    if [ "$2" != "$3" ]; then
        echo "$1: expected '$2', but got '$3'"
        exit 1
    fi
}

ask() {
    sqlite3 boards.db "$1"
}

# 500 calls, an hour of the script's time for every ten. A daily template makes instances as the days pass, and every tenth call is
# the one before it again, under its identifier.
make_script() {
    awk 'BEGIN {
        OFS = "\t"
        first[1] = "person\tbob\tbob-key-01"
        first[2] = "board\tShop"
        first[3] = "role\t1\tbob\tmember"
        first[4] = "add\t1\t{\"description\":\"Water\",\"due\":\"20260301T060000Z\",\"recur\":\"daily\"}"
        first[5] = "ahead\t1\t3"
        first[6] = "role\t2\tbob\treader"
        for (n = 1; n <= 500; n++) {
            ten = int(n / 10)
            at = sprintf("202603%02dT%02d0000Z", 1 + int(ten / 24), ten % 24)
            if (n % 10 != 0) {
                id = sprintf("00000000-0000-4000-8000-%012d", n)
                words = n in first ? first[n] : words_of(n % 10, ten)
            }
            print at, "root", "root-key-1", id, words
        }
    }
    function words_of(step, ten) {
        if (ten > 0 && step == 6) return "done\t1\t" task(ten, 1)
        if (ten > 0 && step == 7) return "depend\t1\t" task(ten, 5) "\t" task(ten, 1)
        if (ten > 0 && step == 8) return "annotate\t1\t" task(ten, 5) "\tat the \"market\""
        if (ten > 0 && step == 9) return "modify\t1\t" task(ten, 5) "\t{\"priority\":\"H\",\"tags\":\"b,a\"}"
        if (step == 4) return "add\t1\t{\"description\":\"Task without a uuid\"}"
        return "add\t1\t{\"description\":\"Task\",\"uuid\":\"" task(ten, step) "\"}"
    }
    function task(ten, step) {
        return sprintf("dddddddd-dddd-4ddd-8ddd-%012d", ten * 10 + step)
    }'
}

line_count() {
    grep -c "$1" "$2" || true
}

make_script >script
"$taskboard" run <script >expected
"$program" --memory <script | cmp expected -
head -n 250 script | "$program" boards.db >answers
tail -n 250 script | "$program" boards.db >>answers
cmp expected answers
expect "answers" 500 "$(line_count '' answers)"
expect "accepted" 500 "$(line_count '^200 0 ' answers)"

printf '20260401T000000Z\troot\troot-key-1\t00000000-0000-4000-8000-000000000000\texport\t1\n' | "$program" boards.db >exported

expect "integrity" "ok" "$(ask 'PRAGMA integrity_check')"
expect "foreign keys" "" "$(ask 'PRAGMA foreign_key_check')"
expect "meta" "1|taskboard|2" "$(ask 'SELECT * FROM meta')"
expect "people" "1|root
2|bob" "$(ask 'SELECT id, name FROM person ORDER BY id')"
expect "boards" "1|board
2|Shop" "$(ask 'SELECT id, title FROM board ORDER BY id')"
expect "roles" "1|1|1
1|2|2
2|1|1
2|2|3" "$(ask 'SELECT board, person, kind FROM role ORDER BY board, person')"
expect "horizon" "1|3
2|1" "$(ask 'SELECT board, ahead FROM horizon ORDER BY board')"
expect "tasks" "$(line_count '^{' exported)" "$(ask 'SELECT count(*) FROM task WHERE board = 1')"
expect "places" "$(line_count '^{' exported)" "$(ask 'SELECT max(place) FROM task WHERE board = 1')"
expect "links" "$(line_count '"depends":' exported)" "$(ask 'SELECT count(*) FROM link')"
expect "instances" "$(line_count '"imask":' exported)" "$(ask 'SELECT count(*) FROM instance')"
expect "mask" "$(sed -n 's/.*"mask":"\([^"]*\)".*/\1/p' exported)" "$(ask 'SELECT mask FROM task WHERE mask IS NOT NULL')"
expect "gone" 0 "$(ask 'SELECT count(*) FROM gone')"
expect "least free number" "$(line_count '"uuid":"00000001-0000-8000-8000-' exported)" "$(ask 'SELECT low - 1 FROM board WHERE id = 1')"
expect "kept replies" "$(cut -f 4 script | sort -u | wc -l)" "$(ask 'SELECT count(*) FROM kept')"
echo "sqlite3 reads the file of 500 calls"
