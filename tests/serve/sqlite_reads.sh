#!/bin/sh
# Makes boards in a real file by the program, with rows in each table, and lets Debian's sqlite3 judge the file.
# It needs the packages sqlite3 and python3, and takes seconds once the program is there.
set -eu

. "$(dirname "$0")/../lib/prepare.sh"

ask() {
    sqlite3 b.db "$1"
}

expect() {
    if [ "$2" != "$3" ]; then
        echo "$1: expected '$2', but got '$3'"
        exit 1
    fi
}

# Sends a POST as ann, under an identifier of this number.
send() {
    number=$1
    target=$2
    body=$3
    python3 "$top/tests/lib/send.py" "$port" POST "$target" "$body" x-member:ann x-key:ann-key-1 \
        "x-request-id:00000000-0000-4000-8000-00000000000$number" >/dev/null
}

template=11111111-1111-4111-8111-111111111111
instance=22222222-2222-4222-8222-222222222222
milk=33333333-3333-4333-8333-333333333333

# A template without an end, whose first instance is on the board; the second was deleted.
cat >tasks <<TASKS
[{"uuid":"$template","description":"rent","status":"recurring","due":"29990101T090000Z","recur":"monthly","mask":"-X"},
{"uuid":"$instance","description":"rent","recur":"monthly","parent":"$template","imask":0,"due":"29990101T090000Z"},
{"uuid":"$milk","description":"buy milk"}]
TASKS

"$program" init b.db ann ann-key-1
"$program" import b.db ann ann-key-1 00000000-0000-4000-8000-000000000001 1 json <tasks >/dev/null
start_server 4
send 2 /people '{"name":"bob","key":"bob-key-01"}'
send 3 /boards/1/roles '{"member":"bob","role":"reader"}'
send 4 "/boards/1/tasks/$milk/depend" "{\"on\":\"$instance\"}"
send 5 /boards/1/ahead '{"ahead":2}'
wait "$server"
server=

expect "integrity" "ok" "$(ask 'PRAGMA integrity_check')"
expect "foreign keys" "" "$(ask 'PRAGMA foreign_key_check')"
expect "tables" "meta person board role task link instance gone kept horizon" \
    "$(ask "SELECT name FROM sqlite_schema WHERE type = 'table' ORDER BY rootpage" | tr '\n' ' ' | sed 's/ $//')"
for table in meta person board role task link instance gone kept horizon; do
    if ! ask ".schema $table" | grep -q "CREATE TABLE $table(.*) STRICT"; then
        echo "the table $table is not STRICT, or is not there"
        exit 1
    fi
done
expect "meta" "1|taskboard|2" "$(ask 'SELECT * FROM meta')"
expect "people" "1|ann
2|bob" "$(ask 'SELECT id, name FROM person ORDER BY id')"
expect "board" "1|board|1" "$(ask 'SELECT * FROM board')"
expect "roles" "1|1|1
1|2|3" "$(ask 'SELECT * FROM role ORDER BY person')"
expect "horizon" "1|2" "$(ask 'SELECT * FROM horizon')"
expect "tasks" "1|rent|-X|16|blob
2|rent||16|blob
3|buy milk||16|blob" \
    "$(ask "SELECT place, json_extract(body, '\$.description'), mask, length(uuid), typeof(uuid) FROM task ORDER BY place")"
expect "links" "1|3|2" "$(ask 'SELECT * FROM link')"
expect "instances" "1|1|0|2" "$(ask 'SELECT * FROM instance')"
expect "gone" "1|1|1|X" "$(ask 'SELECT * FROM gone')"
expect "kept" "1|16|0|200
1|16|0|200
1|16|0|200
1|16|0|200
1|16|0|200" "$(ask 'SELECT person, length(id), number, status FROM kept ORDER BY id')"
expect "contents" "5|blob" "$(ask 'SELECT count(DISTINCT content), typeof(content) FROM kept WHERE length(content) > 0 GROUP BY typeof(content)')"
echo "sqlite3 reads it"
