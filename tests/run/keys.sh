#!/bin/sh
# Gives keys in a file that isn't served: made and read, to the first person and to others, and what is refused; and gives each order
# over a file a key that stands on no command line. It needs python3, and takes seconds once the program is there.
set -eu

. "$(dirname "$0")/../lib/prepare.sh"

# The first line is a key that was made: that of an identifier of version 4.
is_made() {
    echo "$1" | grep -Eqx '[0-9a-f]{8}-[0-9a-f]{4}-4[0-9a-f]{3}-[89ab][0-9a-f]{3}-[0-9a-f]{12}' || fail "$1: no key was made"
}

# Asks the server who somebody is, and compares the status of the answer.
knows() {
    found=$(python3 "$top/tests/lib/send.py" "$port" GET /me '' "x-member:$2" "x-key:$3" 2>&1) || true
    case $1:$found in
    yes:*\"name\":\"$2\"* | no:*UnknownCaller*) ;;
    *) fail "$2 with $3 is known: expected $1, but got '$found'" ;;
    esac
}

HOME=$folder
export HOME
unset TASKBOARD_KEY
mkdir -p .config/taskboard
umask 077
unknown='{"name":"UnknownCaller","refused":1}'

# Each order over a file takes a key that is kept elsewhere, and without one says so.
ends 1 "taskboard: NoKey" init b.db ann -
[ ! -e b.db ] || fail "init made a file without a key"
echo ann-key-1 >.config/taskboard/key
ends 0 "" init b.db ann -
ends 0 "$("$program" list b.db ann ann-key-1 1)" list b.db ann - 1
ends 0 "$("$program" export b.db ann ann-key-1 1)" export b.db ann - 1
ends 0 "" todo b.db ann - 1
printed=$(echo 'Buy milk' | "$program" import b.db ann - 00000000-0000-4000-8000-000000000001 1 todo)
case $printed in
*'"new":1'*) ;;
*) fail "import with a key that is kept: $printed" ;;
esac
printed=$(echo 'Call bank' | "$program" import b.db ann - 00000000-0000-4000-8000-000000000002 1 todo --all)
case $printed in
*'"new":1'*) ;;
*) fail "import --all with a key that is kept: $printed" ;;
esac
chmod 644 .config/taskboard/key
ends 1 "taskboard: NoKey" list b.db ann - 1
chmod 600 .config/taskboard/key
ends 0 "$("$program" list b.db ann ann-key-1 1)" list b.db ann - 1
export TASKBOARD_KEY=ann-key-9
ends 1 "$unknown" list b.db ann - 1
unset TASKBOARD_KEY
ends 2 "taskboard: Bad" list b.db ann -- 1

# The first person gets a key that is made: it is printed once, and is the only one from then on.
made=$("$program" key b.db ann)
is_made "$made"
ends 1 "$unknown" list b.db ann ann-key-1 1
ends 0 "$("$program" todo b.db ann "$made" 1)" todo b.db ann "$made" 1
again=$("$program" key b.db ann)
is_made "$again"
[ "$made" != "$again" ] || fail "the same key was made twice"
ends 1 "$unknown" list b.db ann "$made" 1

# One that is made is the only one also where it can't be printed: nobody has seen it, and what is told says to give another.
lost() {
    expect "status of a key that can't be printed" 1 "$1"
    expect "a key that can't be printed" "taskboard: WriteFailed" "$(head -n 1 told)"
    grep -q 'Give another with `taskboard key`' told || fail "a key that can't be printed: nothing says to give another"
    ends 1 "$unknown" list b.db ann "$again" 1
    ends 0 "boards 1 tasks 2 faults 0" check b.db
    again=$("$program" key b.db ann)
    is_made "$again"
    ends 0 "$("$program" todo b.db ann "$again" 1)" todo b.db ann "$again" 1
}
status=0
"$program" key b.db ann >/dev/full 2>told || status=$?
lost "$status"
status=0
"$program" key b.db ann >&- 2>told || status=$?
lost "$status"

# One that is read is the first line, without the white space at its end; what is no key changes nothing.
for no_key in '' 'short' 'with a blank' "$(printf '\nann-key-3')"; do
    printf '%s' "$no_key" >input
    ends 1 "taskboard: NoKey" key b.db ann - <input
done
ends 0 "$("$program" todo b.db ann "$again" 1)" todo b.db ann "$again" 1
printf 'ann-key-2 \r\nand more\n' >input
ends 0 '{"person":"ann"}' key b.db ann - <input
ends 1 "$unknown" list b.db ann "$again" 1
ends 0 "$("$program" todo b.db ann ann-key-2 1)" todo b.db ann ann-key-2 1
status=0
"$program" key b.db ann - <input >/dev/full 2>told || status=$?
expect "status of a key that is read, and not told" 1 "$status"
expect "a key that is read, and not told" "taskboard: WriteFailed" "$(head -n 1 told)"
ends 0 '{"person":"ann"}' key b.db ann - <input
ends 0 "$("$program" todo b.db ann ann-key-2 1)" todo b.db ann ann-key-2 1

# Others too, also who has no key; who isn't there gets none.
start_server 1
python3 "$top/tests/lib/send.py" "$port" POST /people '{"name":"bob","key":"bob-key-01"}' x-member:ann x-key:ann-key-2 \
    x-request-id:00000000-0000-4000-8000-000000000003 >/dev/null
wait "$server"
server=
bobs=$("$program" key b.db bob)
is_made "$bobs"
ends 1 '{"name":"NoPerson","refused":13}' key b.db zed
echo zed-key-01 >input
ends 1 '{"name":"NoPerson","refused":13}' key b.db zed - <input

# A file that is served is the server's alone, and a server knows the new keys.
start_server 6
knows no bob bob-key-01
knows yes bob "$bobs"
knows yes ann ann-key-2
ends 1 "taskboard: Store" key b.db bob
echo bob-key-02 >input
ends 1 "taskboard: Store" key b.db bob - <input
knows yes bob "$bobs"
python3 "$top/tests/lib/send.py" "$port" POST /people/bob/key '{"key":null}' x-member:ann x-key:ann-key-2 \
    x-request-id:00000000-0000-4000-8000-000000000004 >/dev/null
knows no bob "$bobs"
wait "$server"
server=
ends 0 '{"person":"bob"}' key b.db bob - <input
start_server 1
knows yes bob bob-key-02
wait "$server"
server=

# Other files, and words that are no order. A file that isn't there isn't made.
python3 -c 'import sqlite3; sqlite3.connect("other.db").execute("CREATE TABLE task(id)")'
ends 1 "taskboard: NotOurs" key other.db ann
echo 'no database' >broken.db
ends 1 "taskboard: Store" key broken.db ann
ends 1 "taskboard: Store" key none.db ann
[ ! -e none.db ] || fail "key made a file"
ends 2 "taskboard: Bad" key b.db
ends 2 "taskboard: Bad" key b.db Ann
ends 2 "taskboard: Bad" key b.db ann ann-key-4
ends 0 "boards 1 tasks 2 faults 0" check b.db
echo "keys: given by the file's owner, and read from where they are kept"
