#!/bin/sh
# Makes a board in a real file, adds a task over HTTP twice under one identifier, and lists it over HTTP and by the program;
# imports tasks, and tries what is refused. It needs python3, and takes seconds once the program is there.
set -eu

. "$(dirname "$0")/../lib/prepare.sh"

# Sends one message as ann.
send() {
    method=$1
    target=$2
    body=$3
    shift 3
    python3 "$top/tests/lib/send.py" "$port" "$method" "$target" "$body" x-member:ann x-key:ann-key-1 "$@"
}

add() {
    send POST /boards/1/tasks '{"description":"Buy milk"}' x-request-id:00000000-0000-4000-8000-000000000001
}

ends 0 "" run </dev/null
ends 0 "" init b.db ann ann-key-1
# The order copies its log into the file, so that the file is whole without it.
rm -f b.db-wal
ends 1 "taskboard: NotEmpty" init b.db ann ann-key-1
start_server 3

added='{"added":0,"board":1,"dropped":0,"more":false,"uuid":"00000001-0000-8000-8000-000000000001"}'
listed='place  urgency flg due              project      description
    1    0.000 --- -                -            Buy milk
1 of 1 tasks'
expect "add" "$added" "$(add)"
expect "the same add again" "$added" "$(add)"
"$program" init other.db ann ann-key-1
ends 1 "taskboard: NoListen" serve other.db --port "$port"
# The file that is served is the server's alone.
ends 1 "taskboard: Store" list b.db ann ann-key-1 1
ends 1 "taskboard: Store" serve b.db --port "$port"
expect "list" "$listed" "$(send GET /boards/1/list '')"

status=0
wait "$server" || status=$?
server=
expect "status of serve after its connections" 0 "$status"
ends 0 "$listed" list b.db ann ann-key-1 1
ends 1 '{"name":"UnknownCaller","refused":1}' list b.db ann ann-key-2 1
ends 1 '{"name":"NoBoard","refused":3}' todo b.db ann ann-key-1 2

# A line for each message, without its key: moment, name, method, path, status, bytes of the answer, milliseconds.
timeout 120 "$program" serve other.db --port "$port" --connections 3 --log 2>log &
server=$!
send GET /boards/1/list '' >/dev/null
python3 "$top/tests/lib/send.py" "$port" GET /boards/1/list '' x-member:ann x-key:ann-key-2 >/dev/null
python3 "$top/tests/lib/send.py" "$port" GET '/no"\x01' '' >/dev/null
wait "$server"
server=
logged='MOMENT ann GET /boards/1/list 200 BYTES MS
MOMENT ann GET /boards/1/list 401 BYTES MS
MOMENT - GET /no"\x5cx01 404 BYTES MS'
expect "the log" "$logged" "$(sed -n 's/^[0-9]\{8\}T[0-9]\{6\}Z \(.*\) [0-9][0-9]* [0-9][0-9]*$/MOMENT \1 BYTES MS/p' log)"

# A folder is a page where it has an index.html, and with the folders in it at most 128 files with 8 MiB.
mkdir page page/core
ends 1 "taskboard: NoPage" serve other.db --port "$port" --page nowhere
ends 1 "taskboard: NoPage" serve other.db --port "$port" --page page
for number in $(seq 64); do
    echo "// $number" | tee "page/core/$number.js" >"page/$number.js"
done
echo '<p>Hi</p>' >page/index.html
ends 1 "taskboard: NoPage" serve other.db --port "$port" --page page
rm page/64.js
# Folders further down or with a dot, links and pipes are passed over, so that the files are still 128.
mkdir page/folder.js page/core/deep page/.git
echo deep | tee page/core/deep/1.js page/folder.js/1.js >page/.git/1.js
ln -s index.html page/link.html
ln -s core page/linked
mkfifo page/pipe.js page/core/pipe.js
timeout 120 "$program" serve other.db --port "$port" --connections 7 --page page 2>/dev/null &
server=$!
expect "a page of 128 files" '<p>Hi</p>' "$(send GET / '')"
expect "a file in a folder" '// 64' "$(send GET /core/64.js '')"
for target in /core/deep/1.js /folder.js/1.js /.git/1.js /linked/1.js /core/../index.html; do
    expect "$target" '{"name":"NoRoute"}' "$(send GET $target '')"
done
wait "$server"
server=
head -c 8388608 /dev/zero >page/core/64.js
ends 1 "taskboard: NoPage" serve other.db --port "$port" --page page

# Imports a text, which `ends` passes on.
import() {
    printf '%s' "$1" >text
    shift
    ends "$@" <text
}

first=00000000-0000-4000-8000-000000000002
second=00000000-0000-4000-8000-000000000003
third=00000000-0000-4000-8000-000000000004
imported='{"added":0,"board":1,"known":0,"more":false,"new":1}'
import '(A) Call Mom' 0 "$imported" import b.db ann ann-key-1 "$first" 1 todo
import '(A) Call Mom' 0 "$imported" import b.db ann ann-key-1 "$first" 1 todo
import '(B) Call Mom' 1 '{"name":"IdReused","refused":2}' import b.db ann ann-key-1 "$first" 1 todo
# Without lines, another kind under the same identifier is another import.
import '' 0 '{"added":0,"board":1,"known":0,"more":false,"new":0}' import b.db ann ann-key-1 "$third" 1 todo
import '' 1 '{"name":"IdReused","refused":2}' import b.db ann ann-key-1 "$third" 1 json
import '[{' 1 "taskboard: BadBody" import b.db ann ann-key-1 "$second" 1 json
head -c 1048577 /dev/zero | tr '\0' ' ' >text
ends 1 "taskboard: BadBody" import b.db ann ann-key-1 "$second" 1 json <text
ends 0 "boards 1 tasks 2 faults 0" check b.db

ends 1 "taskboard: Store" init no/such/folder.db ann ann-key-1
python3 -c 'import sqlite3; sqlite3.connect("strange.db").execute("CREATE TABLE note(text)")'
ends 1 "taskboard: NotOurs" check strange.db
ends 1 "taskboard: Store" list missing.db ann ann-key-1 1
if [ -e missing.db ] || [ -e missing.db-wal ]; then
    echo "an order on a file that isn't there made it"
    exit 1
fi
if [ "$(stat -c %a b.db)" != 600 ]; then
    echo "others may read a new file"
    exit 1
fi
ends 1 "taskboard: Store" list . ann ann-key-1 1
echo 'no database' >letter.txt
ends 1 "taskboard: Store" list letter.txt ann ann-key-1 1
ends 2 "taskboard: Bad" fly
ends 2 "taskboard: Bad" serve b.db --port 0
echo "served"
