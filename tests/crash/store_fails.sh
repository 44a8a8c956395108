#!/bin/sh
# Lets the file of a server fail, by a limit on the size of files: standard error tells on which message it failed, what was told before stands
# when the file is opened again, and the message that failed is sent again and counts once. It needs python3, and takes seconds.
set -eu

. "$(dirname "$0")/../lib/prepare.sh"

# Adds the task of this number, with a long description, and prints the answer.
add() {
    python3 "$top/tests/lib/send.py" "$port" POST /boards/1/tasks "{\"description\":\"$1 $long\"}" \
        x-member:ann x-key:ann-key-1 "x-request-id:00000000-0000-4000-8000-000000000$1"
}

long=$(printf '%03000d' 0)
"$program" init b.db ann ann-key-1
(
    trap '' XFSZ
    ulimit -f 300
    exec timeout 120 "$program" serve b.db --port "$port" --connections 100 2>told
) &
server=$!
number=100
answer=$(add $number)
while [ "$answer" != '{"name":"Store"}' ] && [ $number -lt 190 ]; do
    number=$((number + 1))
    answer=$(add $number)
done
status=0
wait "$server" || status=$?
server=
if [ "$status" != 1 ] || [ "$answer" != '{"name":"Store"}' ]; then
    echo "the file didn't fail: status $status, answer $answer"
    exit 1
fi
line='^taskboard: the file failed while POST /boards/1/tasks of ann was handled at [0-9]*T[0-9]*Z; its outcome is known when the file is opened again$'
if [ "$(grep -c "$line" told)" != 1 ] || ! grep -qx "taskboard: Store" told; then
    echo "standard error doesn't tell of the message that failed:"
    cat told
    exit 1
fi

# The call that failed may have acted: it is sent again, and counts once.
start_server 1
add $number >/dev/null
wait "$server"
server=
expect "after the last add was sent again" "boards 1 tasks $((number - 99)) faults 0" "$("$program" check b.db)"
echo "the file failed on message $((number - 99)), which was told of, and each task is there once"
