#!/bin/sh
# Lets curl add a task, send it again under its identifier, and list it. It needs curl, and takes seconds once the program is there.
set -eu

. "$(dirname "$0")/../lib/prepare.sh"

"$program" init b.db ann ann-key-1
start_server 3

# Sends one message as ann; the server may still be starting.
send() {
    curl --silent --show-error --max-time 10 --retry 30 --retry-delay 1 --retry-connrefused \
        --header 'x-member: ann' --header 'x-key: ann-key-1' "$@"
}

add() {
    send --header 'x-request-id: 00000000-0000-4000-8000-000000000001' \
        --data '{"description":"Buy milk"}' "http://127.0.0.1:$port/boards/1/tasks"
}

first=$(add)
again=$(add)
if [ "$first" != '{"added":0,"board":1,"dropped":0,"more":false,"uuid":"00000001-0000-8000-8000-000000000001"}' ] || [ "$first" != "$again" ]; then
    echo "an add was answered '$first', and then '$again'"
    exit 1
fi
listed=$(send "http://127.0.0.1:$port/boards/1/list")
case $listed in
*"Buy milk"*"1 of 1 tasks") ;;
*)
    echo "the board was listed as '$listed'"
    exit 1
    ;;
esac
wait "$server"
server=
echo "curl is answered"
