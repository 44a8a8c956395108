# What the tests of the running program begin with, which read this file: the program, a folder of their own that they work in, a port
# that nobody has, a server that they may start, which programs they need, and how they compare what an order ends with. Folder and server are gone at their end.
top=$(readlink -f "$0")
top=${top%/tests/*}
# (the modules that tests share)
export PYTHONPATH="$top/tests/lib"
folder=$(mktemp -d)
server=
trap 'if [ -n "$server" ]; then kill "$server" 2>/dev/null || true; fi; rm -rf "$folder"' EXIT

program=$("$top/taskboard" --where)
port=${PORT:-$(python3 "$top/tests/lib/connecting.py")}
cd "$folder"

# Serves b.db, up to this number of connections.
start_server() {
    timeout 120 "$program" serve b.db --port "$port" --connections "$1" 2>/dev/null &
    server=$!
}

# Makes b.db, in which ann has a board, and serves it until the test ends.
serve_new_file() {
    "$program" init b.db ann ann-key-1
    "$program" serve b.db --port "$port" --forever 2>/dev/null &
    server=$!
}

# Runs the program with the words after the first two, and compares its status, what it prints and the first line of what it tells; a
# fault has a line after it.
ends() {
    wanted_status=$1
    wanted=$2
    shift 2
    status=0
    printed=$("$program" "$@" 2>told) || status=$?
    expect "$*" "$wanted" "$printed$(head -n 1 told)"
    if [ -s told ] && [ "$(wc -l <told)" -lt 2 ]; then
        fail "$*: nothing says what to do"
    fi
    expect "status of $*" "$wanted_status" "$status"
}

fail() {
    echo "$1"
    exit 1
}

is_there() {
    command -v "$1" >/dev/null 2>&1
}

# Ends the test of this name where one of the programs after it isn't there. (tests/packages.sh judge reads that line.)
needs() {
    whose=$1
    shift
    for needed in "$@"; do
        if ! is_there "$needed"; then
            echo "$whose: skipped, since $needed isn't there"
            exit 0
        fi
    done
}

expect() {
    [ "$2" = "$3" ] || fail "$1: expected '$2', but got '$3'"
}
