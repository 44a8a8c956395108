#!/bin/sh
# What the program shows by itself, in minutes and without a prover: the worked scripts, the bytes of connections, also broken ones, orders
# over real files, a server that is killed or whose file fails, silent, slow and many clients, its page in a browser, files that another
# hand changed, copies of a file that is served, restoring, watching, a proxy, installing, a machine that fails or has no memory, and what the
# documents show (docs/TESTING.md).
# What a machine lacks is skipped by name. Three streams of tests run beside each other, in some eight minutes.
set -u
cd "$(dirname "$0")/.."

# A machine that has other work too may take longer than a test that is run alone allows.
export LONGEST=${LONGEST:-5}
# Each way in which a machine fails the program is tried once; by itself that test tries more.
export TRIES=${TRIES:-1}
# What is drawn by chance is the same each time; by itself a test draws anew.
export SEED=${SEED:-1}
# Two sides are edited for two days, with fewer tasks; by itself that test takes a week.
export SYNC_TASKS=${SYNC_TASKS:-60} SYNC_DAYS=${SYNC_DAYS:-2}

# Runs a test, for MOST seconds at most, and then prints what it said, whole.
MOST=1200
run() {
    said=$room/${1##*/}
    case $1 in
    *.py) timeout "$MOST" python3 "tests/$1" "$(./taskboard --where)" ;;
    *) timeout "$MOST" sh "tests/$1" ;;
    esac >"$said" 2>&1
    status=$?
    (flock 9 && echo "$1:" && cat "$said") 9>"$room/lock"
    return "$status"
}

# Runs a test where the programs that it needs are there: attempt NAME NEEDED.. One in a browser that fails is run once more, and says so,
# since a browser may be late for once. No other is: a fault that shows once in many tries is a fault.
attempt() {
    name=$1
    shift
    for needed in "$@"; do
        if ! command -v "$needed" >/dev/null 2>&1; then
            echo "$name: skipped, since $needed isn't there"
            return
        fi
    done
    run "$name" && return
    case $name in
    page/*)
        echo "$name: FAILED, and is run once more"
        run "$name" && return
        ;;
    esac
    echo "$name" >>"$room/failed"
}

of_pages() {
    attempt page/modules.py python3
    attempt page/units.sh node
    attempt page/copies.sh node
    attempt page/page.sh python3
    attempt serve/wire.py python3
    attempt crash/sums.py python3
    attempt run/client.sh python3
}

of_orders() {
    attempt run/scripts.py python3
    attempt hostile/mutations.sh python3
    attempt serve/serve.sh python3
    attempt run/keys.sh python3
    attempt run/import.sh python3
    attempt crash/kill.sh python3
    attempt crash/store_fails.sh python3
    attempt hostile/strange_rows.sh python3
    attempt run/old_file.py python3
    attempt crash/logs.py python3
    attempt serve/moved.py python3
    attempt serve/curl.sh python3 curl
    attempt hostile/silent.sh python3
    attempt run/own_key.sh python3
    attempt run/my.sh python3
    attempt run/tls.sh python3
    attempt tools/kits.py python3
    attempt sync/sync.sh python3
    attempt sync/own_cleaning.sh python3
    attempt sync/clean.sh python3 task
    attempt operate/remind.sh python3
    attempt documents.sh python3
}

of_machines() {
    attempt page/browser.sh python3
    attempt page/firefox.sh python3
    attempt hostile/crowd.sh python3
    attempt hostile/rates.sh python3
    attempt hostile/attacks.sh python3 curl
    attempt hostile/rooms.sh python3
    attempt serve/clients.sh python3
    attempt operate/backup.sh python3
    attempt operate/restore.sh python3
    attempt operate/watch.sh python3
    attempt operate/proxy.sh python3
    attempt operate/install.sh sh
    attempt operate/package.sh dpkg-deb
    attempt operate/ship.sh python3
    attempt crash/faults.sh python3
    attempt crash/power.sh python3 strace
    attempt crash/memory.sh python3 cc
}

room=$(mktemp -d)
trap 'rm -rf "$room"' EXIT
trap 'rm -rf "$room"; trap - TERM; kill 0' INT TERM HUP
: >"$room/failed"
of_pages &
of_orders &
of_machines &
wait

if [ -s "$room/failed" ]; then
    echo "FAILED: $(tr '\n' ' ' <"$room/failed")"
    exit 1
fi
echo "the quick tests passed"
