#!/bin/sh
# The programs that the tests need, each with the Debian packages that bring it. `packages.sh install` installs what isn't there: it needs root
# and apt-get, tries three times, and takes MOST seconds at most. `packages.sh judge LOG` fails where a test of that log was skipped for want
# of a program that could be there, and names the tests that weren't run since a package can't be had.
set -u

MOST=${MOST:-420}
PACKAGES='
python3 python3
chromium chromium
chromedriver chromium-driver
firefox-esr firefox-esr
curl curl
sqlite3 sqlite3
strace strace
cc gcc libc6-dev
nginx nginx libnginx-mod-http-lua
ip iproute2
node nodejs
tsc node-typescript
openssl openssl
sshd openssh-server
task taskwarrior
todo-txt todotxt-cli
pyflakes3 pyflakes3
mypy mypy
'

is_there() {
    command -v "$1" >/dev/null 2>&1
}

# The packages of the programs that aren't there, a line for each program.
missing() {
    echo "$PACKAGES" | while read -r program packages; do
        [ -z "$program" ] || is_there "$program" || echo "$packages"
    done
}

packages_of() {
    echo "$PACKAGES" | sed -n "s/^$1 //p"
}

# Asks apt-get, as long as there is time.
get() {
    left=$((deadline - $(date +%s)))
    [ "$left" -gt 0 ] && DEBIAN_FRONTEND=noninteractive timeout "$left" apt-get -qq -y -o DPkg::Lock::Timeout=60 "$@" </dev/null
}

# A package that can't be had keeps no other from coming: the last try asks for each alone.
install() {
    deadline=$(($(date +%s) + MOST))
    for try in 1 2 3; do
        [ -n "$(missing)" ] || return 0
        echo "installing, try $try of 3: $(missing | tr '\n' ' ')"
        get update
        # shellcheck disable=SC2046 # each package is a word
        [ "$try" -eq 3 ] || get install $(missing)
    done
    missing | while read -r packages; do
        # shellcheck disable=SC2086
        get install $packages || echo "can't be had: $packages"
    done
}

# A test that is skipped for want of a program says: NAME: skipped, since PROGRAM isn't there
judge() {
    sed -n "s/^\(.*\): skipped, since \([^ ]*\) isn't there\$/\2 \1/p" "$1" | sort -u >"$1.skipped"
    status=0
    while read -r program test; do
        packages=$(packages_of "$program")
        if [ -n "$packages" ] && ! is_there "$program"; then
            echo "NOT RUN: $test, since $packages can't be had"
        else
            echo "FAILED: $test was skipped, though $program could be there: tests/packages.sh has the packages"
            status=1
        fi
    done <"$1.skipped"
    return $status
}

case ${1-} in
install) install ;;
judge) judge "$2" ;;
*) echo "usage: packages.sh install | judge LOG" >&2; exit 2 ;;
esac
