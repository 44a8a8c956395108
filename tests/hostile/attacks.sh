#!/bin/sh
# Attacks a service as contrib/systemd has it, without systemd: another user takes its port while it's down; HUP and INT; a disk that is full;
# text for whoever is told of a failure; a connection to another address of the machine; what floods or stalls its log.
# It needs root for users, networks and disks of its own, setpriv and curl, and takes some ten seconds once the program is there.
set -eu

. "$(dirname "$0")/../lib/prepare.sh"

if [ "$(id -u)" -ne 0 ]; then
    echo "skipped, since it needs root"
    exit 0
fi
needs attacks ip setpriv unshare
chmod 711 "$folder"
# A network with two addresses of its own, and mounts that end with it.
unshare --net --mount sh -c '
    ip link set lo up
    ip address add 192.0.2.7/32 dev lo
    exec "$@"' sh python3 "$top/tests/hostile/attacks.py" "$program" "$top"
